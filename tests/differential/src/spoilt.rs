//! A side for tests of the comparison: the reference, its answers and what it
//! wrote changed; and faults of elements, of pegs, of lines from coordinates, of
//! heights, of editions and of the unit spiral table.

use crate::side::{fill_elements, stretches_of, Answer, Reference, Side};
use reference::curve::Curve;
use reference::edition::{Edition, FIRST};
use reference::elements::{
    elements, quotient, rule_with, shorter_x_ratio, shorter_y_ratio, x_ratio, y_ratio, Ratios,
    GREATEST_SPIRAL, RATIOS, SCALE, SHORTER_RATIOS,
};
use reference::line::{Line, LEFT};
use reference::pegs::offsets_with;
use reference::points::{reached, Heading, GREATEST_COORDINATE, GREATEST_TURN};
use reference::profile::{Profile, STATIONS};
use reference::refusal::{refuse, Refusal};
use reference::road_tables::DesignSpeed;
use reference::samples::profiles::twice_factor;
use reference::samples::sheet_fields::{edition_said, EDITION};
use reference::sheet;
use reference::sight::stopping_distance;
use reference::unit_spiral::{row, GREATEST_THOUSANDTH, THOUSANDTH};

/// How the answer and the lent entries of a call are changed.
pub type Change<T> = fn(Answer, &mut [T]) -> Answer;

/// How the elements of a curve are worked out.
pub type ElementsCall = fn(Curve, &mut [u64]) -> Answer;

/// How a peg is worked out.
pub type PegCall = fn(&[u8], u64, &mut [i64]) -> Answer;

/// How a line is made of its points.
pub type PointsCall = fn(Heading, &[i64], &[u32], &mut [u32]) -> Answer;

/// How a height is worked out.
pub type HeightCall = fn(&[i64], u64, &mut [i64]) -> Answer;

/// How the text of a sheet is made.
pub type TextCall = fn(&[u8], &mut [u8]) -> Answer;

/// How the edition of a sheet is found.
pub type EditionCall = fn(&[u8]) -> Answer;

/// How a line is written in an edition.
pub type WriteCall = fn(u32, &[u32], &mut [u8]) -> Answer;

/// How a sheet is brought to an edition.
pub type ConvertCall = fn(&[u8], u32, &mut [u8]) -> Answer;

/// How X and Y of a row and a length are looked up.
pub type LookUpCall = fn(u32, u32, &mut [u64]) -> Answer;

/// How the unit spiral table is given.
pub type TableCall = fn(&mut [u64]) -> Answer;

pub struct Spoilt {
    /// Of calls that are lent a row, the numbers of elements or those of the unit spiral.
    pub numbers: Change<u64>,
    /// Of calls that are lent bytes, and of `check`, which is lent nothing.
    pub bytes: Change<u8>,
    /// Of `read` and `line_from_points`, which are lent the numbers of a line.
    pub line: Change<u32>,
    /// Of `peg` and `height`, which are lent signed numbers.
    pub signed: Change<i64>,
    /// Before that, the elements and the peg themselves.
    pub elements: ElementsCall,
    pub peg: PegCall,
    /// The same of the line that is made of points.
    pub points: PointsCall,
    /// The same of the height.
    pub height: HeightCall,
    /// The same of the text, of the sheet that is written and of the one that is
    /// converted.
    pub text: TextCall,
    pub write: WriteCall,
    pub convert: ConvertCall,
    /// The edition.
    pub edition: EditionCall,
    /// Before the change, what is looked up in the unit spiral table, and the table.
    pub look_up: LookUpCall,
    pub table: TableCall,
}

impl Spoilt {
    /// Nothing is changed.
    pub const NOT: Spoilt = Spoilt {
        numbers: |answer, _| answer,
        bytes: |answer, _| answer,
        line: |answer, _| answer,
        signed: |answer, _| answer,
        elements: |curve, numbers| Reference.elements(curve, numbers),
        peg: |sheet, station, numbers| Reference.peg(sheet, station, numbers),
        points: |heading, points, curves, line| {
            Reference.line_from_points(heading, points, curves, line)
        },
        height: |profile, station, numbers| Reference.height(profile, station, numbers),
        text: |sheet, text| Reference.text(sheet, text),
        write: |edition, line, bytes| Reference.write(edition, line, bytes),
        convert: |sheet, edition, bytes| Reference.convert(sheet, edition, bytes),
        edition: |sheet| Reference.edition(sheet),
        look_up: |thousandth, length, offsets| Reference.unit_spiral(thousandth, length, offsets),
        table: |ratios| Reference.unit_spiral_table(ratios),
    };
}

impl Side for Spoilt {
    fn stations(&self, sheet: &[u8], row: &mut [u64]) -> Answer {
        (self.numbers)(Reference.stations(sheet, row), row)
    }

    fn check(&self, sheet: &[u8]) -> Answer {
        (self.bytes)(Reference.check(sheet), &mut [])
    }

    fn rewrite(&self, sheet: &[u8], bytes: &mut [u8]) -> Answer {
        (self.bytes)(Reference.rewrite(sheet, bytes), bytes)
    }

    fn elements(&self, curve: Curve, numbers: &mut [u64]) -> Answer {
        (self.numbers)((self.elements)(curve, numbers), numbers)
    }

    fn text(&self, sheet: &[u8], text: &mut [u8]) -> Answer {
        (self.bytes)((self.text)(sheet, text), text)
    }

    fn read(&self, sheet: &[u8], line: &mut [u32]) -> Answer {
        (self.line)(Reference.read(sheet, line), line)
    }

    fn write(&self, edition: u32, line: &[u32], bytes: &mut [u8]) -> Answer {
        (self.bytes)((self.write)(edition, line, bytes), bytes)
    }

    fn edition(&self, sheet: &[u8]) -> Answer {
        (self.edition)(sheet)
    }

    fn convert(&self, sheet: &[u8], edition: u32, bytes: &mut [u8]) -> Answer {
        (self.bytes)((self.convert)(sheet, edition, bytes), bytes)
    }

    fn peg(&self, sheet: &[u8], station: u64, numbers: &mut [i64]) -> Answer {
        (self.signed)((self.peg)(sheet, station, numbers), numbers)
    }

    fn line_from_points(
        &self,
        heading: Heading,
        points: &[i64],
        curves: &[u32],
        line: &mut [u32],
    ) -> Answer {
        (self.line)((self.points)(heading, points, curves, line), line)
    }

    fn height(&self, profile: &[i64], station: u64, numbers: &mut [i64]) -> Answer {
        (self.signed)((self.height)(profile, station, numbers), numbers)
    }

    fn unit_spiral(&self, thousandth: u32, length: u32, offsets: &mut [u64]) -> Answer {
        (self.numbers)((self.look_up)(thousandth, length, offsets), offsets)
    }

    fn unit_spiral_table(&self, ratios: &mut [u64]) -> Answer {
        (self.numbers)((self.table)(ratios), ratios)
    }
}

/// Faults of elements: other last terms of x and y.
pub const ELEMENT_FAULTS: [(&str, ElementsCall); 7] = [
    (
        "x and y have source document 002's terms",
        |curve, numbers| elements_with(SHORTER_RATIOS, curve, numbers),
    ),
    ("x does not lose t6/9360", |curve, numbers| {
        let x = shorter_x_ratio;
        elements_with(Ratios { x, ..RATIOS }, curve, numbers)
    }),
    ("y does not gain t5/1320", |curve, numbers| {
        let y = shorter_y_ratio;
        elements_with(Ratios { y, ..RATIOS }, curve, numbers)
    }),
    ("x gains t6/9360", |curve, numbers| {
        let x = |t| 2 * shorter_x_ratio(t) - x_ratio(t);
        elements_with(Ratios { x, ..RATIOS }, curve, numbers)
    }),
    ("y loses t5/1320", |curve, numbers| {
        let y = |t| 2 * shorter_y_ratio(t) - y_ratio(t);
        elements_with(Ratios { y, ..RATIOS }, curve, numbers)
    }),
    ("x loses t6/936", |curve, numbers| {
        let x = |t| shorter_x_ratio(t) - quotient(cube(square(t)), 936);
        elements_with(Ratios { x, ..RATIOS }, curve, numbers)
    }),
    ("t5 is t3 × t", |curve, numbers| {
        let y = |t| shorter_y_ratio(t) + quotient(square(square(t)), 1_320);
        elements_with(Ratios { y, ..RATIOS }, curve, numbers)
    }),
];

fn square(t: i128) -> i128 {
    quotient(t * t, SCALE)
}

fn cube(t: i128) -> i128 {
    quotient(square(t) * t, SCALE)
}

/// The elements with these x and y.
fn elements_with(ratios: Ratios, curve: Curve, numbers: &mut [u64]) -> Answer {
    let Curve { a, r, l } = curve;
    elements(a, r, l)?;
    fill_elements(rule_with(ratios, a, r, l), numbers)
}

/// Where the numbers of a peg stand.
const KIND: usize = 0;
const NUMBER: usize = 1;
const LENGTH: usize = 2;
const X: usize = 3;
const Y: usize = 4;
const SPIRAL_IN: i64 = 1;
const SPIRAL_OUT: i64 = 3;

/// Faults of pegs.
pub const PEG_FAULTS: [(&str, PegCall); 10] = [
    ("x does not lose t6/9360", x_of_fewer_terms),
    ("y does not gain t5/1320", y_of_fewer_terms),
    ("y is not negated on a left curve", without_sides),
    ("the length on the spiral out runs from CS", out_from_cs),
    ("a shared station is the former element's", of_the_former),
    ("an empty spiral holds a station", in_empty_spirals),
    ("the end is refused", without_end),
    ("the last straight never ends", without_refusal_behind),
    ("16 comes before 17", small_buffer_first),
    ("6 for a start beyond edition 1", near_starts_only),
];

fn x_of_fewer_terms(sheet: &[u8], station: u64, numbers: &mut [i64]) -> Answer {
    let answer = Reference.peg(sheet, station, numbers)?;
    if let Some((x, _)) = offsets_of_fewer_terms(sheet, numbers) {
        numbers[X] = x as i64;
    }
    Ok(answer)
}

fn y_of_fewer_terms(sheet: &[u8], station: u64, numbers: &mut [i64]) -> Answer {
    let answer = Reference.peg(sheet, station, numbers)?;
    if let Some((_, y)) = offsets_of_fewer_terms(sheet, numbers) {
        numbers[Y] = y as i64 * numbers[Y].signum();
    }
    Ok(answer)
}

/// The offsets of a peg on a spiral, as on a right curve, with source document 002's
/// terms.
fn offsets_of_fewer_terms(sheet: &[u8], numbers: &[i64]) -> Option<(i128, i128)> {
    if !matches!(numbers[KIND], SPIRAL_IN | SPIRAL_OUT) {
        return None;
    }
    let curve = sheet::line_of(sheet).ok()?.curve(numbers[NUMBER] as usize);
    let length = numbers[LENGTH] as u64;
    Some(offsets_with(SHORTER_RATIOS, curve, length))
}

fn near_starts_only(sheet: &[u8], station: u64, numbers: &mut [i64]) -> Answer {
    if start_of(sheet).is_some_and(is_far) {
        return refuse(6, 0);
    }
    Reference.peg(sheet, station, numbers)
}

/// The start of a sheet that is read.
fn start_of(sheet: &[u8]) -> Option<u32> {
    Some(sheet::line_of(sheet).ok()?.start)
}

/// Whether only edition 2 holds a start.
fn is_far(start: u32) -> bool {
    start > FIRST.greatest_start
}

fn without_sides(sheet: &[u8], station: u64, numbers: &mut [i64]) -> Answer {
    let answer = Reference.peg(sheet, station, numbers)?;
    numbers[Y] = numbers[Y].abs();
    Ok(answer)
}

fn out_from_cs(sheet: &[u8], station: u64, numbers: &mut [i64]) -> Answer {
    let answer = Reference.peg(sheet, station, numbers)?;
    if numbers[KIND] == SPIRAL_OUT {
        let curve = sheet::line_of(sheet)?.curve(numbers[NUMBER] as usize);
        numbers[LENGTH] = 1_000 * i64::from(curve.l) - numbers[LENGTH];
    }
    Ok(answer)
}

fn of_the_former(sheet: &[u8], station: u64, numbers: &mut [i64]) -> Answer {
    let former = stretches_of(sheet).into_iter().rev().skip(1);
    let shared = former.filter(|former| former.end == station).count() > 0;
    Reference.peg(sheet, station - u64::from(shared), numbers)
}

fn in_empty_spirals(sheet: &[u8], station: u64, numbers: &mut [i64]) -> Answer {
    let answer = Reference.peg(sheet, station, numbers)?;
    let stretches = stretches_of(sheet);
    let mut empty = stretches.iter().filter(|s| s.begin == s.end);
    if let Some(spiral) = empty.find(|spiral| spiral.begin == station) {
        numbers[KIND] = spiral.element.kind();
        numbers[NUMBER] = spiral.element.number() as i64;
    }
    Ok(answer)
}

fn without_end(sheet: &[u8], station: u64, numbers: &mut [i64]) -> Answer {
    match stretches_of(sheet).last() {
        Some(last) if last.end == station => refuse(17, 0),
        _ => Reference.peg(sheet, station, numbers),
    }
}

fn without_refusal_behind(sheet: &[u8], station: u64, numbers: &mut [i64]) -> Answer {
    let end = stretches_of(sheet).last().map_or(station, |last| last.end);
    Reference.peg(sheet, station.min(end), numbers)
}

fn small_buffer_first(sheet: &[u8], station: u64, numbers: &mut [i64]) -> Answer {
    Reference
        .peg(sheet, station, numbers)
        .or_else(|refusal| match refusal.number {
            17 if numbers.len() < pokyandi::PEG_NUMBERS => refuse(16, 0),
            _ => Err(refusal),
        })
}

/// Faults of lines from coordinates.
pub const POINT_FAULTS: [(&str, PointsCall); 13] = [
    ("the side is the other one", other_sides),
    ("a distance is rounded up", rounded_up),
    ("a second with equal products is not reached", without_ties),
    ("sine and cosine are exchanged", complements),
    ("216,000 is refused", without_greatest_turn),
    ("19 comes before 20 at one point", straight_first),
    ("19 comes after 20 of later points", wide_turns_first),
    ("18 comes after 8", distances_first),
    ("8 comes after 20 and 19", turns_first),
    (
        "the place of 20 is the distance before it",
        place_of_distance,
    ),
    ("4 comes before 20 and 19", speed_first),
    ("16 comes before 20 and 19", room_first),
    ("6 for a start beyond edition 1", from_near_starts_only),
];

fn from_near_starts_only(
    heading: Heading,
    points: &[i64],
    curves: &[u32],
    line: &mut [u32],
) -> Answer {
    let before = line.to_vec();
    let count = Reference.line_from_points(heading, points, curves, line)?;
    if is_far(heading.start) {
        line.copy_from_slice(&before);
        return refuse(6, 0);
    }
    Ok(count)
}

fn other_sides(heading: Heading, points: &[i64], curves: &[u32], line: &mut [u32]) -> Answer {
    changed_curves(heading, points, curves, line, |_, _, side, _| {
        *side = LEFT - *side
    })
}

fn without_ties(heading: Heading, points: &[i64], curves: &[u32], line: &mut [u32]) -> Answer {
    changed_curves(heading, points, curves, line, |cross, dot, _, seconds| {
        // With a cross product that is less by a little.
        let times = 1 << 40;
        let reached = reached(times * cross.abs() - 1, times * dot, *seconds);
        *seconds -= u32::from(!reached);
    })
}

fn complements(heading: Heading, points: &[i64], curves: &[u32], line: &mut [u32]) -> Answer {
    changed_curves(heading, points, curves, line, |_, _, _, seconds| {
        *seconds = 324_000 - *seconds
    })
}

/// Changes side and seconds of each curve; cross and dot product come first.
fn changed_curves(
    heading: Heading,
    points: &[i64],
    curves: &[u32],
    line: &mut [u32],
    change: fn(i128, i128, &mut u32, &mut u32),
) -> Answer {
    let count = Reference.line_from_points(heading, points, curves, line)?;
    for i in 1..=curves.len() / 2 {
        let [side, seconds] = &mut line[5 * i..5 * i + 2] else {
            panic!("two numbers")
        };
        let (cross, dot) = products(points, i);
        change(cross, dot, side, seconds);
    }
    Ok(count)
}

/// The leg from point i to the next.
fn leg(points: &[i64], i: usize) -> (i128, i128) {
    let along = |axis: usize| i128::from(points[2 * i + 2 + axis] - points[2 * i + axis]);
    (along(0), along(1))
}

/// Cross and dot product at point i.
fn products(points: &[i64], i: usize) -> (i128, i128) {
    let (into, out) = (leg(points, i - 1), leg(points, i));
    (
        into.0 * out.1 - into.1 * out.0,
        into.0 * out.0 + into.1 * out.1,
    )
}

fn rounded_up(heading: Heading, points: &[i64], curves: &[u32], line: &mut [u32]) -> Answer {
    let count = Reference.line_from_points(heading, points, curves, line)?;
    for i in 0..=curves.len() / 2 {
        let (east, north) = leg(points, i);
        let distance = &mut line[5 * i + 4];
        let square = i128::from(*distance).pow(2);
        *distance += u32::from(square < east * east + north * north);
    }
    Ok(count)
}

fn without_greatest_turn(
    heading: Heading,
    points: &[i64],
    curves: &[u32],
    line: &mut [u32],
) -> Answer {
    let before = line.to_vec();
    let count = Reference.line_from_points(heading, points, curves, line)?;
    match (1..=curves.len() / 2).find(|i| line[5 * i + 1] == GREATEST_TURN) {
        Some(i) => {
            line.copy_from_slice(&before);
            refuse(20, i)
        }
        None => Ok(count),
    }
}

/// The reference's answer, another one for some of its refusals.
fn refused_otherwise(
    heading: Heading,
    points: &[i64],
    curves: &[u32],
    line: &mut [u32],
    other: impl Fn(Refusal, usize) -> Option<Refusal>,
) -> Answer {
    let answer = Reference.line_from_points(heading, points, curves, line);
    answer.map_err(|refusal| other(refusal, line.len()).unwrap_or(refusal))
}

/// The refusal of a part of the points, beside the same speed, crossfall and start.
fn refusal_of(heading: Heading, points: &[i64], curves: &[u32]) -> Option<Refusal> {
    let mut line = [0; pokyandi::LINE_NUMBERS];
    let answer = Reference.line_from_points(heading, points, curves, &mut line);
    answer.err()
}

fn is_of_a_turn(refusal: &Refusal) -> bool {
    matches!(refusal.number, 19 | 20)
}

fn straight_first(heading: Heading, points: &[i64], curves: &[u32], line: &mut [u32]) -> Answer {
    refused_otherwise(heading, points, curves, line, |refusal, _| {
        let straight = refusal.number == 20 && products(points, refusal.place).0 == 0;
        straight.then_some(Refusal {
            number: 19,
            ..refusal
        })
    })
}

fn wide_turns_first(heading: Heading, points: &[i64], curves: &[u32], line: &mut [u32]) -> Answer {
    refused_otherwise(heading, points, curves, line, |refusal, _| {
        let i = refusal.place;
        if refusal.number != 19 {
            return None;
        }
        let later = refusal_of(heading, &points[2 * i..], &curves[2 * i..])?;
        (later.number == 20).then_some(later.at(i + later.place))
    })
}

fn distances_first(heading: Heading, points: &[i64], curves: &[u32], line: &mut [u32]) -> Answer {
    refused_otherwise(heading, points, curves, line, |refusal, _| {
        if refusal.number != 18 {
            return None;
        }
        let limit = GREATEST_COORDINATE;
        let within: Vec<i64> = points.iter().map(|at| *at.clamp(&-limit, &limit)).collect();
        let other = refusal_of(heading, &within, curves)?;
        (other.number == 8).then_some(other)
    })
}

fn turns_first(heading: Heading, points: &[i64], curves: &[u32], line: &mut [u32]) -> Answer {
    refused_otherwise(heading, points, curves, line, |refusal, _| {
        let i = refusal.place;
        if refusal.number != 8 || i < 2 {
            return None;
        }
        let former = refusal_of(heading, &points[..2 * i + 2], &curves[..2 * i - 2]);
        former.filter(is_of_a_turn)
    })
}

fn place_of_distance(heading: Heading, points: &[i64], curves: &[u32], line: &mut [u32]) -> Answer {
    refused_otherwise(heading, points, curves, line, |refusal, _| {
        (refusal.number == 20).then(|| refusal.at(refusal.place - 1))
    })
}

fn speed_first(heading: Heading, points: &[i64], curves: &[u32], line: &mut [u32]) -> Answer {
    refused_otherwise(heading, points, curves, line, |refusal, _| {
        let speed = DesignSpeed::of(heading.v);
        (is_of_a_turn(&refusal) && speed.is_none()).then_some(Refusal {
            number: 4,
            place: 0,
        })
    })
}

fn room_first(heading: Heading, points: &[i64], curves: &[u32], line: &mut [u32]) -> Answer {
    refused_otherwise(heading, points, curves, line, |refusal, room| {
        let small = room < 5 + curves.len() / 2 * 5;
        (is_of_a_turn(&refusal) && small).then_some(Refusal {
            number: 16,
            place: 0,
        })
    })
}

/// Faults of heights.
pub const HEIGHT_FAULTS: [(&str, HeightCall); 15] = [
    ("a height is rounded toward zero", toward_zero),
    ("a height is rounded to the nearest", to_nearest),
    ("g has the other sign", other_sign),
    ("heights of vertices are rounded", rounded_vertices),
    ("21 comes before 22", curves_first),
    ("the place of the first grade is 1", first_grade_at_1),
    ("curves that touch are refused", without_touching),
    ("a curve may begin before the start", without_start),
    ("a curve of just the length is refused", longer_than_sight),
    ("the cases are exchanged", other_cases),
    ("3.5 D is left out", without_distance),
    ("crest and sag are exchanged", other_side),
    ("17 comes before 23", station_first),
    (
        "stations behind 200,000,000 are accepted",
        without_end_of_profile,
    ),
    ("16 comes before 17", room_before_station),
];

/// Millionths in a mm.
const MILLION: i128 = 1_000_000;

/// Another height where there is one.
fn other_height(
    profile: &[i64],
    station: u64,
    numbers: &mut [i64],
    other: fn(&Profile, i64) -> i128,
) -> Answer {
    let count = Reference.height(profile, station, numbers)?;
    let profile = Profile::of_numbers(profile)?;
    numbers[0] = other(&profile, station as i64) as i64;
    Ok(count)
}

fn toward_zero(profile: &[i64], station: u64, numbers: &mut [i64]) -> Answer {
    other_height(profile, station, numbers, |profile, station| {
        let (upper, lower) = profile.exact_height(station);
        upper / lower
    })
}

fn to_nearest(profile: &[i64], station: u64, numbers: &mut [i64]) -> Answer {
    other_height(profile, station, numbers, |profile, station| {
        let (upper, lower) = profile.exact_height(station);
        (2 * upper + lower).div_euclid(2 * lower)
    })
}

/// As far above the incoming grade as it should be below it.
fn other_sign(profile: &[i64], station: u64, numbers: &mut [i64]) -> Answer {
    other_height(profile, station, numbers, |profile, station| {
        let (upper, lower) = profile.exact_height(station);
        let mut curves = profile.vertices.iter();
        let Some(i) = curves.position(|v| (v.begin()..=v.end()).contains(&station)) else {
            return upper.div_euclid(lower);
        };
        let ahead = i128::from(station - profile.vertices[i].station);
        let grade = i128::from(profile.grades()[i]);
        let on_grade = profile.vertex_heights()[i + 1] + grade * ahead;
        (2 * on_grade * lower - upper * MILLION).div_euclid(lower * MILLION)
    })
}

fn rounded_vertices(profile: &[i64], station: u64, numbers: &mut [i64]) -> Answer {
    other_height(profile, station, numbers, |profile, station| {
        let heights = profile.vertex_heights();
        let mut vertices = profile.vertices.iter();
        // The last that counts at this station.
        let last = vertices.position(|v| station < v.begin());
        let last = last.unwrap_or(profile.vertices.len());
        let rounded = heights[..=last].windows(2).fold(heights[0], |height, two| {
            (height + two[1] - two[0]).div_euclid(MILLION) * MILLION
        });
        let (upper, lower) = profile.exact_height(station);
        (upper * MILLION + (rounded - heights[last]) * lower).div_euclid(lower * MILLION)
    })
}

/// The reference's answer, another one for some of its refusals.
fn height_refused_otherwise(
    profile: &[i64],
    station: u64,
    numbers: &mut [i64],
    other: impl Fn(Refusal, Profile) -> Option<Answer>,
) -> Answer {
    Reference
        .height(profile, station, numbers)
        .or_else(|refusal| {
            let read = Profile::of_numbers(profile).ok();
            let other = read.and_then(|profile| other(refusal, profile));
            other.unwrap_or(Err(refusal))
        })
}

fn curves_first(profile: &[i64], station: u64, numbers: &mut [i64]) -> Answer {
    height_refused_otherwise(profile, station, numbers, |refusal, mut profile| {
        profile.grade = 0;
        for vertex in &mut profile.vertices {
            vertex.grade = 0;
        }
        let level = profile.check().err()?;
        (refusal.number == 22 && level.number == 21).then_some(Err(level))
    })
}

fn first_grade_at_1(profile: &[i64], station: u64, numbers: &mut [i64]) -> Answer {
    height_refused_otherwise(profile, station, numbers, |refusal, _| {
        let first = refusal.number == 22 && refusal.place == 0;
        first.then_some(refuse(22, 1))
    })
}

/// What passes the checks up to 21.
fn up_to_sight(profile: &[i64]) -> Option<Profile> {
    let profile = Profile::of_numbers(profile).ok()?;
    let refusal = profile.check().err();
    let passes = refusal.is_none_or(|refusal| refusal.number == 23);
    passes.then_some(profile)
}

fn without_touching(profile: &[i64], station: u64, numbers: &mut [i64]) -> Answer {
    if let Some(profile) = up_to_sight(profile) {
        let curves = profile.vertices.windows(2);
        let mut pairs = curves.map(|two| (two[0].end(), two[1].begin()));
        if let Some(i) = pairs.position(|(end, begin)| end == begin) {
            return refuse(21, i + 2);
        }
    }
    Reference.height(profile, station, numbers)
}

fn without_start(profile: &[i64], station: u64, numbers: &mut [i64]) -> Answer {
    height_refused_otherwise(profile, station, numbers, |refusal, mut profile| {
        profile.start = 0;
        let passes = profile.check() != Err(refusal);
        (refusal
            == Refusal {
                number: 21,
                place: 1,
            }
            && passes)
            .then_some(Ok(1))
    })
}

/// The answer where another rule tells whether a length, mm, is enough for sight.
fn by_other_sight(
    profile: &[i64],
    station: u64,
    numbers: &mut [i64],
    is_enough: fn(i128, i64, i128) -> bool,
) -> Answer {
    let other = up_to_sight(profile).map(|profile| {
        let d = stopping_distance(profile.v).expect("the speed has passed");
        let mut vertices = profile.vertices.iter().zip(profile.grades());
        vertices.position(|(vertex, incoming)| {
            !is_enough(vertex.length.into(), incoming - vertex.grade, d)
        })
    });
    match other {
        Some(Some(i)) => refuse(23, i + 1),
        // The height is of no account: the answers differ.
        Some(None) => height_refused_otherwise(profile, station, numbers, |refusal, _| {
            (refusal.number == 23).then_some(Ok(1))
        }),
        None => Reference.height(profile, station, numbers),
    }
}

/// By how much a length exceeds the least of the first case and of the second, each
/// times what it is divided by; `factor` is twice 412 or twice 122 + 3.5 D.
fn excesses(length: i128, g: i64, d: i128, factor: i128) -> [i128; 2] {
    let size = i128::from(g.abs());
    [
        length * 5 * factor - d * d * size,
        length * size - 2_000 * d * size + 5_000_000 * factor,
    ]
}

/// That of the case which counts.
fn excess(length: i128, g: i64, d: i128, factor: i128) -> i128 {
    excesses(length, g, d, factor)[usize::from(1_000 * d > length)]
}

fn longer_than_sight(profile: &[i64], station: u64, numbers: &mut [i64]) -> Answer {
    by_other_sight(profile, station, numbers, |length, g, d| {
        g == 0 || excess(length, g, d, twice_factor(d, g)) > 0
    })
}

fn other_cases(profile: &[i64], station: u64, numbers: &mut [i64]) -> Answer {
    by_other_sight(profile, station, numbers, |length, g, d| {
        let excesses = excesses(length, g, d, twice_factor(d, g));
        g == 0 || excesses[usize::from(1_000 * d <= length)] >= 0
    })
}

fn without_distance(profile: &[i64], station: u64, numbers: &mut [i64]) -> Answer {
    by_other_sight(profile, station, numbers, |length, g, d| {
        let factor = if g > 0 { 2 * 412 } else { 2 * 122 };
        g == 0 || excess(length, g, d, factor) >= 0
    })
}

fn other_side(profile: &[i64], station: u64, numbers: &mut [i64]) -> Answer {
    by_other_sight(profile, station, numbers, |length, g, d| {
        g == 0 || excess(length, g, d, twice_factor(d, -g)) >= 0
    })
}

fn station_first(profile: &[i64], station: u64, numbers: &mut [i64]) -> Answer {
    height_refused_otherwise(profile, station, numbers, |refusal, profile| {
        let stations = profile.start as u64..=*STATIONS.end() as u64;
        let outside = !stations.contains(&station);
        (refusal.number == 23 && outside).then_some(refuse(17, 0))
    })
}

fn without_end_of_profile(profile: &[i64], station: u64, numbers: &mut [i64]) -> Answer {
    let end = *STATIONS.end() as u64;
    Reference.height(profile, station.min(end), numbers)
}

fn room_before_station(profile: &[i64], station: u64, numbers: &mut [i64]) -> Answer {
    let room = numbers.len();
    height_refused_otherwise(profile, station, numbers, |refusal, _| {
        (refusal.number == 17 && room == 0).then_some(refuse(16, 0))
    })
}

/// Faults of editions.
pub const EDITION_FAULTS: [(&str, EditionCall); 4] = [
    (
        "the edition of a refused sheet is told",
        edition_before_checks,
    ),
    ("every sheet has edition 1", always_the_first),
    ("6 for a start beyond edition 1", far_edition_refused),
    ("edition 3 is known", third_edition),
];

fn edition_before_checks(sheet: &[u8]) -> Answer {
    match sheet.len() {
        0..7 => refuse(1, 0),
        _ => Ok(Edition::of(EDITION.value(sheet))?.number as usize),
    }
}

fn always_the_first(sheet: &[u8]) -> Answer {
    Reference.edition(sheet).map(|_| 1)
}

fn far_edition_refused(sheet: &[u8]) -> Answer {
    if start_of(sheet).is_some_and(is_far) {
        return refuse(6, 0);
    }
    Reference.edition(sheet)
}

fn third_edition(sheet: &[u8]) -> Answer {
    match sheet.first() {
        Some(byte) if byte >> 4 == 3 => {
            Reference.edition(&EDITION.with(sheet, 2))?;
            Ok(3)
        }
        _ => Reference.edition(sheet),
    }
}

/// Faults of the writer.
pub const WRITE_FAULTS: [(&str, WriteCall); 7] = [
    ("2 comes after the line's refusals", edition_last),
    ("3 for other counts comes before 2", counts_first),
    ("every sheet has edition 1", written_in_the_first),
    (
        "a start too far for edition 1 is cut to its bits",
        cut_starts,
    ),
    (
        "6 for a start beyond edition 1 in edition 2",
        far_lines_refused,
    ),
    ("6 for the greatest start", greatest_start_refused),
    ("the edition is cut to four bits", cut_edition),
];

fn edition_last(edition: u32, line: &[u32], bytes: &mut [u8]) -> Answer {
    let other = Reference.write(2, line, &mut vec![0; bytes.len()]);
    match (Edition::of(edition), other) {
        (Err(_), Err(refusal)) => Err(refusal),
        _ => Reference.write(edition, line, bytes),
    }
}

fn counts_first(edition: u32, line: &[u32], bytes: &mut [u8]) -> Answer {
    Line::of_numbers(line)?;
    Reference.write(edition, line, bytes)
}

fn written_in_the_first(edition: u32, line: &[u32], bytes: &mut [u8]) -> Answer {
    Edition::of(edition)?;
    Reference.write(1, line, bytes)
}

/// Where the start stands among the numbers of a line.
const START: usize = 3;

fn cut_starts(edition: u32, line: &[u32], bytes: &mut [u8]) -> Answer {
    let mut line = line.to_vec();
    if let (1, Some(start)) = (edition, line.get_mut(START)) {
        *start %= 1 << FIRST.start_bits;
    }
    Reference.write(edition, &line, bytes)
}

fn far_lines_refused(edition: u32, line: &[u32], bytes: &mut [u8]) -> Answer {
    let before = bytes.to_vec();
    let count = Reference.write(edition, line, bytes)?;
    if is_far(line[START]) {
        bytes.copy_from_slice(&before);
        return refuse(6, 0);
    }
    Ok(count)
}

fn greatest_start_refused(edition: u32, line: &[u32], bytes: &mut [u8]) -> Answer {
    let before = bytes.to_vec();
    let count = Reference.write(edition, line, bytes)?;
    if line[START] == Edition::of(edition)?.greatest_start {
        bytes.copy_from_slice(&before);
        return refuse(6, 0);
    }
    Ok(count)
}

fn cut_edition(edition: u32, line: &[u32], bytes: &mut [u8]) -> Answer {
    Reference.write(edition % 16, line, bytes)
}

/// Faults of the converter.
pub const CONVERT_FAULTS: [(&str, ConvertCall); 10] = [
    ("the own edition is taken for the other", own_edition),
    ("only the number is changed", only_the_number),
    ("the edition is cut to four bits", asked_in_four_bits),
    ("24 for a start of 200,000,000", near_start_stays),
    ("a far start is cut to edition 1's bits", far_start_cut),
    ("6 in the place of 24", start_in_the_place_of_far),
    ("2 comes before the reader's refusals", asked_first),
    ("24 comes before 2", far_first),
    ("16 comes before 24", room_before_far),
    ("16 counts the sheet's own length", room_of_the_own),
];

fn own_edition(sheet: &[u8], asked: u32, bytes: &mut [u8]) -> Answer {
    if Reference.edition(sheet)? == asked as usize {
        return Reference.rewrite(sheet, bytes);
    }
    Reference.convert(sheet, asked, bytes)
}

fn only_the_number(sheet: &[u8], asked: u32, bytes: &mut [u8]) -> Answer {
    let count = Reference.convert(sheet, asked, bytes)?;
    let front = count.min(sheet.len());
    bytes[..front].copy_from_slice(&sheet[..front]);
    EDITION.put(bytes, asked);
    Ok(count)
}

fn asked_in_four_bits(sheet: &[u8], asked: u32, bytes: &mut [u8]) -> Answer {
    Reference.convert(sheet, asked % 16, bytes)
}

fn near_start_stays(sheet: &[u8], asked: u32, bytes: &mut [u8]) -> Answer {
    let before = bytes.to_vec();
    let count = Reference.convert(sheet, asked, bytes)?;
    if asked == 1 && start_of(sheet) == Some(FIRST.greatest_start) {
        bytes.copy_from_slice(&before);
        return refuse(24, 0);
    }
    Ok(count)
}

/// The reference's answer, another one for some of its refusals.
fn converted_otherwise(
    sheet: &[u8],
    asked: u32,
    bytes: &mut [u8],
    other: impl Fn(Refusal, &mut [u8]) -> Option<Answer>,
) -> Answer {
    let answer = Reference.convert(sheet, asked, bytes);
    answer.or_else(|refusal| other(refusal, bytes).unwrap_or(Err(refusal)))
}

fn far_start_cut(sheet: &[u8], asked: u32, bytes: &mut [u8]) -> Answer {
    converted_otherwise(sheet, asked, bytes, |refusal, bytes| {
        let mut line = sheet::line_of(sheet).ok()?;
        line.start %= 1 << FIRST.start_bits;
        (refusal.number == 24).then(|| sheet::write(1, &line, bytes))
    })
}

fn start_in_the_place_of_far(sheet: &[u8], asked: u32, bytes: &mut [u8]) -> Answer {
    converted_otherwise(sheet, asked, bytes, |refusal, _| {
        (refusal.number == 24).then_some(refuse(6, 0))
    })
}

fn asked_first(sheet: &[u8], asked: u32, bytes: &mut [u8]) -> Answer {
    converted_otherwise(sheet, asked, bytes, |_, _| {
        let other = sheet.len() >= 7 && asked == edition_said(sheet).other().number;
        (!other).then_some(refuse(2, 0))
    })
}

fn far_first(sheet: &[u8], asked: u32, bytes: &mut [u8]) -> Answer {
    converted_otherwise(sheet, asked, bytes, |refusal, _| {
        let far = start_of(sheet).is_some_and(is_far);
        (refusal.number == 2 && far).then_some(refuse(24, 0))
    })
}

fn room_before_far(sheet: &[u8], asked: u32, bytes: &mut [u8]) -> Answer {
    converted_otherwise(sheet, asked, bytes, |refusal, bytes| {
        let small = bytes.len() < sheet.len() - 1;
        (refusal.number == 24 && small).then_some(refuse(16, 0))
    })
}

fn room_of_the_own(sheet: &[u8], asked: u32, bytes: &mut [u8]) -> Answer {
    let before = bytes.to_vec();
    let count = Reference.convert(sheet, asked, bytes)?;
    if bytes.len() < sheet.len() {
        bytes.copy_from_slice(&before);
        return refuse(16, 0);
    }
    Ok(count)
}

/// Faults of looking up the unit spiral table.
pub const LOOK_UP_FAULTS: [(&str, LookUpCall); 15] = [
    (
        "x and y have source document 002's terms",
        |r, l, offsets| other_offsets(r, l, offsets, |r, l| shorter_row(r).map(|v| nearest(l * v))),
    ),
    ("the angle is twice the row's", |r, l, offsets| {
        other_offsets(r, l, offsets, |r, l| row(2 * r).map(|v| nearest(l * v)))
    }),
    ("the row before it", |r, l, offsets| {
        other_offsets(r, l, offsets, |r, l| {
            row(r.saturating_sub(1)).map(|v| nearest(l * v))
        })
    }),
    ("X and Y are rounded down", |r, l, offsets| {
        other_offsets(r, l, offsets, |r, l| row(r).map(|v| l * v / MICROMETRES))
    }),
    ("halves go down", |r, l, offsets| {
        other_offsets(r, l, offsets, |r, l| {
            row(r).map(|v| (l * v + MICROMETRES / 2 - 1) / MICROMETRES)
        })
    }),
    ("halves go to the even number", |r, l, offsets| {
        other_offsets(r, l, offsets, |r, l| row(r).map(|v| to_even(l * v)))
    }),
    ("the ratios are rounded to millionths", |r, l, offsets| {
        other_offsets(r, l, offsets, |r, l| {
            row(r).map(|v| nearest(l * (v / 1_000 * 1_000)))
        })
    }),
    ("X and Y are exchanged", |r, l, offsets| {
        other_offsets(r, l, offsets, |r, l| {
            let [x, y] = row(r);
            [y, x].map(|v| nearest(l * v))
        })
    }),
    ("11 comes before 25", |r, l, offsets| match l {
        0..=GREATEST_SPIRAL => Reference.unit_spiral(r, l, offsets),
        _ => refuse(11, 0),
    }),
    ("25 for row 500", |r, l, offsets| match r {
        GREATEST_THOUSANDTH => refuse(25, 0),
        _ => Reference.unit_spiral(r, l, offsets),
    }),
    ("row 501 is taken for the last", |r, l, offsets| match r {
        501 => Reference.unit_spiral(GREATEST_THOUSANDTH, l, offsets),
        _ => Reference.unit_spiral(r, l, offsets),
    }),
    ("the row is cut to 16 bits", |r, l, offsets| {
        Reference.unit_spiral(r % (1 << 16), l, offsets)
    }),
    ("11 for 500,000 mm", |r, l, offsets| {
        match Reference.unit_spiral(r, l, &mut [0; 2]) {
            Ok(_) if l == GREATEST_SPIRAL => refuse(11, 0),
            _ => Reference.unit_spiral(r, l, offsets),
        }
    }),
    ("16 comes before 25 and 11", |r, l, offsets| {
        Reference.unit_spiral(0, 0, &mut offsets.to_vec())?;
        Reference.unit_spiral(r, l, offsets)
    }),
    ("X is stored before the room is known", |r, l, offsets| {
        let mut found = [0; 2];
        Reference.unit_spiral(r, l, &mut found)?;
        if let Some(first) = offsets.first_mut() {
            *first = found[0];
        }
        Reference.unit_spiral(r, l, offsets)
    }),
];

/// 10⁶.
const MICROMETRES: u64 = 1_000_000;

fn nearest(product: u64) -> u64 {
    (product + MICROMETRES / 2) / MICROMETRES
}

/// To the nearest, halves to the even number.
fn to_even(product: u64) -> u64 {
    let half = product % MICROMETRES == MICROMETRES / 2;
    let up = nearest(product);
    up - u64::from(half && up % 2 == 1)
}

/// The row with source document 002's terms.
fn shorter_row(thousandth: u32) -> [u64; 2] {
    let t = i128::from(thousandth) * THOUSANDTH;
    [shorter_x_ratio(t), shorter_y_ratio(t)].map(|ratio| ratio as u64)
}

/// Other X and Y where there are any, of row and length.
fn other_offsets(
    thousandth: u32,
    length: u32,
    offsets: &mut [u64],
    other: fn(u32, u64) -> [u64; 2],
) -> Answer {
    let count = Reference.unit_spiral(thousandth, length, offsets)?;
    offsets[..count].copy_from_slice(&other(thousandth, length.into()));
    Ok(count)
}

/// Faults of the unit spiral table.
pub const TABLE_FAULTS: [(&str, TableCall); 7] = [
    ("x and y have source document 002's terms", |ratios| {
        other_rows(ratios, shorter_row)
    }),
    ("the rows begin at 1", |ratios| {
        other_rows(ratios, |thousandth| row(thousandth + 1))
    }),
    ("y comes before x", |ratios| {
        other_rows(ratios, |thousandth| {
            let [x, y] = row(thousandth);
            [y, x]
        })
    }),
    ("the last y is one more", |ratios| {
        let count = Reference.unit_spiral_table(ratios)?;
        ratios[count - 1] += 1;
        Ok(count)
    }),
    ("the row behind the last is given", |ratios| {
        let count = Reference.unit_spiral_table(ratios)?;
        if let Some(behind) = ratios.get_mut(count..count + 2) {
            behind.copy_from_slice(&row(501));
        }
        Ok(count)
    }),
    ("what fits is given", |ratios| {
        let mut all = [0; pokyandi::TABLE_NUMBERS];
        let count = Reference.unit_spiral_table(&mut all)?.min(ratios.len());
        ratios[..count].copy_from_slice(&all[..count]);
        Ok(count)
    }),
    ("what fits is stored before the room is known", |ratios| {
        let mut all = [0; pokyandi::TABLE_NUMBERS];
        let count = Reference.unit_spiral_table(&mut all)?.min(ratios.len());
        ratios[..count].copy_from_slice(&all[..count]);
        Reference.unit_spiral_table(ratios)
    }),
];

/// Other rows where there is room for them.
fn other_rows(ratios: &mut [u64], other: fn(u32) -> [u64; 2]) -> Answer {
    let count = Reference.unit_spiral_table(ratios)?;
    let rows = ratios[..count].chunks_exact_mut(2);
    for (thousandth, numbers) in (0..).zip(rows) {
        numbers.copy_from_slice(&other(thousandth));
    }
    Ok(count)
}
