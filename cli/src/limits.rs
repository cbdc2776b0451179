//! Limits, asked of the library itself: the least or greatest number that it
//! does not refuse. No range, table or formula is written down here.

use crate::commands::table::Spiral;
use crate::edition::{USUAL, WIDEST};
use crate::line::{example, Curve, Line};
use crate::profile::{self, Profile, Vertex};
use crate::survey::Survey;
use pokyandi::line::{curve, CROSSFALL, CURVES, SPEED, START};
use pokyandi::{element, Reason, Refusal};
use std::ops::RangeInclusive;

/// Where the numbers of the example's curve stand.
pub const DEFLECTION: usize = curve(1) + pokyandi::curve::DEFLECTION;
pub const RADIUS: usize = curve(1) + pokyandi::curve::RADIUS;
pub const SPIRAL: usize = curve(1) + pokyandi::curve::SPIRAL;

/// The greatest number that the library takes.
const MOST: u64 = u32::MAX as u64;

/// The least number of the range that serves; from it on, all do.
fn least(range: RangeInclusive<u64>, serves: impl Fn(u64) -> bool) -> Option<u64> {
    let (mut low, mut high) = range.into_inner();
    if !serves(high) {
        return None;
    }
    while low < high {
        let middle = low + (high - low) / 2;
        match serves(middle) {
            true => high = middle,
            false => low = middle + 1,
        }
    }
    Some(high)
}

/// The greatest number of the range that serves; up to it, all do.
fn greatest(range: RangeInclusive<u64>, serves: impl Fn(u64) -> bool) -> Option<u64> {
    let (low, high) = range.into_inner();
    let mirrored = least(0..=high - low, |gap| serves(high - gap));
    mirrored.map(|gap| high - gap)
}

fn is_refused(answer: Result<impl Sized, Refusal>, reason: Reason) -> bool {
    answer.is_err_and(|refusal| refusal.reason == reason)
}

/// The range of the number at an index of the example's line.
pub fn range(index: usize) -> (u64, u64) {
    range_in(WIDEST, &example(), index)
}

/// The range of the start in an edition, mm.
pub fn start_range(edition: u32) -> (u64, u64) {
    range_in(edition, &example(), START)
}

/// The range of the number at an index of a line that can be written in an edition.
fn range_in(edition: u32, line: &Line, index: usize) -> (u64, u64) {
    let serves = |number| line.with(index, number).sheet(edition).is_ok();
    let now = line.numbers[index];
    let low = least(0..=now, serves).unwrap_or(now);
    (low, greatest(now..=MOST, serves).unwrap_or(now))
}

/// The range of a radius, mm.
pub fn radius_range() -> (u64, u64) {
    let simple = example().with(SPIRAL, 0);
    range_in(WIDEST, &simple, RADIUS)
}

/// The editions of sheets, of those that their four bits can name.
pub fn editions() -> Vec<u32> {
    let is_written = |edition: &u32| !is_refused(example().sheet(*edition), Reason::Edition);
    (0..16).filter(is_written).collect()
}

/// The design speeds, km/h.
pub fn speeds() -> Vec<u64> {
    let serves = |speed: &u64| example().with(SPEED, *speed).sheet(WIDEST).is_ok();
    (0..=u64::from(u8::MAX)).filter(serves).collect()
}

/// The example's line with its curve as many times.
fn example_of(n: u64) -> Line {
    let mut numbers = example().numbers;
    let entry = numbers.split_off(curve(1));
    numbers.extend((0..n).flat_map(|_| entry.iter()));
    numbers[CURVES] = n;
    Line { numbers }
}

/// The greatest number of curves.
pub fn most_curves() -> u64 {
    let most = greatest(0..=1_000, |n| example_of(n).sheet(WIDEST).is_ok());
    most.expect("a line may be without curves")
}

/// The bytes of the shortest sheet.
pub fn fewest_bytes() -> usize {
    let sheet = example_of(0).sheet(USUAL);
    sheet.expect("the example is in range").len()
}

/// The fewest bytes that the sheet would need to be whole.
pub fn bytes_needed(sheet: &[u8]) -> usize {
    let lengthened = |size: u64| {
        let mut sheet = sheet.to_vec();
        sheet.resize(size as usize, 0);
        sheet
    };
    let is_whole = |size| !is_refused(pokyandi::check(&lengthened(size)), Reason::Truncated);
    let needed = least(0..=pokyandi::SHEET_BYTES as u64, is_whole);
    needed.expect("so many bytes are enough for every sheet") as usize
}

/// The example's line with this speed and crossfall, its curve as sharp as can be.
fn design(line: &Line) -> Line {
    let (_, sharpest) = range(DEFLECTION);
    example()
        .with(SPEED, line.speed())
        .with(CROSSFALL, line.crossfall())
        .with(DEFLECTION, sharpest)
        .with(SPIRAL, 0)
}

/// The least radius for the speed and crossfall of a line, mm.
pub fn least_radius(line: &Line) -> Option<u64> {
    let (low, high) = radius_range();
    let design = design(line);
    let serves = |radius| !is_refused(design.with(RADIUS, radius).check(), Reason::LeastRadius);
    least(low..=high, serves)
}

/// The least length of a spiral at this radius for the speed of a line, mm;
/// none where no spiral that may stand there is long enough.
pub fn least_spiral(line: &Line, radius: u64) -> Option<u64> {
    let design = design(line).with(RADIUS, radius);
    let serves = |spiral| !is_refused(design.with(SPIRAL, spiral).check(), Reason::LeastSpiral);
    least(1..=greatest_spiral(radius), serves)
}

/// The same where the radius is as large as can be, so that only the table counts.
pub fn tabled_spiral(line: &Line) -> Option<u64> {
    least_spiral(line, radius_range().1)
}

/// The least radius at which some spiral is long enough for the speed of a line.
pub fn least_radius_with_spiral(line: &Line) -> Option<u64> {
    let (low, high) = radius_range();
    let low = least_radius(line).unwrap_or(low);
    least(low..=high, |radius| least_spiral(line, radius).is_some())
}

/// The greatest length of a spiral at this radius, mm.
pub fn greatest_spiral(radius: u64) -> u64 {
    let line = example().with(RADIUS, radius).with(SPIRAL, 0);
    range_in(WIDEST, &line, SPIRAL).1
}

/// The least deflection that leaves an arc at the radius and spiral of a curve,
/// seconds.
pub fn least_deflection(found: Curve) -> Option<u64> {
    let (low, high) = range(DEFLECTION);
    least(low..=high, |deflection| {
        has_arc(Curve {
            deflection,
            ..found
        })
    })
}

/// The longest spiral that leaves an arc at the deflection and radius of a curve,
/// mm; none where not even a simple curve has one.
pub fn longest_spiral_with_arc(found: Curve) -> Option<u64> {
    let range = 0..=greatest_spiral(found.radius);
    greatest(range, |spiral| has_arc(Curve { spiral, ..found }))
}

/// The arc that a curve would have without its spirals, µm. One that is refused
/// as too short is a part of a longer one, to the nearest µm. The parts are odd in
/// number: then to round the longer one and the part is to round the part.
pub fn simple_arc(curve: Curve) -> u64 {
    const PARTS: u64 = 21;
    let arc = |radius| {
        let simple = Curve {
            radius,
            spiral: 0,
            ..curve
        };
        simple.elements().map(|numbers| numbers[element::D])
    };
    let longer = || arc(PARTS * curve.radius).expect("so long an arc is not refused");
    arc(curve.radius).unwrap_or_else(|_| (longer() + PARTS / 2) / PARTS)
}

fn has_arc(curve: Curve) -> bool {
    !is_refused(curve.elements(), Reason::ShortArc)
}

/// The least distance i of a line that leaves its straight long enough, mm.
pub fn least_distance(line: &Line, i: usize) -> Option<u64> {
    let index = pokyandi::line::distance(i);
    let (_, high) = range(pokyandi::line::distance(0));
    least(line.distance(i)..=high, |distance| {
        let refusal = line.with(index, distance).check().err();
        refusal
            != Some(Refusal {
                reason: Reason::ShortStraight,
                place: i as u32,
            })
    })
}

/// The example's line by these points, its curve simple at each PI.
fn example_through(points: &[[i64; 2]]) -> Result<Line, Refusal> {
    let example = example();
    let pis = points.len() - 2;
    let survey = Survey {
        speed: example.speed(),
        crossfall: example.crossfall(),
        start: example.start(),
        points: points.to_vec(),
        curves: vec![[example.curve(1).radius, 0]; pis],
    };
    survey.line()
}

/// How far from the origin a coordinate may lie, mm.
pub fn greatest_coordinate() -> u64 {
    let serves = |east| {
        let line = example_through(&[[0, 0], [east as i64, 0]]);
        !is_refused(line, Reason::Coordinate)
    };
    greatest(0..=MOST, serves).expect("a point may be the origin")
}

/// The widest turn at a PI, seconds.
pub fn widest_turn() -> u64 {
    const EAST: i64 = 5_000_000;
    // It goes east, and turns the more to the north.
    let line = |north| example_through(&[[-EAST, 0], [0, 0], [EAST, north as i64]]);
    let serves = |north| !is_refused(line(north), Reason::WideTurn);
    let widest = greatest(0..=greatest_coordinate(), serves).map(line);
    let widest = widest.and_then(Result::ok);
    widest.expect("a line may turn").curve(1).deflection
}

/// The last row of the unit spiral table, thousandths.
pub fn last_row() -> u64 {
    let row = |thousandth| Spiral {
        thousandth,
        length: 0,
    };
    let serves = |thousandth| !is_refused(row(thousandth).look_up(), Reason::Thousandth);
    greatest(0..=MOST, serves).expect("the table has a row")
}

/// The longest spiral that is looked up in the table, mm.
pub fn longest_looked_up() -> u64 {
    let spiral = |length| Spiral {
        thousandth: 0,
        length,
    };
    let serves = |length| !is_refused(spiral(length).look_up(), Reason::Spiral);
    greatest(0..=MOST, serves).expect("a spiral may be empty")
}

/// Where the length of curve i stands in a profile.
fn index_of_length(i: usize) -> usize {
    pokyandi::profile::vertex(i) + pokyandi::vertex::LENGTH
}

/// The range of the number at an index of the example's profile, outside of which it
/// is refused for this reason.
pub fn profile_range(index: usize, reason: Reason) -> (i64, i64) {
    let profile = profile::example();
    let now = profile.numbers[index];
    let reach = |sign: i64| {
        let at = |far: u64| now + sign * far as i64;
        let serves = |far| !is_refused(profile.with(index, at(far)).check(), reason);
        at(greatest(0..=MOST, serves).expect("the example is in range"))
    };
    (reach(-1), reach(1))
}

/// The design speeds of profiles, km/h.
pub fn profile_speeds() -> Vec<i64> {
    let with = |speed| profile::example().with(pokyandi::profile::SPEED, speed);
    let serves = |speed: &i64| !is_refused(with(*speed).check(), Reason::Speed);
    (0..=i64::from(u8::MAX)).filter(serves).collect()
}

/// The greatest number of vertices.
pub fn most_vertices() -> u64 {
    let profile_of = |n: u64| {
        let mut numbers = profile::example().numbers;
        let entry = numbers.split_off(pokyandi::profile::vertex(1));
        numbers.extend((0..n).flat_map(|_| entry.iter()));
        Profile { numbers }
    };
    let serves = |n| !is_refused(profile_of(n).check(), Reason::CurveCount);
    greatest(0..=1_000, serves).expect("a profile may be without vertices")
}

/// The last station of a profile whose height is answered, mm.
pub fn last_station(profile: &Profile) -> u64 {
    let start = profile.start() as u64;
    let serves = |station| !is_refused(profile.height(station), Reason::Station);
    greatest(start..=MOST, serves).expect("the start has its height")
}

/// The range of a curve's length, which is even, mm.
pub fn curve_lengths() -> (i64, i64) {
    let profile = profile::example();
    let (index, half) = (index_of_length(1), profile.vertex(1).length as u64 / 2);
    let with = |half: u64| profile.with(index, 2 * half as i64);
    let serves = |half| !is_refused(with(half).check(), Reason::VerticalCurve);
    let low = least(0..=half, serves).expect("the example is in range");
    let high = greatest(half..=MOST, serves).expect("the example is in range");
    (2 * low as i64, 2 * high as i64)
}

/// The longest curve that vertex i of a profile has room for, mm; none where it has
/// room for no curve.
pub fn longest_curve(profile: &Profile, i: usize) -> Option<i64> {
    let (low, high) = curve_lengths();
    let refused = Refusal {
        reason: Reason::VerticalCurve,
        place: i as u32,
    };
    let with = |half: u64| profile.with(index_of_length(i), 2 * half as i64);
    let serves = |half| with(half).check() != Err(refused);
    let half = greatest(low as u64 / 2..=high as u64 / 2, serves)?;
    Some(2 * half as i64)
}

/// The shortest curve that leaves sight enough between the grades of a vertex, mm;
/// none where no curve is long enough.
pub fn least_curve(speed: i64, vertex: Vertex) -> Option<i64> {
    let (low, high) = curve_lengths();
    let example = profile::example();
    let alone = example
        .with(pokyandi::profile::SPEED, speed)
        .with(pokyandi::profile::GRADE, vertex.grade_in)
        .with(
            pokyandi::profile::vertex(1) + pokyandi::vertex::GRADE,
            vertex.grade_out,
        );
    let with = |half: u64| alone.with(index_of_length(1), 2 * half as i64);
    let serves = |half| !is_refused(with(half).check(), Reason::Sight);
    let half = least(low as u64 / 2..=high as u64 / 2, serves)?;
    Some(2 * half as i64)
}

#[cfg(test)]
mod tests {
    use super::*;
    use pokyandi::line::distance;

    #[test]
    fn the_ranges_of_profiles() {
        use pokyandi::profile::{vertex, GRADE, HEIGHT, START};
        let range = |index| profile_range(index, Reason::Start);
        assert_eq!(profile_speeds(), [40, 50, 60, 70, 80, 90, 100, 110, 120]);
        assert_eq!(range(START), (0, 200_000_000));
        assert_eq!(range(HEIGHT), (-10_000_000, 10_000_000));
        assert_eq!(range(vertex(1)), (0, 200_000_000));
        assert_eq!(profile_range(GRADE, Reason::Grade), (-120_000, 120_000));
        assert_eq!(curve_lengths(), (2, 2_000_000));
        assert_eq!(most_vertices(), 32);
        assert_eq!(last_station(&profile::example()), 200_000_000);
    }

    #[test]
    fn curves_of_profiles() {
        let crest = |grade| Vertex {
            station: 0,
            grade_in: grade,
            grade_out: -grade,
            length: 0,
        };
        // 85² × 8 / 412 m is 140.291.., and 2 × 85 - 412 / 4 m is 67.
        assert_eq!(least_curve(60, crest(40_000)), Some(140_292));
        assert_eq!(least_curve(60, crest(20_000)), Some(67_000));
        // 85² × 8 / (122 + 3.5 × 85) m is 137.783..
        assert_eq!(least_curve(60, crest(-40_000)), Some(137_784));
        assert_eq!(least_curve(60, crest(0)), Some(2));
        assert_eq!(least_curve(120, crest(120_000)), None);
        let profile = profile::example();
        let room = |start| longest_curve(&profile.with(pokyandi::profile::START, start), 1);
        assert_eq!(room(0), Some(2_000_000));
        assert_eq!(room(99_990_000), Some(20_000));
        assert_eq!([room(99_999_999), room(100_000_000)], [Some(2), None]);
    }

    #[test]
    fn the_ranges_of_document_01() {
        assert_eq!(speeds(), [40, 50, 60, 70, 80, 90, 100, 110, 120]);
        assert_eq!(range(CROSSFALL), (2, 12));
        assert_eq!(range(distance(0)), (1, 20_000_000));
        assert_eq!(range(distance(1)), (1, 20_000_000));
        assert_eq!(range(DEFLECTION), (1, 432_000));
        assert_eq!(radius_range(), (20_000, 5_000_000));
        assert_eq!(greatest_spiral(350_000), 350_000);
        assert_eq!(greatest_spiral(5_000_000), 500_000);
        assert_eq!(most_curves(), 64);
    }

    #[test]
    fn the_ranges_of_points() {
        assert_eq!(greatest_coordinate(), 10_000_000);
        assert_eq!(widest_turn(), 216_000);
    }

    #[test]
    fn the_ranges_of_the_unit_spiral_table() {
        assert_eq!([last_row(), longest_looked_up()], [500, 500_000]);
    }

    #[test]
    fn least_radii_and_spirals() {
        let line = example();
        assert_eq!(least_radius(&line), Some(167_751));
        assert_eq!(least_spiral(&line, 350_000), Some(40_000));
        assert_eq!(least_spiral(&line, 200_000), Some(61_740));
        assert_eq!(tabled_spiral(&line), Some(40_000));
        let slow = line.with(SPEED, 40).with(CROSSFALL, 12);
        assert_eq!(least_spiral(&slow, 47_999), None);
        assert_eq!(least_radius_with_spiral(&slow), Some(48_000));
    }

    #[test]
    fn arcs_and_straights() {
        let there = example().curve(1);
        assert_eq!(least_deflection(there), Some(23_574));
        let sharp = Curve {
            deflection: 23_573,
            ..there
        };
        assert_eq!(longest_spiral_with_arc(sharp), Some(39_998));
        let flat = Curve {
            deflection: 1,
            radius: 200_000,
            ..there
        };
        assert_eq!(longest_spiral_with_arc(flat), None);
        assert_eq!(simple_arc(there), 301_638_467);
        assert_eq!(simple_arc(flat), 970);
        // 96.96, 97.484 and 97.503.
        for (radius, arc) in [(radius_range().0, 97), (20_108, 97), (20_112, 98)] {
            assert_eq!(simple_arc(Curve { radius, ..flat }), arc);
        }
        let line = example().with(distance(0), 1);
        assert_eq!(least_distance(&line, 0), Some(180_991));
    }

    #[test]
    fn bytes_of_sheets() {
        for edition in editions() {
            let sheet = example().sheet(edition).unwrap();
            for size in 7..21 {
                assert_eq!(bytes_needed(&sheet[..size]), 21);
            }
            assert_eq!(bytes_needed(&[&sheet[..], &[0; 90]].concat()), 21);
            assert_eq!(example_of(0).sheet(edition).unwrap().len(), fewest_bytes());
        }
        assert_eq!(fewest_bytes(), 10);
    }
}
