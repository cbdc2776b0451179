//! Calls for a line from coordinates: counts, coordinates, distances and turns on
//! both sides of every limit, each refusal at several places, several faults at
//! once, and rooms.

use super::call_edges::{faulty_name, first_of, Fault};
use super::limits::least_distance;
use super::named::{named, Claim, Named};
use super::surveys::{Leg, Survey};
use crate::elements::{arc, LEAST_ARC};
use crate::line::{Line, GREATEST_START, MOST_CURVES};
use crate::line_numbers::number_count;
use crate::points::{reached, Heading, GREATEST_COORDINATE, GREATEST_TURN};
use std::collections::BTreeSet;

/// A survey and the room that is lent.
#[derive(Clone, Debug)]
pub struct SurveyCall {
    pub survey: Survey,
    pub room: usize,
}

/// All of them.
pub fn edges() -> Vec<Named<SurveyCall>> {
    let surveys = [
        vec![named("case 1", Claim::Accepted, case_1())],
        count_edges(),
        coordinate_edges(),
        distance_edges(),
        turn_edges(),
        tie_edges(),
        odd_turns(),
        heading_edges(),
        curve_edges(),
        straight_edges(),
    ];
    let surveys = surveys.into_iter().flatten();
    let mut calls: Vec<Named<SurveyCall>> = surveys.map(|edge| edge.map(exact_call)).collect();
    calls.extend(room_edges());
    calls.extend(faults_at_every_place());
    calls.extend(several_faults());
    calls
}

/// The call with just the room that the line needs; for one with too many points,
/// as for the most.
fn exact_call(survey: Survey) -> SurveyCall {
    let room = number_count(survey.curve_count().min(MOST_CURVES));
    SurveyCall { survey, room }
}

const MOST: u32 = u32::MAX;
const HEADING: Heading = Heading {
    v: 70,
    e: 8,
    start: 0,
};
/// Radius and spiral of a curve that passes at every turn.
const CURVE: (u32, u32) = (350_000, 0);
/// Legs that are long enough for its tangents at every turn; the second is 36.87
/// degrees to the left of the first.
const LEG: Leg = (1_000_000, 0);
const SLOPING: Leg = (800_000, 600_000);

/// Points of document 01's case 1; after the first two, no other third gives it.
pub fn case_1() -> Survey {
    survey(&[(500_000, 0), (260_421, -303_614)], (350_000, 40_000))
}

fn survey(legs: &[Leg], curve: (u32, u32)) -> Survey {
    Survey::of_legs(HEADING, legs, &vec![curve; legs.len() - 1])
}

/// Four quarters of the compass, and each mirrored: turns then have the other
/// side.
const ORIENTATIONS: [fn(Leg) -> Leg; 8] = [
    |(east, north)| (east, north),
    |(east, north)| (-north, east),
    |(east, north)| (-east, -north),
    |(east, north)| (north, -east),
    |(east, north)| (east, -north),
    |(east, north)| (north, east),
    |(east, north)| (-east, north),
    |(east, north)| (-north, -east),
];

/// The survey of these legs in every orientation.
fn oriented(name: &str, claim: Claim, legs: &[Leg]) -> Vec<Named<Survey>> {
    let all = ORIENTATIONS.into_iter().enumerate();
    let surveys = all.map(|(index, orient)| {
        let legs: Vec<Leg> = legs.iter().map(|leg| orient(*leg)).collect();
        let name = format!("{name}, orientation {index}");
        named(name, claim, survey(&legs, CURVE))
    });
    surveys.collect()
}

/// From no points to far too many, one number more or fewer, and curve numbers
/// other than two for each PI.
fn count_edges() -> Vec<Named<Survey>> {
    let point_numbers = (0..=9).chain(130..=137).chain([400]);
    let mut edges = Vec::new();
    for points in point_numbers {
        let of_curves = (points / 2 * 2_usize).saturating_sub(4);
        let near = of_curves.saturating_sub(2)..=of_curves + 2;
        let counts: BTreeSet<usize> = near.chain([0, points]).collect();
        for curves in counts {
            let whole = points % 2 == 0 && (4..=132).contains(&points) && curves == of_curves;
            let name = format!("{points} point numbers, {curves} curve numbers");
            let claim = Claim::accepted_or(if whole { 0 } else { 3 }, 0);
            let mut survey = staircase(points / 2 + 1);
            survey.points.truncate(points);
            survey.curves.resize(curves, 0);
            edges.push(named(name, claim, survey));
        }
    }
    edges
}

/// Numbers beyond the coordinates' limits, some of which would be within them if
/// they were cut to 32 bits.
const BEYOND: [i64; 8] = [
    GREATEST_COORDINATE + 1,
    -GREATEST_COORDINATE - 1,
    i64::MIN,
    i64::MAX,
    1 << 32,
    -1 << 32,
    i64::MIN + 5,
    1 << 40,
];

/// The greatest coordinates in every place of two points, and what is beyond them
/// in every place of two, three and 66 points.
fn coordinate_edges() -> Vec<Named<Survey>> {
    let mut edges = Vec::new();
    let mut add = |points: Vec<i64>, place: usize, coordinate: i64, number: u8| {
        let count = points.len() / 2;
        let name = format!("coordinate {place} of {count} points {coordinate}");
        let mut survey = staircase(count - 2);
        survey.points = points;
        survey.points[place] = coordinate;
        edges.push(named(name, Claim::accepted_or(number, 0), survey));
    };
    for place in 0..4 {
        for coordinate in [-GREATEST_COORDINATE, GREATEST_COORDINATE] {
            add(vec![7; 4], place, coordinate, 0);
        }
    }
    for points in [vec![7; 4], staircase(1).points] {
        for place in 0..points.len() {
            for coordinate in BEYOND {
                add(points.clone(), place, coordinate, 18);
            }
        }
    }
    let full = staircase(MOST_CURVES).points;
    for place in 0..full.len() {
        add(full.clone(), place, BEYOND[place % BEYOND.len()], 18);
    }
    let extremes = [i64::MIN, i64::MAX];
    for (first, last) in [(0, 0), (0, 1), (1, 0), (1, 1)] {
        let mut ends = staircase(0);
        ends.points = vec![
            extremes[first],
            extremes[last],
            extremes[last],
            extremes[first],
        ];
        let name = format!("points at {:?}", ends.points);
        edges.push(named(name, Claim::of(18, 0), ends));
    }
    edges
}

/// Legs and their lengths, rounded down: squares, 1 below a square, 1 above it, the
/// shortest, equal points, the greatest and 1 mm more, and the longest.
const LENGTHS: [(Leg, u32); 13] = [
    ((0, 0), 0),
    ((1, 0), 1),
    ((1, 1), 1),
    ((2, 1), 2),
    ((2, 2), 2),
    ((4, 3), 5),
    // 4 m⁴ + 4 m² is (2 m² + 1)² − 1.
    ((18_000_000, 6_000), 18_000_000),
    ((18_000_000, 6_001), 18_000_001),
    ((12_345_678, 0), 12_345_678),
    ((20_000_000, 0), 20_000_000),
    ((16_000_000, 12_000_001), 20_000_000),
    ((16_000_001, 12_000_001), 20_000_001),
    ((20_000_000, 20_000_000), 28_284_271),
];

/// Single legs, and each that is refused as the first and the last of three.
fn distance_edges() -> Vec<Named<Survey>> {
    let mut edges = Vec::new();
    for (leg, length) in LENGTHS {
        let refused = !(1..=20_000_000).contains(&length);
        let number = if refused { 8 } else { 0 };
        let name = format!("leg {leg:?}");
        edges.extend(oriented(&name, Claim::accepted_or(number, 0), &[leg]));
        // Where the leg is too long, the others must go back for it to fit.
        let back = (-LEG.0, -LEG.1);
        let short = if length > 0 { back } else { LEG };
        for (place, legs) in [(0, [leg, short, short]), (2, [short, short, leg])] {
            let name = format!("leg {leg:?} at {place}");
            if refused {
                edges.extend(oriented(&name, Claim::of(8, place), &legs));
            }
        }
    }
    edges
}

/// Seconds at which turns are tried: the first, the last, 30, 45 and 50 degrees, and
/// some between.
const SECONDS: [u32; 14] = [
    1, 2, 3, 39, 3_600, 36_000, 95_634, 108_000, 162_000, 162_001, 180_000, 215_999, 216_000,
    216_001,
];

/// What is claimed of this turn: a curve of one second to 60 degrees, else 19 or 20.
fn claim_of_turn(seconds: u32) -> Claim {
    match seconds {
        0 => Claim::of(19, 1),
        1..=GREATEST_TURN => Claim::Accepted,
        _ => Claim::of(20, 1),
    }
}

/// Turns that just reach a second, and that just do not.
fn turn_edges() -> Vec<Named<Survey>> {
    let mut edges = Vec::new();
    for second in SECONDS {
        let [below, above] = nearest_legs(second);
        for (name, out, turn) in [
            ("just reached", above, second),
            ("just not reached", below, second - 1),
        ] {
            let name = format!("second {second} {name}, turn {turn}");
            edges.extend(oriented(&name, claim_of_turn(turn), &[LEG, out]));
        }
    }
    edges
}

/// The longest leg of a turn at an edge, mm.
const LONGEST: i64 = 18_000_000;

/// The legs nearest to a turn of so many seconds from a leg to the east, up to the
/// longest: one that does not reach it, one that does.
fn nearest_legs(second: u32) -> [Leg; 2] {
    let (mut below, mut above) = ((1, 0), (0, 1));
    loop {
        // Between the two, and no shorter leg is.
        let (east, north) = (below.0 + above.0, below.1 + above.1);
        if east * east + north * north > LONGEST * LONGEST {
            return [below, above].map(lengthened);
        }
        if reached(i128::from(north), i128::from(east), second) {
            above = (east, north);
        } else {
            below = (east, north);
        }
    }
}

/// The leg so many times that it is long enough for a tangent.
fn lengthened((east, north): Leg) -> Leg {
    let times = 1 + LEG.0 / east.abs().max(north.abs());
    (times * east, times * north)
}

/// Legs into and out of a PI for which both products are equal at this second: it
/// is reached.
pub const TIES: [(u32, Leg, Leg); 5] = [
    (2, (5_108, -1_413), (5_683, -1_572)),
    (126_000, (71, -239), (3_140_899, -2_494_344)),
    (180_000, (206, 45), (1_101_440, 2_099_937)),
    (215_999, (15, -44), (10_551_845, -2_084_646)),
    (216_001, (79, 350), (-511_900, 472_683)),
];

fn tie_edges() -> Vec<Named<Survey>> {
    let edges = TIES.into_iter().flat_map(|(second, into, out)| {
        let name = format!("second {second} reached exactly, turn {second}");
        oriented(&name, claim_of_turn(second), &[into, out].map(lengthened))
    });
    edges.collect()
}

/// 45 degrees, right angles, legs that go straight on or back, and products of 1.
fn odd_turns() -> Vec<Named<Survey>> {
    let out = |name: &str, number: u8, into: Leg, out: Leg| {
        oriented(name, Claim::accepted_or(number, 1), &[into, out])
    };
    let long = (1_000_000, 999_999);
    [
        out("45 degrees", 0, LEG, (1_000_000, 1_000_000)),
        out("dot 0", 20, LEG, (0, 1_000_000)),
        out("dot 0 of sloping legs", 20, SLOPING, (-600_000, 800_000)),
        out("dot 1", 20, long, (1, -1)),
        out("dot below zero", 20, LEG, (-800_000, 600_000)),
        out("dot -1", 20, long, (-1, 1)),
        out("cross 0, ahead", 19, LEG, LEG),
        out("cross 0 of sloping legs, ahead", 19, SLOPING, SLOPING),
        out("cross 0, back", 20, LEG, (-1_000_000, 0)),
        out(
            "cross 0 of sloping legs, back",
            20,
            SLOPING,
            (-400_000, -300_000),
        ),
        out("cross 1", 19, long, (1_000_001, 1_000_000)),
        out("cross 1, back", 20, long, (-1_000_001, -1_000_000)),
    ]
    .concat()
}

/// Speeds, crossfalls and starts, with no curve and with one.
fn heading_edges() -> Vec<Named<Survey>> {
    let mut edges = Vec::new();
    for legs in [&[LEG][..], &[LEG, SLOPING]] {
        let mut add = |number: u8, heading: Heading| {
            let name = format!("{} legs, {heading:?}", legs.len());
            let edge = Survey {
                heading,
                ..survey(legs, CURVE)
            };
            edges.push(named(name, Claim::accepted_or(number, 0), edge));
        };
        for (v, number) in [(70, 0), (0, 4), (39, 4), (45, 4), (121, 4), (MOST, 4)] {
            add(number, Heading { v, ..HEADING });
        }
        for (e, number) in [(2, 0), (12, 0), (0, 5), (1, 5), (13, 5), (MOST, 5)] {
            add(
                number,
                Heading {
                    e,
                    v: 40,
                    ..HEADING
                },
            );
        }
        let starts = [
            (200_000_000, 0),
            (200_000_001, 0),
            (GREATEST_START, 0),
            (GREATEST_START + 1, 6),
            (MOST, 6),
        ];
        for (start, number) in starts {
            add(number, Heading { start, ..HEADING });
        }
    }
    edges
}

/// Radii and spirals at the limits of checks 10 to 14.
fn curve_edges() -> Vec<Named<Survey>> {
    let legs = [(5_000_000, 0), (4_000_000, 3_000_000)];
    let (r, _) = CURVE;
    let line = survey(&legs, CURVE).line().expect("it is accepted");
    // The longest spirals that leave an arc.
    let whole_arc = arc(line.curve(1).a, r, 0);
    let longest = u32::try_from((whole_arc - LEAST_ARC) / 1_000).expect("an arc is short");
    let curves = [
        ((0, 0), 10),
        ((19_999, 0), 10),
        ((20_000, 0), 12),
        ((5_000_000, 0), 0),
        ((5_000_001, 0), 10),
        ((MOST, 0), 10),
        ((MOST, MOST), 10),
        ((r, r + 1), 11),
        ((600_000, 500_001), 11),
        ((r, MOST), 11),
        ((167_751, 0), 0),
        ((167_750, 0), 12),
        ((r, 1), 13),
        ((r, 39_999), 13),
        ((r, 40_000), 0),
        ((r, longest), 0),
        ((r, longest + 1), 14),
        ((r, r), 14),
    ];
    let edges = curves.map(|(curve, number)| {
        let name = format!("radius and spiral {curve:?}");
        named(name, Claim::accepted_or(number, 1), survey(&legs, curve))
    });
    edges.to_vec()
}

/// The least distance that leaves a straight, and 1 mm less, as the first, the
/// middle and the last of three.
fn straight_edges() -> Vec<Named<Survey>> {
    let mut edges = Vec::new();
    for place in 0..3 {
        // To the east at the place, sloping beside it.
        let legs = |distance| {
            let mut legs = [LEG, LEG, LEG];
            for other in (0..3).filter(|other| other % 2 != place % 2) {
                legs[other] = SLOPING;
            }
            legs[place] = (distance, 0);
            legs
        };
        let line: Line = survey(&legs(LEG.0), CURVE).line().expect("it is accepted");
        let least = i64::from(least_distance(&line, place));
        for (distance, number) in [(least, 0), (least - 1, 15), (1, 15)] {
            let name = format!("distance {distance} at {place}");
            let claim = Claim::accepted_or(number, place);
            edges.push(named(name, claim, survey(&legs(distance), CURVE)));
        }
    }
    edges
}

/// Every room up to two numbers more than are needed; of a full line, those at its
/// end.
fn room_edges() -> Vec<Named<SurveyCall>> {
    let mut edges = Vec::new();
    for n in [0, 1, 2, MOST_CURVES] {
        let enough = number_count(n);
        let first = if n == MOST_CURVES { enough - 6 } else { 0 };
        for room in first..=enough + 2 {
            let number = if room < enough { 16 } else { 0 };
            let name = format!("{n} curves, room {room}");
            let survey = staircase(n);
            let call = SurveyCall { survey, room };
            edges.push(named(name, Claim::accepted_or(number, 0), call));
        }
    }
    edges
}

/// Legs of 300 m that bend by 36.87 degrees to either side in turn, however many.
pub fn staircase(n: usize) -> Survey {
    faulty_survey(n, &[])
}

/// Radius and spiral of its curves.
const SHARP_CURVE: (u32, u32) = (200_000, 0);

/// A staircase of `n` curves with these faults.
fn faulty_survey(n: usize, faults: &[Fault]) -> Survey {
    let has = |number, place| faults.contains(&(number, place));
    let mut heading = HEADING;
    if has(4, 0) {
        heading.v = 75;
    }
    if has(5, 0) {
        heading.e = 13;
    }
    if has(6, 0) {
        heading.start = GREATEST_START + 1;
    }
    let curves: Vec<(u32, u32)> = (1..=n).map(|i| faulty_curve(faults, i)).collect();
    let mut survey = Survey::of_legs(heading, &faulty_legs(n, faults), &curves);
    if has(18, 0) {
        *survey.points.last_mut().expect("there are points") = GREATEST_COORDINATE + 1;
    }
    if has(3, 0) {
        survey.points.push(0);
    }
    survey
}

/// The legs, those with a fault 8, 15, 19 or 20 among them.
fn faulty_legs(n: usize, faults: &[Fault]) -> Vec<Leg> {
    let has = |number, place| faults.contains(&(number, place));
    // A leg of 5 units; a unit is 60 m.
    let mut direction = (5, 0);
    let mut legs = Vec::new();
    for i in 0..=n {
        direction = match i {
            0 => direction,
            _ if has(19, i) => direction,
            // Back, or at a right angle.
            _ if has(20, i) && i % 2 == 0 => (-direction.0, -direction.1),
            _ if has(20, i) => (-direction.1, direction.0),
            _ => bent(direction),
        };
        let unit = match i {
            _ if has(8, i) => 0,
            _ if has(15, i) => 1,
            _ => 60_000,
        };
        legs.push((unit * direction.0, unit * direction.1));
    }
    legs
}

/// The direction of 5 units that is 36.87 degrees to the left; where it has no
/// whole units, to the right.
fn bent((east, north): Leg) -> Leg {
    let left = (4 * east - 3 * north, 3 * east + 4 * north);
    let right = (4 * east + 3 * north, 4 * north - 3 * east);
    let whole = |(east, north): &Leg| east % 5 == 0 && north % 5 == 0;
    let (east, north) = if whole(&left) { left } else { right };
    (east / 5, north / 5)
}

/// Radius and spiral of curve i, with those of faults 10 to 14 that it has.
fn faulty_curve(faults: &[Fault], i: usize) -> (u32, u32) {
    let has = |number| faults.contains(&(number, i));
    let (mut r, mut l) = SHARP_CURVE;
    if has(14) {
        l = 150_000;
    }
    if has(13) {
        l = 1;
    }
    if has(12) {
        r = 20_000;
    }
    if has(11) {
        l = 500_001;
    }
    if has(10) {
        r = 19_999;
    }
    (r, l)
}

/// The call with these faults; 16 is the largest room that is too small.
fn faulty_call(n: usize, faults: &[Fault]) -> Named<SurveyCall> {
    let survey = faulty_survey(n, faults);
    let enough = number_count(n);
    let room = enough - usize::from(faults.contains(&(16, 0)));
    let name = faulty_name("survey", n, faults);
    named(name, first_of(faults), SurveyCall { survey, room })
}

/// Each refusal with a place at the first, a middle and the last place of a
/// staircase, and at the last of a full one.
fn faults_at_every_place() -> Vec<Named<SurveyCall>> {
    let mut edges = Vec::new();
    for number in [8, 10, 11, 12, 13, 14, 15, 19, 20] {
        let first = usize::from(!matches!(number, 8 | 15));
        for (n, place) in [
            (5, first),
            (5, 2),
            (5, 3),
            (5, 5),
            (MOST_CURVES, MOST_CURVES),
        ] {
            edges.push(faulty_call(n, &[(number, place)]));
        }
    }
    edges
}

/// Several faults at once, the first in the order of the checks standing first.
const FAULTS_OF_FOUR: [&[Fault]; 48] = [
    // Counts before coordinates before distances.
    &[(3, 0), (18, 0)],
    &[(3, 0), (8, 0)],
    &[(3, 0), (4, 0)],
    &[(3, 0), (16, 0)],
    &[(18, 0), (8, 0)],
    &[(18, 0), (8, 2)],
    &[(18, 0), (20, 1)],
    &[(18, 0), (19, 1)],
    &[(18, 0), (4, 0)],
    &[(18, 0), (15, 0)],
    &[(18, 0), (16, 0)],
    // All distances before all turns.
    &[(8, 0), (8, 4)],
    &[(8, 1), (20, 1)],
    &[(8, 4), (20, 1)],
    &[(8, 4), (19, 1)],
    &[(8, 4), (4, 0)],
    &[(8, 4), (10, 1)],
    &[(8, 4), (16, 0)],
    // Turns point by point, before the calculator's checks.
    &[(20, 1), (19, 2)],
    &[(20, 2), (19, 3)],
    &[(19, 1), (20, 2)],
    &[(19, 2), (20, 3)],
    &[(20, 1), (20, 2)],
    &[(19, 1), (19, 4)],
    &[(20, 4), (4, 0), (5, 0), (6, 0)],
    &[(19, 4), (4, 0)],
    &[(20, 4), (6, 0)],
    &[(19, 4), (10, 1)],
    &[(20, 4), (11, 1)],
    &[(19, 4), (12, 1)],
    &[(20, 4), (13, 1)],
    &[(19, 4), (14, 1)],
    &[(20, 4), (15, 0)],
    &[(19, 4), (15, 0)],
    &[(20, 4), (16, 0)],
    &[(19, 4), (16, 0)],
    // The calculator's order.
    &[(4, 0), (5, 0)],
    &[(5, 0), (6, 0)],
    &[(6, 0), (10, 1)],
    &[(10, 2), (11, 2)],
    &[(11, 1), (10, 2)],
    &[(11, 4), (12, 1)],
    &[(12, 3), (13, 3)],
    &[(14, 1), (12, 2)],
    &[(14, 4), (15, 0)],
    &[(15, 0), (15, 4)],
    &[(15, 4), (16, 0)],
    &[(4, 0), (16, 0)],
];

/// The same for a full line.
const FAULTS_OF_64: [&[Fault]; 5] = [
    &[(18, 0), (8, 1)],
    &[(8, 64), (20, 1)],
    &[(20, 64), (4, 0)],
    &[(19, 64), (15, 0)],
    &[(15, 64), (16, 0)],
];

fn several_faults() -> Vec<Named<SurveyCall>> {
    let of_four = FAULTS_OF_FOUR.map(|faults| faulty_call(4, faults));
    let of_64 = FAULTS_OF_64.map(|faults| faulty_call(MOST_CURVES, faults));
    of_four.into_iter().chain(of_64).collect()
}

#[cfg(test)]
mod tests {
    use super::*;
    use crate::elements::{cosine, full_angle, sine};
    use crate::line::{LEFT, RIGHT};

    /// The refusals of the call.
    fn refusals() -> Vec<u8> {
        [3, 4, 5, 6, 8]
            .into_iter()
            .chain(10..=16)
            .chain(18..=20)
            .collect()
    }

    #[test]
    fn each_is_answered_as_claimed() {
        for edge in edges() {
            let SurveyCall { survey, room } = &edge.sample;
            let answer = survey.answer(*room);
            assert!(
                edge.holds(&refusals(), &answer),
                "{}: {answer:?}",
                edge.name
            );
        }
    }

    #[test]
    fn points_of_case_1() {
        assert_eq!(case_1().line(), Ok(Line::case_1()));
    }

    #[test]
    fn lengths_are_rounded_down() {
        for (leg, length) in LENGTHS {
            let found = survey(&[leg], CURVE).line();
            match (1..=20_000_000).contains(&length) {
                true => assert_eq!(found.unwrap().distances[0], length),
                false => assert!(found.is_err()),
            }
        }
    }

    /// The turn in the name, half of the orientations to the left, half to the
    /// right.
    #[test]
    fn turns_are_those_of_the_names() {
        for edge in [turn_edges(), tie_edges()].concat() {
            let (name, orientation) = edge.name.rsplit_once(", orientation ").unwrap();
            let (_, turn) = name.rsplit_once("turn ").unwrap();
            let Ok(line) = edge.sample.line() else {
                assert!(["0", "216001"].contains(&turn), "{name}");
                continue;
            };
            let side = if orientation < "4" { LEFT } else { RIGHT };
            assert_eq!(line.curve(1).a.to_string(), turn, "{name}");
            assert_eq!(line.sides[0], side, "{name}");
        }
    }

    /// No leg lies between the two but longer ones than both together.
    #[test]
    fn nearest_legs_are_neighbours() {
        for second in SECONDS {
            let [below, above] = nearest_legs(second).map(|(east, north)| {
                let times = greatest_common_divisor(east, north);
                (east / times, north / times)
            });
            assert_eq!(below.0 * above.1 - below.1 * above.0, 1, "{second}");
        }
    }

    fn greatest_common_divisor(a: i64, b: i64) -> i64 {
        match b {
            0 => a,
            _ => greatest_common_divisor(b, a % b),
        }
    }

    #[test]
    fn products_of_ties_are_equal() {
        for (second, into, out) in TIES {
            let cross = i128::from(into.0 * out.1 - into.1 * out.0);
            let dot = i128::from(into.0 * out.0 + into.1 * out.1);
            let q = full_angle(second);
            assert_eq!(cross * cosine(q), dot * sine(q), "{second}");
            assert!(dot > 0);
        }
    }

    #[test]
    fn every_refusal_is_claimed() {
        let claimed: BTreeSet<u8> = edges()
            .iter()
            .filter_map(|edge| match edge.claim {
                Claim::Refused(refusal) => Some(refusal.number),
                _ => None,
            })
            .collect();
        assert_eq!(claimed, refusals().into_iter().collect());
    }
}
