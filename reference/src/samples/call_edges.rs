//! Calls at the edges of the checks that the calculator and the writer share.

use super::call::{Call, Callee};
use super::dice::Dice;
use super::faults::put_faults;
use super::named::{named, Claim, Named};
use super::roads::road;
use crate::curve::Curve;
use crate::elements::{GREATEST_DEFLECTION, GREATEST_RADIUS, GREATEST_SPIRAL, SMALLEST_RADIUS};
use crate::line::{Line, GREATEST_DISTANCE, MOST_CURVES};
use crate::refusal::Refusal;

const MOST: u32 = u32::MAX;

/// A deflection at which no spiral is too long for its arc.
pub const LARGE_DEFLECTION: u32 = 300_000;

/// Number and place of the refusal that a fault is put for.
pub type Fault = (u8, usize);

/// The call with just the room that the line needs; for one with too many
/// curves, as for the most.
pub fn exact_call(callee: Callee, line: Line) -> Call {
    let n = line.curve_count().min(MOST_CURVES);
    Call {
        room: callee.room_for(n),
        line,
    }
}

/// A line of one curve with the greatest distances, enough for every tangent.
pub fn long_line(v: u32, e: u32, curve: Curve) -> Line {
    Line::new(v, e, 0, &[GREATEST_DISTANCE; 2], &[curve])
}

/// The line whose every field is at the greatest that the callee takes.
pub fn longest_road(callee: Callee) -> Line {
    let curve = Curve::new(GREATEST_DEFLECTION, GREATEST_RADIUS, GREATEST_SPIRAL);
    let distances = [GREATEST_DISTANCE; MOST_CURVES + 1];
    let start = callee.greatest_start();
    Line::new(120, 12, start, &distances, &[curve; MOST_CURVES])
}

/// A road of `n` curves that the callee accepts.
pub fn road_for(dice: &mut Dice, callee: Callee, n: usize) -> Line {
    let mut line = road(dice, n);
    line.start = line.start.min(callee.greatest_start());
    line
}

/// The edges of checks 3 to 6 and 8 to 11.
pub fn range_edges(callee: Callee) -> Vec<Named<Line>> {
    [heading_edges(callee), distance_edges(), curve_edges()].concat()
}

/// Starts on both sides of the greatest of either edition and of their widths.
pub const START_EDGES: [u32; 10] = [
    1,
    199_999_999,
    200_000_000,
    200_000_001,
    (1 << 28) - 1,
    1 << 28,
    3_999_999_999,
    4_000_000_000,
    4_000_000_001,
    MOST,
];

/// Case 9 without a curve, and case 1 with one.
fn short_lines() -> [(&'static str, Line); 2] {
    [("case 9", Line::case_9()), ("case 1", Line::case_1())]
}

/// The edges of V, e, start and n; each value with the number of its refusal, 0
/// where it is in range.
fn heading_edges(callee: Callee) -> Vec<Named<Line>> {
    let speeds = [
        (0, 4),
        (39, 4),
        (40, 0),
        (41, 4),
        (45, 4),
        (119, 4),
        (120, 0),
        (121, 4),
        (130, 4),
        (MOST, 4),
    ];
    let crossfalls = [(0, 5), (1, 5), (2, 0), (12, 0), (13, 5), (MOST, 5)];
    let starts = START_EDGES.map(|start| {
        let taken = start <= callee.greatest_start();
        (start, if taken { 0 } else { 6 })
    });
    let mut edges = Vec::new();
    for (name, line) in short_lines() {
        let mut add = |field: &str, value: u32, claim: Claim, line: Line| {
            edges.push(named(format!("{name}, {field} {value}"), claim, line));
        };
        let line = || line.clone();
        for (v, number) in speeds {
            add("V", v, Claim::of(number, 0), Line { v, ..line() });
        }
        for (e, number) in crossfalls {
            add("e", e, Claim::of(number, 0), Line { e, ..line() });
        }
        for (start, number) in starts {
            add(
                "start",
                start,
                Claim::of(number, 0),
                Line { start, ..line() },
            );
        }
        // The curves that are not there are all zero.
        let first_zero = Claim::of(9, line().curve_count() + 1);
        for n in [2, 64] {
            add("n", n, first_zero, Line { n, ..line() });
        }
        for n in [65, 127, 128, 1 << 31, MOST] {
            add("n", n, Claim::of(3, 0), Line { n, ..line() });
        }
    }
    edges
}

/// The edges of the distances.
fn distance_edges() -> Vec<Named<Line>> {
    let distances = [
        (0, 8),
        (1, 0),
        (GREATEST_DISTANCE, 0),
        (GREATEST_DISTANCE + 1, 8),
        (MOST, 8),
    ];
    let mut edges = Vec::new();
    for (name, line) in short_lines() {
        for i in 0..=line.curve_count() {
            for (distance, number) in distances {
                let mut line = line.clone();
                line.distances[i] = distance;
                let name = format!("{name}, distance {i} of {distance}");
                edges.push(named(name, Claim::of(number, i), line));
            }
        }
    }
    edges
}

/// The edges of A, R and L.
fn curve_edges() -> Vec<Named<Line>> {
    let middle = Curve::new(LARGE_DEFLECTION, 1_000_000, 100_000);
    let mut edges = Vec::new();
    let mut add = |curve: Curve, number: u8| {
        let line = long_line(70, 8, curve);
        let name = format!("curve {curve} at 70 km/h");
        edges.push(named(name, Claim::of(number, 1), line));
    };
    for (a, number) in [
        (0, 9),
        (1, 0),
        (GREATEST_DEFLECTION, 0),
        (GREATEST_DEFLECTION + 1, 9),
        (MOST, 9),
    ] {
        add(Curve { a, ..middle }, number);
    }
    for (r, number) in [
        (0, 10),
        (SMALLEST_RADIUS - 1, 10),
        (GREATEST_RADIUS, 0),
        (GREATEST_RADIUS + 1, 10),
        (MOST, 10),
    ] {
        add(Curve { r, ..middle }, number);
    }
    for (l, number) in [
        (0, 0),
        (1, 0),
        (GREATEST_SPIRAL, 0),
        (GREATEST_SPIRAL + 1, 11),
        (MOST, 11),
    ] {
        add(Curve { l, ..middle }, number);
    }
    // L at R, and 1 mm over.
    for r in [SMALLEST_RADIUS, 400_000] {
        add(Curve { r, l: r, ..middle }, 0);
        let l = r + 1;
        add(Curve { r, l, ..middle }, 11);
    }
    edges
}

/// Rooms that are too small, exact, and larger.
pub fn room_edges(dice: &mut Dice, callee: Callee) -> Vec<Named<Call>> {
    let mut edges = Vec::new();
    for n in [0, 1, 3, MOST_CURVES] {
        let exact = exact_call(callee, road_for(dice, callee, n));
        let enough = exact.room;
        let mut rooms = vec![0, enough - 1, enough, enough + 1, enough + 4];
        rooms.push(callee.most_room());
        rooms.dedup();
        for room in rooms {
            let number = if room < enough { 16 } else { 0 };
            let claim = Claim::accepted_or(number, 0);
            let line = exact.line.clone();
            let name = format!("road of {n} curves, room {room}");
            edges.push(named(name, claim, Call { room, line }));
        }
    }
    edges
}

/// Each of these refusals, 8 to 15, at the first, a middle and the last place of
/// a road, and at the last of a full one.
pub fn faults_at_every_place(
    dice: &mut Dice,
    callee: Callee,
    numbers: impl Iterator<Item = u8>,
) -> Vec<Named<Call>> {
    let mut edges = Vec::new();
    for number in numbers {
        let first = usize::from(!matches!(number, 8 | 15));
        for (n, place) in [(5, first), (5, 3), (5, 5), (MOST_CURVES, MOST_CURVES)] {
            edges.push(faulty_road(dice, callee, n, &[(number, place)]));
        }
    }
    edges
}

/// Several faults at once for a road of four curves, the first in the order of
/// the checks standing first.
const RANGE_FAULTS: [&[Fault]; 14] = [
    // Heading.
    &[(3, 0), (4, 0), (5, 0), (6, 0)],
    &[(3, 0), (4, 0)],
    &[(4, 0), (5, 0)],
    &[(5, 0), (6, 0)],
    &[(6, 0), (8, 0)],
    &[(6, 0), (16, 0)],
    // Sheet order.
    &[(8, 0), (9, 1)],
    &[(9, 1), (8, 1)],
    &[(8, 1), (9, 2)],
    &[(11, 1), (8, 1)],
    &[(9, 1), (10, 1), (11, 1)],
    &[(10, 2), (11, 2)],
    &[(11, 2), (9, 3)],
    &[(8, 2), (16, 0)],
];

/// Calls with these faults, so that the order of the checks shows.
pub fn range_faults(dice: &mut Dice, callee: Callee) -> Vec<Named<Call>> {
    RANGE_FAULTS
        .map(|faults| faulty_road(dice, callee, 4, faults))
        .to_vec()
}

/// A road of `n` curves with these faults.
pub fn faulty_road(dice: &mut Dice, callee: Callee, n: usize, faults: &[Fault]) -> Named<Call> {
    let mut call = exact_call(callee, road_for(dice, callee, n));
    put_faults(dice, callee, &mut call, &refusals_of(faults));
    named(faulty_name("road", n, faults), first_of(faults), call)
}

/// The refusals that the faults are put for.
pub fn refusals_of(faults: &[Fault]) -> Vec<Refusal> {
    faults
        .iter()
        .map(|&(number, place)| Refusal { number, place })
        .collect()
}

/// The claim of several faults, of which the first stands first.
pub fn first_of(faults: &[Fault]) -> Claim {
    let (number, place) = faults[0];
    Claim::of(number, place)
}

/// The name of a road or sheet of `n` curves with these faults.
pub fn faulty_name(what: &str, n: usize, faults: &[Fault]) -> String {
    let faults: Vec<String> = faults
        .iter()
        .map(|(number, place)| format!("fault {number} at {place}"))
        .collect();
    format!("{what} of {n} curves, {}", faults.join(", "))
}
