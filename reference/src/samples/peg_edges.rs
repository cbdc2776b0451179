//! Calls for a peg: the ends of every element and the stations next to them,
//! lengths on a spiral where the roundings count or a half is left, and rooms.

use super::call::Callee;
use super::call_edges::{long_line, longest_road, LARGE_DEFLECTION};
use super::dice::Dice;
use super::halves::{BELOW_HALF_LENGTHS, HALF_LENGTHS};
use super::named::{named, Claim, Named};
use super::roads::{road, road_with_straight};
use crate::curve::Curve;
use crate::edition::EDITIONS;
use crate::elements::GREATEST_SPIRAL;
use crate::line::{Line, LEFT, MOST_CURVES};
use crate::pegs::{stretches, Stretch, PEG_NUMBERS};
use std::collections::BTreeSet;

/// Stations that no line reaches.
pub const BEYOND: [u64; 2] = [1 << 63, u64::MAX];

/// A curve, and lengths on its spirals, µm, at one of which an offset changes whatever
/// quotient is rounded otherwise: to the nearest in place of down, not at all, or down
/// at the last; and where t4, t5 or t6 is made of other powers, as t5 of t3 × t2. To
/// leave out the roundings of t3, t5 and t6 is of no account: the next ones follow.
pub const ROUNDED_CURVE: Curve = Curve::new(LARGE_DEFLECTION, 511_111, 499_999);
pub const ROUNDED_LENGTHS: [u64; 4] = [414_242_305, 478_341_843, 493_244_504, 498_691_321];

/// A line, a station and the room that is lent.
#[derive(Clone, Debug)]
pub struct PegCall {
    pub line: Line,
    pub station: u64,
    pub room: usize,
}

/// All of them.
pub fn edges(dice: &mut Dice) -> Vec<Named<PegCall>> {
    let lines = lines(dice).into_iter();
    let mut edges: Vec<Named<PegCall>> = lines
        .flat_map(|(name, line)| station_edges(name, &line))
        .collect();
    edges.extend(rounded_lengths());
    edges.extend(half_lengths());
    edges.extend(room_edges());
    edges
}

fn lines(dice: &mut Dice) -> Vec<(&'static str, Line)> {
    let [late, far] = EDITIONS.map(|edition| Line {
        start: edition.greatest_start,
        ..Line::case_1()
    });
    let simple = long_line(70, 8, Curve::new(1, 350_000, 0));
    let sharpest = |r| long_line(40, 12, Curve::new(LARGE_DEFLECTION, r, r));
    vec![
        ("case 1", Line::case_1()),
        ("case 1 to the left", to_the_left(Line::case_1())),
        ("case 1 from the greatest start of edition 1", late),
        ("case 1 from the greatest start", far),
        ("case 9", Line::case_9()),
        ("no spirals", simple),
        ("L and R of 48000", sharpest(48_000)),
        (
            "L and R of 500000, left",
            to_the_left(sharpest(GREATEST_SPIRAL)),
        ),
        ("straight of 1 mm", road_with_straight(dice, 3, 1, 1_000)),
        ("road of 64 curves", road(dice, MOST_CURVES)),
        (
            "longest road to the left",
            to_the_left(longest_road(Callee::Calculator)),
        ),
    ]
}

fn to_the_left(mut line: Line) -> Line {
    let n = line.curve_count();
    line.sides[..n].fill(LEFT);
    line
}

/// The ends of all elements with 1 µm less and more, 0, and far beyond.
fn station_edges(name: &str, line: &Line) -> Vec<Named<PegCall>> {
    let stretches = accepted(line);
    let start = stretches[0].begin;
    let ends = stretches.iter().map(|stretch| stretch.end);
    let near = [start].into_iter().chain(ends);
    let near = near.flat_map(|end| [end.saturating_sub(1), end, end + 1]);
    let stations: BTreeSet<u64> = near.chain([0]).chain(BEYOND).collect();
    let line_ends = start..=stretches[stretches.len() - 1].end;
    let edges = stations.into_iter().map(|station| {
        let outside = !line_ends.contains(&station);
        let number = if outside { 17 } else { 0 };
        edge(name, line, station, PEG_NUMBERS, number)
    });
    edges.collect()
}

/// The lengths of [`ROUNDED_LENGTHS`] on both spirals.
fn rounded_lengths() -> Vec<Named<PegCall>> {
    let line = long_line(40, 8, ROUNDED_CURVE);
    let lengths = ROUNDED_LENGTHS.into_iter();
    lengths
        .flat_map(|length| on_both_spirals("roundings", &line, length))
        .collect()
}

/// The lengths of [`HALF_LENGTHS`] and [`BELOW_HALF_LENGTHS`] on both spirals of a
/// right and of a left curve, whose y is rounded before it is negated.
fn half_lengths() -> Vec<Named<PegCall>> {
    let halves = HALF_LENGTHS.map(|half| ("half", half));
    let below = BELOW_HALF_LENGTHS.map(|half| ("below a half", half));
    let mut edges = Vec::new();
    for (name, (curve, length)) in halves.into_iter().chain(below) {
        let right = long_line(40, 12, curve);
        let left = to_the_left(right.clone());
        for (side, line) in [("right", right), ("left", left)] {
            let name = format!("{name}, {side} curve {curve}");
            edges.extend(on_both_spirals(&name, &line, length));
        }
    }
    edges
}

/// A length on both spirals of a line with one curve.
fn on_both_spirals(name: &str, line: &Line, length: u64) -> [Named<PegCall>; 2] {
    let stretches = accepted(line);
    let [spiral_in, spiral_out] = [stretches[1], stretches[3]];
    [spiral_in.begin + length, spiral_out.end - length]
        .map(|station| edge(name, line, station, PEG_NUMBERS, 0))
}

/// Rooms that are too small, exact, and larger.
fn room_edges() -> Vec<Named<PegCall>> {
    let line = Line::case_1();
    let edges = (0..=7).map(|room| {
        let number = if room < PEG_NUMBERS { 16 } else { 0 };
        let name = format!("case 1, room {room}");
        edge(&name, &line, 1, room, number)
    });
    edges.collect()
}

/// A call that is refused with this number, or accepted (0).
fn edge(name: &str, line: &Line, station: u64, room: usize, number: u8) -> Named<PegCall> {
    let name = format!("{name}, station {station}");
    let line = line.clone();
    let call = PegCall {
        line,
        station,
        room,
    };
    named(name, Claim::accepted_or(number, 0), call)
}

/// The elements of a line that is accepted.
fn accepted(line: &Line) -> Vec<Stretch> {
    stretches(line).expect("the line is accepted")
}

#[cfg(test)]
mod tests {
    use super::*;
    use crate::pegs::peg;
    use crate::stations::stations;

    #[test]
    fn each_is_answered_as_claimed() {
        let refusals: Vec<u8> = (1..=17).collect();
        for edge in edges(&mut Dice::new(1)) {
            let PegCall {
                line,
                station,
                room,
            } = &edge.sample;
            let answer = peg(line, *station, &mut vec![0; *room]);
            assert!(edge.holds(&refusals, &answer), "{}: {answer:?}", edge.name);
        }
    }

    /// Every station of the row, 1 µm before it and 1 µm behind it; both sides of
    /// the start, where there is one, and of the end.
    #[test]
    fn every_end_of_an_element() {
        for (name, line) in lines(&mut Dice::new(1)) {
            let edges = station_edges(name, &line);
            let found: BTreeSet<u64> = edges.iter().map(|edge| edge.sample.station).collect();
            let mut row = [0; 257];
            let count = stations(&line, &mut row).unwrap();
            let start = 1_000 * u64::from(line.start);
            for station in row[..count].iter().chain([&start]) {
                let near = station.saturating_sub(1)..=station + 1;
                assert!(near.into_iter().all(|station| found.contains(&station)));
            }
        }
    }
}
