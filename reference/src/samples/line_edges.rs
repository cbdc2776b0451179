//! Lines at the edges of the calculator's checks.

use super::call::{Call, Callee::Calculator};
use super::call_edges::{
    exact_call, faults_at_every_place, faulty_road, long_line, longest_road, range_edges,
    range_faults, room_edges, Fault, LARGE_DEFLECTION,
};
use super::dice::Dice;
use super::halves;
use super::limits::{least_radius, least_radius_of_spiral, least_spiral};
use super::named::{named, Claim, Named};
use super::roads::{road_with_straight, shortest_road};
use crate::curve::Curve;
use crate::elements::{GREATEST_RADIUS, GREATEST_SPIRAL};
use crate::line::Line;
use crate::road_tables::{DesignSpeed, SPEEDS};

/// Both sides of every check, at several places; then several faults at once.
pub fn edges(dice: &mut Dice) -> Vec<Named<Call>> {
    let lines = [
        range_edges(Calculator),
        radius_edges(),
        SPEEDS.into_iter().flat_map(spiral_edges).collect(),
        whole_spiral_edges(),
        arc_edges(),
        straight_edges(dice),
        halves::lines(),
        vec![
            named("shortest road", Claim::Accepted, shortest_road()),
            named("longest road", Claim::Accepted, longest_road(Calculator)),
        ],
    ];
    let mut calls: Vec<Named<Call>> = lines
        .into_iter()
        .flatten()
        .map(|edge| edge.map(|line| exact_call(Calculator, line)))
        .collect();
    calls.extend(room_edges(dice, Calculator));
    calls.extend(faults_at_every_place(dice, Calculator, 8..=15));
    calls.extend(several_faults(dice));
    calls
}

/// A line of one curve; `number` is that of its refusal, 0 where it is accepted.
fn curve_edge(name: String, v: u32, e: u32, curve: Curve, number: u8) -> Named<Line> {
    let claim = Claim::accepted_or(number, 1);
    named(name, claim, long_line(v, e, curve))
}

/// The least radius of every speed, and 1 mm less.
fn radius_edges() -> Vec<Named<Line>> {
    let mut edges = Vec::new();
    for speed in SPEEDS {
        for e in [2, 7, 12] {
            let least = least_radius(speed, e);
            for (r, number) in [(least, 0), (least - 1, 12)] {
                let name = format!("radius {r} at {} km/h, e {e}", speed.v);
                let curve = Curve::new(LARGE_DEFLECTION, r, 0);
                edges.push(curve_edge(name, speed.v, e, curve, number));
            }
        }
    }
    edges
}

/// The least spiral of a speed by table and by rule, and 1 mm less.
fn spiral_edges(speed: DesignSpeed) -> Vec<Named<Line>> {
    let e = 8;
    let by_table = 1_000 * speed.least_spiral;
    // At this radius the table and the rule meet.
    let meeting = least_radius_of_spiral(speed, by_table);
    let least = least_radius(speed, e);
    let by_rule = least_spiral(speed, least);
    [
        (meeting, by_table, 0),
        (meeting, by_table - 1, 13),
        (meeting - 1, by_table, 13),
        (GREATEST_RADIUS, by_table, 0),
        (GREATEST_RADIUS, by_table - 1, 13),
        (least, by_rule, 0),
        (least, by_rule - 1, 13),
    ]
    .map(|(r, l, number)| {
        let name = format!("spiral {l} of radius {r} at {} km/h", speed.v);
        let curve = Curve::new(LARGE_DEFLECTION, r, l);
        curve_edge(name, speed.v, e, curve, number)
    })
    .to_vec()
}

/// The smallest radius that allows any spiral at 40 km/h, L being R, and 1 mm
/// less: 48,000² is 36,000 × 40³.
fn whole_spiral_edges() -> Vec<Named<Line>> {
    [(48_000, 0), (47_999, 13)]
        .map(|(r, number)| {
            let name = format!("spiral of {r}, its radius");
            curve_edge(name, 40, 12, Curve::new(LARGE_DEFLECTION, r, r), number)
        })
        .to_vec()
}

/// Arcs of 1,000 and 999 µm, and the longest and the most negative ones of one
/// second.
fn arc_edges() -> Vec<Named<Line>> {
    [
        (Curve::new(1, 206_168, 0), 0),
        (Curve::new(1, 206_167, 0), 14),
        (Curve::new(1, GREATEST_RADIUS, 0), 0),
        (Curve::new(1, GREATEST_RADIUS, GREATEST_SPIRAL), 14),
    ]
    .map(|(curve, number)| curve_edge(format!("arc of curve {curve}"), 70, 8, curve, number))
    .to_vec()
}

/// Straights near 0 and near 1,000 µm, at the first, a middle and the last
/// place.
fn straight_edges(dice: &mut Dice) -> Vec<Named<Line>> {
    let mut edges = Vec::new();
    for i in [0, 2, 3] {
        for straight in [-1, 0, 1, 998, 999, 1_000, 1_001, 1_002] {
            let line = road_with_straight(dice, 3, i, straight);
            let claim = match straight {
                1_000.. => Claim::Accepted,
                _ => Claim::of(15, i),
            };
            edges.push(named(format!("straight {i} of {straight} µm"), claim, line));
        }
    }
    edges
}

/// Several faults at once for a road of four curves, the first in the order of
/// the checks standing first; they follow those of the ranges.
const FAULTS_OF_FOUR: [&[Fault]; 15] = [
    // Ranges before curves and straights.
    &[(11, 4), (12, 1)],
    &[(8, 4), (12, 1)],
    &[(8, 4), (15, 0)],
    // Curve by curve.
    &[(13, 1), (12, 2)],
    &[(14, 1), (12, 2)],
    &[(14, 1), (13, 2), (12, 3)],
    &[(12, 1), (13, 1)],
    &[(13, 2), (14, 2)],
    &[(12, 3), (13, 3), (14, 3)],
    &[(13, 4), (16, 0)],
    // Curves before straights, straights before the row.
    &[(14, 2), (15, 0)],
    &[(12, 4), (15, 0)],
    &[(15, 0), (15, 4)],
    &[(15, 1), (15, 3)],
    &[(15, 4), (16, 0)],
];

/// The same for a full road.
const FAULTS_OF_64: [&[Fault]; 3] = [
    &[(13, 63), (12, 64)],
    &[(14, 64), (15, 0)],
    &[(15, 64), (16, 0)],
];

/// Several faults at once, so that the order of the checks shows.
fn several_faults(dice: &mut Dice) -> Vec<Named<Call>> {
    let mut calls = range_faults(dice, Calculator);
    calls.extend(FAULTS_OF_FOUR.map(|faults| faulty_road(dice, Calculator, 4, faults)));
    calls.extend(FAULTS_OF_64.map(|faults| faulty_road(dice, Calculator, 64, faults)));
    calls
}

#[cfg(test)]
mod tests {
    use super::*;
    use crate::elements::arc;

    #[test]
    fn edges_are_answered_as_claimed() {
        for edge in edges(&mut Dice::new(1)) {
            let answer = edge.sample.answer(Calculator);
            assert!(edge.holds(Calculator.refusals(), &answer), "{edge:?}");
        }
    }

    #[test]
    fn arcs_at_the_limit() {
        let arcs: Vec<i128> = arc_edges()
            .iter()
            .map(|edge| edge.sample.curve(1))
            .map(|Curve { a, r, l }| arc(a, r, l))
            .collect();
        assert_eq!(arcs, [1_000, 999, 24_240, 24_240 - 500_000_000]);
    }
}
