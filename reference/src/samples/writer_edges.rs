//! Calls of the writer, told either edition: document 01's lines, and those at the
//! edges of its checks.

use super::call::{Call, Callee, Callee::Writer};
use super::call_edges::{
    exact_call, faults_at_every_place, faulty_road, longest_road, range_edges, range_faults,
    road_for, room_edges, Fault,
};
use super::dice::Dice;
use super::lines::document_cases;
use super::named::{named, Claim, Named};
use super::roads::shortest_road;
use crate::edition::Edition;

/// Document 01's lines and both sides of every check, at several places; then
/// several faults at once.
pub fn edges(dice: &mut Dice, edition: Edition) -> Vec<Named<Call>> {
    let writer = Writer(edition);
    let mut lines = [document_cases(), range_edges(writer)].concat();
    lines.extend([
        named("shortest road", Claim::Accepted, shortest_road()),
        named("longest road", Claim::Accepted, longest_road(writer)),
    ]);
    let mut calls: Vec<Named<Call>> = lines
        .into_iter()
        .map(|edge| edge.map(|line| exact_call(writer, line)))
        .collect();
    calls.extend(room_edges(dice, writer));
    calls.extend(every_fill(dice, writer));
    calls.extend(faults_at_every_place(dice, writer, 8..=11));
    calls.extend(range_faults(dice, writer));
    calls.extend(FAULTS_OF_64.map(|faults| faulty_road(dice, writer, 64, faults)));
    calls
}

/// Roads whose sheets have every width of the fill, with just the room that they
/// need, and with one byte less.
fn every_fill(dice: &mut Dice, writer: Callee) -> Vec<Named<Call>> {
    let mut calls = Vec::new();
    for n in 0..8 {
        let exact = exact_call(writer, road_for(dice, writer, n));
        let mut short = exact.clone();
        short.room -= 1;
        for (claim, call) in [(Claim::Accepted, exact), (Claim::of(16, 0), short)] {
            let name = format!("fill of {n} curves, room {}", call.room);
            calls.push(named(name, claim, call));
        }
    }
    calls
}

/// Several faults at once for a full road, the first in the order of the checks
/// standing first.
const FAULTS_OF_64: [&[Fault]; 5] = [
    &[(6, 0), (8, 64)],
    &[(8, 63), (9, 64)],
    &[(11, 64), (8, 64)],
    &[(11, 64), (16, 0)],
    &[(8, 64), (16, 0)],
];

#[cfg(test)]
mod tests {
    use super::*;
    use crate::edition::EDITIONS;

    #[test]
    fn edges_are_answered_as_claimed() {
        for edition in EDITIONS {
            let writer = Writer(edition);
            for edge in edges(&mut Dice::new(1), edition) {
                let answer = edge.sample.answer(writer);
                assert!(edge.holds(writer.refusals(), &answer), "{edge:?}");
            }
        }
    }
}
