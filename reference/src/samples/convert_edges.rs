//! Calls of the converter: every edition asked for, starts at the limits, every width
//! of the fill both ways, rooms, and the order of its refusals.

use super::call::Callee::Writer;
use super::call_edges::{longest_road, road_for, START_EDGES};
use super::dice::Dice;
use super::named::{named, Claim, Named};
use super::roads::shortest_road;
use super::sheet_edges::faulty_sheet;
use super::sheet_fields::{sheet_in, start};
use crate::edition::{Edition, EDITIONS, FIRST, SECOND};
use crate::line::{Line, MOST_CURVES};
use crate::sheet::sheet_length;

/// A sheet, the edition asked for and the room that is lent.
#[derive(Clone, Debug)]
pub struct ConvertCall {
    pub sheet: Vec<u8>,
    pub asked: u32,
    pub room: usize,
}

/// More bytes than any sheet has.
const MOST_ROOM: usize = 720;

/// Editions that are none, those among them whose lower bits are one.
pub const NO_EDITIONS: [u32; 12] = [
    0,
    3,
    4,
    15,
    16,
    17,
    18,
    257,
    258,
    1 << 31,
    (1 << 31) + 1,
    u32::MAX,
];

/// All of them.
pub fn edges(dice: &mut Dice) -> Vec<Named<ConvertCall>> {
    let mut edges = Vec::new();
    for edition in EDITIONS {
        edges.extend(asked_edges(edition));
        edges.extend(start_edges(edition));
        edges.extend(room_edges(dice, edition));
        edges.extend(road_edges(edition));
        edges.extend(faults(dice, edition));
    }
    edges
}

/// A call for a sheet of this edition that is refused with this number, or accepted
/// (0).
fn edge(
    name: impl ToString,
    edition: Edition,
    number: u8,
    call: ConvertCall,
) -> Named<ConvertCall> {
    let name = format!(
        "edition {}, {}, {} asked for, room {}",
        edition.number,
        name.to_string(),
        call.asked,
        call.room
    );
    named(name, Claim::accepted_or(number, 0), call)
}

/// Every edition asked for.
fn asked_edges(edition: Edition) -> Vec<Named<ConvertCall>> {
    let asked = EDITIONS.map(|edition| edition.number);
    asked
        .into_iter()
        .chain(NO_EDITIONS)
        .map(|asked| {
            let sheet = sheet_in(edition, &Line::case_1());
            let number = if asked == edition.other().number {
                0
            } else {
                2
            };
            let room = MOST_ROOM;
            edge(
                "case 1",
                edition,
                number,
                ConvertCall { sheet, asked, room },
            )
        })
        .collect()
}

/// Starts on both sides of every limit, for the other edition, the own one and none;
/// 2 comes before 24, which comes before 16.
fn start_edges(edition: Edition) -> Vec<Named<ConvertCall>> {
    let mut edges = Vec::new();
    let other = edition.other();
    for from in START_EDGES
        .into_iter()
        .filter(|from| *from <= start(edition).most())
    {
        let sheet = start(edition).with(&sheet_in(edition, &Line::case_1()), from);
        for asked in [other.number, edition.number, 3] {
            for room in [0, 20, 21] {
                let number = if from > edition.greatest_start {
                    6
                } else if asked != other.number {
                    2
                } else if from > other.greatest_start {
                    24
                } else if room < 21 {
                    16
                } else {
                    0
                };
                let name = format!("case 1 from {from}");
                let sheet = sheet.clone();
                edges.push(edge(
                    name,
                    edition,
                    number,
                    ConvertCall { sheet, asked, room },
                ));
            }
        }
    }
    edges
}

/// Roads whose sheets have every width of the fill, with the room that is needed, one
/// byte less and more, that of the sheet itself, none and more than enough.
fn room_edges(dice: &mut Dice, edition: Edition) -> Vec<Named<ConvertCall>> {
    let mut edges = Vec::new();
    let asked = edition.other().number;
    for n in (0..=8).chain([63, MOST_CURVES]) {
        let sheet = sheet_in(edition, &road_for(dice, Writer(FIRST), n));
        let enough = sheet_length(edition.other(), n);
        let mut rooms = vec![0, enough - 1, enough, enough + 1, sheet.len(), MOST_ROOM];
        rooms.sort();
        rooms.dedup();
        for room in rooms {
            let number = if room < enough { 16 } else { 0 };
            let name = format!("road of {n} curves");
            let sheet = sheet.clone();
            edges.push(edge(
                name,
                edition,
                number,
                ConvertCall { sheet, asked, room },
            ));
        }
    }
    edges
}

/// The shortest road of 64 curves and the longest that both editions hold; the
/// longest of all, which does not go back.
fn road_edges(edition: Edition) -> Vec<Named<ConvertCall>> {
    let mut roads = vec![
        ("shortest road", shortest_road(), 0),
        ("longest road of both", longest_road(Writer(FIRST)), 0),
    ];
    if edition == SECOND {
        roads.push(("longest road", longest_road(Writer(SECOND)), 24));
    }
    let of_a_road = |(name, road, number)| {
        let call = ConvertCall {
            sheet: sheet_in(edition, &road),
            asked: edition.other().number,
            room: 706,
        };
        edge(name, edition, number, call)
    };
    roads.into_iter().map(of_a_road).collect()
}

/// Each refusal of the reader, whatever is asked for, with room and without any: the
/// converter's own come later.
fn faults(dice: &mut Dice, edition: Edition) -> Vec<Named<ConvertCall>> {
    let mut edges = Vec::new();
    for number in 1..=11 {
        let place = if number < 8 { 0 } else { 2 };
        let faulty = faulty_sheet(dice, edition, 3, &[(number, place)]);
        for asked in [0, edition.number, edition.other().number, 3] {
            for room in [0, MOST_ROOM] {
                let sheet = faulty.sample.clone();
                let call = ConvertCall { sheet, asked, room };
                let edge = edge(&faulty.name, edition, 0, call);
                let claim = faulty.claim;
                edges.push(Named { claim, ..edge });
            }
        }
    }
    edges
}

#[cfg(test)]
mod tests {
    use super::*;
    use crate::sheet::convert;
    use std::collections::BTreeSet;

    #[test]
    fn each_is_answered_as_claimed() {
        let refusals: Vec<u8> = (1..=24).collect();
        let mut claimed = BTreeSet::new();
        for edge in edges(&mut Dice::new(1)) {
            let ConvertCall { sheet, asked, room } = &edge.sample;
            let answer = convert(sheet, *asked, &mut vec![0; *room]);
            assert!(edge.holds(&refusals, &answer), "{}: {answer:?}", edge.name);
            if let Claim::Refused(refusal) = edge.claim {
                claimed.insert(refusal.number);
            }
        }
        let expected: BTreeSet<u8> = (1..=11).chain([16, 24]).collect();
        assert_eq!(claimed, expected);
    }
}
