//! The inputs of a seed, in an endless list: those with a name; some requests
//! with every size of buffer; then random inputs. Every input follows from the
//! seed and its index alone.

mod conversions;
mod curves;
mod damage;
mod lines;
mod named;
pub mod near_limits;
mod pegs;
mod points;
mod profiles;
mod sheets;

use crate::input::{Input, Request, Room};
use conversions::any_conversion;
use curves::any_curve;
use lines::any_write;
use named::{named_requests, NamedRequest};
use pegs::any_peg;
use points::any_survey;
use profiles::any_height;
use reference::edition::{EDITIONS, FIRST, SECOND};
use reference::line::{Line, MOST_CURVES};
use reference::profile::MOST_VERTICES;
use reference::samples::call::Callee::Writer;
use reference::samples::call_edges::road_for;
use reference::samples::dice::Dice;
use reference::samples::point_edges::{case_1, staircase};
use reference::samples::profile_edges::{crest, waves};
use reference::samples::sheet_fields::sheet_in;
use reference::samples::unit_spiral_edges::any_look_up;
pub use sheets::any_sheet;

/// The inputs of a seed.
pub struct Inputs {
    pub seed: u64,
    named: Vec<NamedRequest>,
    /// Requests that are made with every size of buffer, from none to the most.
    sized: Vec<Request>,
}

impl Inputs {
    pub fn of(seed: u64) -> Inputs {
        Inputs {
            seed,
            named: named_requests(),
            sized: sized_requests(seed),
        }
    }

    /// The input with this index.
    pub fn input(&self, index: u64) -> Input {
        let mut dice = dice_of(self.seed, index);
        let (request, room) = self
            .named_request(index)
            .map(|named| named.sample.clone())
            .or_else(|| self.sized_request(index))
            .unwrap_or_else(|| any_request_and_room(&mut dice));
        let pattern = any_pattern(&mut dice);
        Input {
            request,
            room,
            pattern,
        }
    }

    /// The name of the input with this index, if it has one.
    pub fn name(&self, index: u64) -> Option<&str> {
        self.named_request(index).map(|named| named.name.as_str())
    }

    /// How many inputs are not random.
    #[cfg(test)]
    pub fn fixed(&self) -> u64 {
        let sizes = self.sized.iter().map(|sized| sized.call().most_room() + 1);
        (self.named.len() + sizes.sum::<usize>()) as u64
    }

    fn named_request(&self, index: u64) -> Option<&NamedRequest> {
        self.named.get(usize::try_from(index).ok()?)
    }

    /// The request and the size of the buffer with this index, if it is one of
    /// those that follow the named ones.
    fn sized_request(&self, index: u64) -> Option<(Request, Room)> {
        let mut room = usize::try_from(index).ok()?.checked_sub(self.named.len())?;
        for request in &self.sized {
            let most = request.call().most_room();
            if room <= most {
                return Some((request.clone(), Room::Entries(room)));
            }
            room -= most + 1;
        }
        None
    }
}

/// Case 1's curve; case 1 in edition 1 and a road of 64 curves in edition 2 with the
/// calls that take a sheet; both, and a road of three curves, whose sheets differ in
/// length, written in both editions and converted both ways; one and 64 curves by
/// points, and profiles of one and 32 vertices; the last row of the unit spiral table
/// with the longest spiral, and the table.
fn sized_requests(seed: u64) -> Vec<Request> {
    let mut dice = Dice::new(seed);
    let [three, full] = [3, MOST_CURVES].map(|n| road_for(&mut dice, Writer(FIRST), n));
    let mut requests = vec![Request::Elements(Line::case_1().curve(1))];
    for (edition, line) in [(FIRST, &Line::case_1()), (SECOND, &full)] {
        let sheet = sheet_in(edition, line);
        requests.extend(Request::OF_A_SHEET.map(|request| request(sheet.clone())));
    }
    for line in [&Line::case_1(), &three, &full] {
        for edition in EDITIONS {
            let sheet = sheet_in(edition, line);
            requests.push(Request::Write(edition.number, line.numbers()));
            requests.push(Request::Convert(sheet, edition.other().number));
        }
    }
    requests.extend([case_1(), staircase(MOST_CURVES)].map(Request::FromPoints));
    for profile in [crest(), waves(MOST_VERTICES)] {
        let station = profile.vertices[0].station as u64;
        requests.push(Request::Height(profile.numbers(), station));
    }
    requests.push(Request::UnitSpiral(500, 500_000));
    requests.push(Request::UnitSpiralTable);
    requests
}

/// The dice of one input.
pub fn dice_of(seed: u64, index: u64) -> Dice {
    let start = any_pattern(&mut Dice::new(seed));
    Dice::new(start.wrapping_add(index))
}

/// Any 64 bits.
fn any_pattern(dice: &mut Dice) -> u64 {
    let [upper, lower] = [(); 2].map(|_| u64::from(dice.between(0, u32::MAX)));
    upper << 32 | lower
}

fn any_request_and_room(dice: &mut Dice) -> (Request, Room) {
    let request = any_request(dice);
    let room = any_room(dice, request.call().most_room());
    (request, room)
}

fn any_request(dice: &mut Dice) -> Request {
    match dice.between(0, 57) {
        0..=6 => Request::Stations(any_sheet(dice)),
        7..=8 => Request::Check(any_sheet(dice)),
        9..=12 => Request::Rewrite(any_sheet(dice)),
        13..=15 => Request::Elements(any_curve(dice)),
        16..=19 => Request::Text(any_sheet(dice)),
        20..=23 => Request::Read(any_sheet(dice)),
        24..=29 => any_write(dice),
        30..=35 => any_peg(dice),
        36..=41 => Request::FromPoints(any_survey(dice)),
        42..=46 => any_height(dice),
        47..=48 => Request::Edition(any_sheet(dice)),
        49..=53 => any_conversion(dice),
        54..=56 => {
            let (thousandth, length) = any_look_up(dice);
            Request::UnitSpiral(thousandth, length)
        }
        _ => Request::UnitSpiralTable,
    }
}

/// A room up to the most; often what is needed, one less or one more.
fn any_room(dice: &mut Dice, most: usize) -> Room {
    match dice.between(0, 19) {
        0..=5 => Room::Needed(0),
        6..=8 => Room::Needed(-1),
        9..=10 => Room::Needed(1),
        11 => Room::Needed(dice.index(0, 20) as isize - 10),
        12 => Room::Entries(0),
        13 => Room::Entries(most),
        14 => Room::Entries(dice.index(0, most.min(20))),
        _ => Room::Entries(dice.index(0, most)),
    }
}

#[cfg(test)]
mod tests {
    use super::*;
    use crate::input::Call;
    use std::collections::BTreeSet;

    #[test]
    fn same_inputs_for_the_same_seed() {
        let some = |seed| {
            let inputs = Inputs::of(seed);
            let fixed = inputs.fixed();
            let indexes = (0..200).chain(fixed - 100..fixed + 400);
            indexes
                .map(|index| inputs.input(index))
                .collect::<Vec<Input>>()
        };
        let inputs = some(1);
        assert_eq!(inputs, some(1));
        let others = some(2);
        let equal = inputs.iter().zip(&others).filter(|(a, b)| a == b);
        assert_eq!(equal.count(), 0);
    }

    #[test]
    fn named_inputs_come_first_and_are_the_same_for_every_seed() {
        let [first, second] = [1, 2].map(Inputs::of);
        let count = first.named.len() as u64;
        for index in 0..count {
            assert_eq!(first.name(index), second.name(index));
            let [one, other] = [&first, &second].map(|inputs| inputs.input(index));
            assert_eq!((one.request, one.room), (other.request, other.room));
        }
        assert_eq!(first.name(0), Some("stations: case-01"));
        assert_eq!(first.name(count), None);
    }

    #[test]
    fn every_size_of_buffer() {
        let inputs = Inputs::of(1);
        let mut sizes = Call::ALL.map(|_| BTreeSet::new());
        for index in inputs.named.len() as u64..inputs.fixed() {
            let input = inputs.input(index);
            sizes[input.request.call() as usize].insert(input.room_entries());
        }
        for call in Call::ALL {
            let every: BTreeSet<usize> = (0..=call.most_room()).collect();
            assert_eq!(sizes[call as usize], every);
        }
        assert!(inputs.sized_request(inputs.fixed()).is_none());
    }

    #[test]
    fn rooms_of_every_call() {
        let mut dice = Dice::new(1);
        for call in Call::ALL {
            let most = call.most_room();
            let rooms: Vec<Room> = (0..20_000).map(|_| any_room(&mut dice, most)).collect();
            for room in [
                Room::Needed(-1),
                Room::Needed(0),
                Room::Needed(1),
                Room::Entries(0),
                Room::Entries(most),
            ] {
                assert!(rooms.contains(&room));
            }
            let entries: BTreeSet<usize> = rooms
                .iter()
                .filter_map(|room| match room {
                    Room::Entries(entries) => Some(*entries),
                    Room::Needed(_) => None,
                })
                .collect();
            assert!(entries.len() > most.min(2_000) / 2);
        }
    }
}
