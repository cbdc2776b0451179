//! The inputs with a name, the same for every seed: document 01's cases, and both
//! sides of every check at several places, built from the reference's samples.

use crate::input::{Call, Request, Room};
use reference::curve::Curve;
use reference::edition::{Edition, EDITIONS, FIRST};
use reference::line::{Line, MOST_CURVES};
use reference::line_numbers::number_count;
use reference::samples::call::Callee::Writer;
use reference::samples::call_edges::road_for;
use reference::samples::convert_edges::{self, NO_EDITIONS};
use reference::samples::curves;
use reference::samples::dice::Dice;
use reference::samples::halves;
use reference::samples::line_edges;
use reference::samples::named::{named, Claim, Named};
use reference::samples::peg_edges;
use reference::samples::point_edges;
use reference::samples::profile_edges;
use reference::samples::sheet_edges;
use reference::samples::sheet_fields::{edition_in_turn, editions_for, sheet_in, sheet_of_any};
use reference::samples::station_cases::named_sheets;
use reference::samples::station_sheets::full_length_edges;
use reference::samples::unit_spiral_edges;
use reference::samples::writer_edges;
use reference::sheet;

/// A request and the room that is lent.
pub type NamedRequest = Named<(Request, Room)>;

/// The seed of the roads and sheets among them.
const SEED: u64 = 1;

/// All of them. A name begins with that of the call.
pub fn named_requests() -> Vec<NamedRequest> {
    let mut dice = Dice::new(SEED);
    let requests = [
        stored_sheets(),
        edges_of_the_reader(&mut dice),
        edges_of_the_calculator(&mut dice),
        curves(),
        edges_of_the_writer(&mut dice),
        odd_lines(&mut dice),
        no_editions(),
        pegs(&mut dice),
        points(),
        heights(&mut dice),
        conversions(&mut dice),
        look_ups(),
        tables(),
    ]
    .concat();
    let without_room = without_room(&requests);
    [requests, without_room].concat()
}

/// Those that claim a refusal before 16 again, without any room: 16 comes last.
/// The station of a peg or a height then also lies beyond every line and profile: 17
/// comes before it.
fn without_room(requests: &[NamedRequest]) -> Vec<NamedRequest> {
    let refused_before_16 = |named: &&NamedRequest| {
        let refusals = named.sample.0.call().refusals();
        match named.claim {
            Claim::Refused(refusal) => {
                refusal.number != 16 && refusals.contains(&refusal.number) && refusals.contains(&16)
            }
            _ => false,
        }
    };
    let refused = requests.iter().filter(refused_before_16).cloned();
    let mut without_room = Vec::new();
    for Named {
        name,
        claim,
        sample: (request, _),
    } in refused
    {
        let (name, request) = match request {
            Request::Peg(sheet, _) if claim != Claim::of(17, 0) => {
                let name = format!("{name}, station {}", u64::MAX);
                (name, Request::Peg(sheet, u64::MAX))
            }
            Request::Height(profile, _) if claim != Claim::of(17, 0) => {
                let name = format!("{name}, station {}", u64::MAX);
                (name, Request::Height(profile, u64::MAX))
            }
            request => (name, request),
        };
        let name = format!("{name}, no room");
        without_room.push(named(name, claim, (request, Room::Entries(0))));
    }
    without_room
}

/// The request that is made of a sample.
fn request_of<T>(sample: Named<T>, make: impl FnOnce(T) -> (Request, Room)) -> NamedRequest {
    let made = sample.map(make);
    let name = format!("{}: {}", made.sample.0.call().name(), made.name);
    Named { name, ..made }
}

/// Every call that takes a sheet, with just the room that it needs.
fn of_a_sheet(sheet: Named<Vec<u8>>) -> Vec<NamedRequest> {
    Request::OF_A_SHEET
        .map(|of_sheet| request_of(sheet.clone(), |sheet| (of_sheet(sheet), Room::Needed(0))))
        .map(with_far_start)
        .to_vec()
}

/// A conversion of a sheet that is read, but whose start edition 1 does not hold,
/// claims 24.
fn with_far_start(request: NamedRequest) -> NamedRequest {
    let far = match &request.sample.0 {
        Request::Convert(sheet, _) => {
            sheet::line_of(sheet).is_ok_and(|line| line.start > FIRST.greatest_start)
        }
        _ => false,
    };
    let claim = if far { Claim::of(24, 0) } else { request.claim };
    Named { claim, ..request }
}

/// The sheets of `samples/stations`.
fn stored_sheets() -> Vec<NamedRequest> {
    named_sheets()
        .into_iter()
        .flat_map(|stored| of_a_sheet(named(stored.name, Claim::Open, stored.sheet)))
        .collect()
}

fn edges_of_the_reader(dice: &mut Dice) -> Vec<NamedRequest> {
    [sheet_edges::edges(dice), full_length_edges(dice)]
        .concat()
        .into_iter()
        .flat_map(of_a_sheet)
        .collect()
}

/// Lines that fit a sheet, in every edition that takes the start: the stations with the
/// room of the edge; where it is not too small, the other calls too.
fn edges_of_the_calculator(dice: &mut Dice) -> Vec<NamedRequest> {
    let mut requests = Vec::new();
    for edge in line_edges::edges(dice) {
        let room = Room::Entries(edge.sample.room);
        for edition in editions_for(&edge.sample.line) {
            let Some(sheet) = sheet_of_any(*edition, &edge.sample.line) else {
                continue;
            };
            let name = format!("line in edition {}, {}", edition.number, edge.name);
            let line = named(name, edge.claim, sheet);
            requests.push(request_of(line.clone(), |sheet| {
                (Request::Stations(sheet), room)
            }));
            if edge.claim != Claim::of(16, 0) {
                let calls = of_a_sheet(line).into_iter();
                requests.extend(calls.filter(|other| other.sample.0.call() != Call::Stations));
            }
        }
    }
    requests
}

fn curves() -> Vec<NamedRequest> {
    let curves = [
        curves::document_cases(),
        curves::edges(),
        curves::long_spirals(),
        curves::rounded_curves(),
        halves::curves(),
    ];
    curves
        .concat()
        .into_iter()
        .map(|curve| request_of(curve, |curve| (Request::Elements(curve), Room::Needed(0))))
        .collect()
}

/// Lines by their numbers, those that no sheet can hold among them.
fn edges_of_the_writer(dice: &mut Dice) -> Vec<NamedRequest> {
    let mut requests = Vec::new();
    for edition in EDITIONS {
        let edges = writer_edges::edges(dice, edition).into_iter();
        requests.extend(edges.map(|edge| {
            request_of(in_edition(edition, edge), |call| {
                let line = call.line.numbers();
                let request = Request::Write(edition.number, line);
                (request, Room::Entries(call.room))
            })
        }));
    }
    requests
}

/// The same sample, its name beginning with the edition's.
fn in_edition<T>(edition: Edition, sample: Named<T>) -> Named<T> {
    let name = format!("edition {}, {}", edition.number, sample.name);
    Named { name, ..sample }
}

/// Case 1, a line of too few numbers and one with a fault of each kind, in editions
/// that are none: 2 comes first.
fn no_editions() -> Vec<NamedRequest> {
    let case_1 = Line::case_1().numbers();
    let faulty = [1, 45, 1, u32::MAX, 0, 2, 0, 0, u32::MAX, 0].to_vec();
    let lines = [
        ("case 1", case_1.clone()),
        ("case 1, cut to 9 numbers", case_1[..9].to_vec()),
        ("no number", Vec::new()),
        ("every field outside its range", faulty),
    ];
    let mut requests = Vec::new();
    for (name, line) in lines {
        for edition in NO_EDITIONS {
            let name = format!("edition {edition}, {name}");
            let line = named(name, Claim::of(2, 0), line.clone());
            requests.push(request_of(line, |line| {
                (Request::Write(edition, line), Room::Needed(0))
            }));
        }
    }
    requests
}

/// The stations of each line in the editions that take its start, by turns.
fn pegs(dice: &mut Dice) -> Vec<NamedRequest> {
    let edges = peg_edges::edges(dice).into_iter().enumerate();
    let requests = edges.map(|(i, edge)| {
        request_of(edge, |call| {
            let sheet = sheet_in(edition_in_turn(i, &call.line), &call.line);
            (Request::Peg(sheet, call.station), Room::Entries(call.room))
        })
    });
    requests.collect()
}

fn conversions(dice: &mut Dice) -> Vec<NamedRequest> {
    let edges = convert_edges::edges(dice).into_iter();
    let requests = edges.map(|edge| {
        request_of(edge, |call| {
            let request = Request::Convert(call.sheet, call.asked);
            (request, Room::Entries(call.room))
        })
    });
    requests.collect()
}

fn look_ups() -> Vec<NamedRequest> {
    let edges = unit_spiral_edges::edges().into_iter();
    let requests = edges.map(|edge| {
        request_of(edge, |call| {
            let request = Request::UnitSpiral(call.thousandth, call.length);
            (request, Room::Entries(call.room))
        })
    });
    requests.collect()
}

fn tables() -> Vec<NamedRequest> {
    let rooms = unit_spiral_edges::table_rooms().into_iter();
    let requests =
        rooms.map(|room| request_of(room, |room| (Request::UnitSpiralTable, Room::Entries(room))));
    requests.collect()
}

fn points() -> Vec<NamedRequest> {
    let edges = point_edges::edges().into_iter();
    let requests = edges.map(|edge| {
        request_of(edge, |call| {
            (Request::FromPoints(call.survey), Room::Entries(call.room))
        })
    });
    requests.collect()
}

fn heights(dice: &mut Dice) -> Vec<NamedRequest> {
    let edges = profile_edges::edges(dice).into_iter();
    let requests = edges.map(|edge| {
        request_of(edge, |call| {
            let request = Request::Height(call.profile, call.station);
            (request, Room::Entries(call.room))
        })
    });
    requests.collect()
}

/// Numbers that are no line's: too few, too many, sides that are none, numbers
/// wider than their fields.
fn odd_lines(dice: &mut Dice) -> Vec<NamedRequest> {
    let mut requests = Vec::new();
    for edition in EDITIONS {
        let lines = [
            miscounted(dice, edition),
            too_many_curves(),
            sides(dice, edition),
            too_wide(edition),
        ];
        requests.extend(lines.concat().into_iter().map(|line| {
            request_of(in_edition(edition, line), |line| {
                (Request::Write(edition.number, line), Room::Needed(0))
            })
        }));
    }
    requests
}

/// Too few and too many numbers for n.
fn miscounted(dice: &mut Dice, edition: Edition) -> Vec<Named<Vec<u32>>> {
    let mut lines = Vec::new();
    for n in [0, 1, 3, MOST_CURVES] {
        let line = road_for(dice, Writer(edition), n).numbers();
        for count in [
            line.len() - 5,
            line.len() - 1,
            line.len() + 1,
            line.len() + 5,
        ] {
            let mut line = line.clone();
            line.resize(count, 1);
            let name = format!("{count} numbers of {n} curves");
            lines.push(named(name, Claim::of(3, 0), line));
        }
    }
    let case_1 = Line::case_1().numbers();
    for count in 1..9 {
        let name = format!("case 1, cut to {count} numbers");
        lines.push(named(name, Claim::of(3, 0), case_1[..count].to_vec()));
    }
    lines
}

/// Over 64 curves, with all their numbers; and counts of which the lower bits
/// alone would be case 1's.
fn too_many_curves() -> Vec<Named<Vec<u32>>> {
    let Curve { a, r, l } = Line::case_1().curve(1);
    let with_all = [65, 66, 127, 128, 129].map(|n| {
        let mut line = Line::case_9().numbers();
        line[0] = n as u32;
        line.extend([0, a, r, l, 400_000].repeat(n));
        assert_eq!(line.len(), number_count(n));
        named(
            format!("{n} curves with all their numbers"),
            Claim::of(3, 0),
            line,
        )
    });
    let case_1s = [7, 8, 16, 31].map(|bit| {
        let mut line = Line::case_1().numbers();
        line[0] |= 1 << bit;
        named(
            format!("case 1, n is 1 and bit {bit}"),
            Claim::of(3, 0),
            line,
        )
    });
    [&with_all[..], &case_1s].concat()
}

/// Sides other than right and left, alone and with faults before and behind.
fn sides(dice: &mut Dice, edition: Edition) -> Vec<Named<Vec<u32>>> {
    let mut lines = Vec::new();
    for (n, place) in [(1, 1), (3, 1), (3, 2), (3, 3), (MOST_CURVES, MOST_CURVES)] {
        for side in [2, 3, 1 << 31, u32::MAX] {
            let mut line = road_for(dice, Writer(edition), n);
            line.sides[place - 1] = side;
            let name = format!("side {side} at {place} of {n} curves");
            lines.push(named(name, Claim::of(9, place), line.numbers()));
        }
    }
    let mut faulty = |name: &str, number, place, fault: fn(&mut Line)| {
        let mut line = road_for(dice, Writer(edition), 3);
        line.sides[1] = 2;
        fault(&mut line);
        let name = format!("side 2 at 2 of 3 curves, {name}");
        lines.push(named(name, Claim::of(number, place), line.numbers()));
    };
    faulty("V 0", 4, 0, |line| line.v = 0);
    faulty("distance 0 of 0", 8, 0, |line| line.distances[0] = 0);
    faulty("spiral 1 of 500001", 11, 1, |line| {
        line.curves[0].l = 500_001
    });
    faulty("distance 1 of 0", 8, 1, |line| line.distances[1] = 0);
    faulty("deflection 2 of 0", 9, 2, |line| line.curves[1].a = 0);
    faulty("radius 2 of 0", 9, 2, |line| line.curves[1].r = 0);
    faulty("distance 2 of 0", 9, 2, |line| line.distances[2] = 0);
    faulty("side 3 of 2", 9, 2, |line| line.sides[2] = 2);
    lines
}

/// Case 1 with one number that, cut to the bits of its field, would be its own:
/// the number's index, the bits of its field, and the refusal. The start of edition 2
/// is as wide as a number.
fn too_wide(edition: Edition) -> Vec<Named<Vec<u32>>> {
    let fields = [
        ("V", 1, 7, (4, 0)),
        ("e", 2, 4, (5, 0)),
        ("start", 3, edition.start_bits, (6, 0)),
        ("distance 0", 4, 25, (8, 0)),
        ("side", 5, 1, (9, 1)),
        ("deflection", 6, 19, (9, 1)),
        ("radius", 7, 23, (10, 1)),
        ("spiral", 8, 19, (11, 1)),
        ("distance 1", 9, 25, (8, 1)),
    ];
    let mut lines = Vec::new();
    for (field, index, width, (number, place)) in fields {
        let mut bits = vec![width, 25, 28, 31];
        bits.retain(|bit| (width..u32::BITS).contains(bit));
        bits.dedup();
        for bit in bits {
            let mut line = Line::case_1().numbers();
            line[index] |= 1 << bit;
            let name = format!("case 1, {field} with bit {bit}");
            lines.push(named(name, Claim::of(number, place), line));
        }
    }
    lines
}

#[cfg(test)]
mod tests {
    use super::*;
    use crate::compare::compare;
    use crate::input::Input;
    use crate::side::{Answer, Reference};
    use std::collections::BTreeSet;

    fn answer(named: &NamedRequest) -> Answer {
        let (request, room) = named.sample.clone();
        let input = Input {
            request,
            room,
            pattern: 0,
        };
        compare(&Reference, &input).reference
    }

    #[test]
    fn all_are_there() {
        let mut dice = Dice::new(SEED);
        let counts = [
            stored_sheets().len(),
            edges_of_the_reader(&mut dice).len(),
            edges_of_the_calculator(&mut dice).len(),
            curves().len(),
            edges_of_the_writer(&mut dice).len(),
            odd_lines(&mut dice).len(),
            no_editions().len(),
            pegs(&mut dice).len(),
            points().len(),
            heights(&mut dice).len(),
            conversions(&mut dice).len(),
            look_ups().len(),
            tables().len(),
        ];
        // Of the calculator's lines 622 sheets are made; 12 of them have a room that
        // is too small.
        let of_the_calculator = 622 * 8 - 12 * 7;
        let of_the_reader = (1_087 + 64) * 8;
        assert_eq!(
            counts,
            [
                48 * 8,
                of_the_reader,
                of_the_calculator,
                8 + 469 + 48 + 3 + 17,
                2 * 193,
                93 + 91,
                4 * 12,
                1_663 + 8 + 16 + 8,
                1_054,
                1_988,
                454,
                502 * 4 + 14 * 10 * 5 + 17 + 32,
                8,
            ]
        );
        let without_room = 7_633;
        let all = counts.iter().sum::<usize>() + without_room;
        assert_eq!(named_requests().len(), all);
    }

    #[test]
    fn names_differ() {
        let requests = named_requests();
        let mut names = BTreeSet::new();
        for named in &requests {
            assert!(names.insert(&named.name), "{} twice", named.name);
        }
    }

    #[test]
    fn each_is_answered_as_claimed() {
        for named in named_requests() {
            let answer = answer(&named);
            let refusals = named.sample.0.call().refusals();
            assert!(
                named.holds(&refusals, &answer),
                "{}: {answer:?}",
                named.name
            );
        }
    }

    /// Every refusal of every call is claimed; too small rooms only of the calls
    /// of a line, of pegs, of points, of heights, of conversions and of the unit spiral
    /// table, the other calls have every size elsewhere.
    #[test]
    fn every_refusal_is_claimed() {
        for call in Call::ALL {
            let mut expected: BTreeSet<u8> = call.refusals().into_iter().collect();
            if !matches!(
                call,
                Call::Stations
                    | Call::Write
                    | Call::Peg
                    | Call::FromPoints
                    | Call::Height
                    | Call::Convert
                    | Call::UnitSpiral
                    | Call::UnitSpiralTable
            ) {
                expected.remove(&16);
            }
            let claimed: BTreeSet<u8> = named_requests()
                .iter()
                .filter(|named| named.sample.0.call() == call)
                .filter_map(|named| match named.claim {
                    Claim::Refused(refusal) => Some(refusal.number),
                    _ => None,
                })
                .filter(|number| call.refusals().contains(number))
                .collect();
            assert_eq!(claimed, expected, "{}", call.name());
        }
    }
}
