//! The comparison: both sides get the same input, and all that they answer and
//! write is compared.

use crate::conversion_laws::broken_conversion_law;
use crate::height_laws::broken_height_law;
use crate::input::{Input, Request};
use crate::laws::broken_law;
use crate::memory::{Entry, EntryDifference, Memory};
use crate::side::{Answer, Reference, Side};
use crate::unit_spiral_laws::{broken_look_up_law, broken_table_law};
use reference::refusal::refuse;
use reference::report::refusal_number;
use std::fmt;
use std::hint::black_box;

/// What differs.
#[derive(Clone, Copy, Debug, PartialEq, Eq)]
pub enum Difference {
    /// The answers.
    Answer,
    /// An entry of the lent memory, or a guard of it.
    Lent(EntryDifference),
    /// An entry of the given sheet, line, points, curves or profile, or a guard of it,
    /// that was changed.
    Given(EntryDifference),
    /// Writing what was read, or reading what was written, does not give the
    /// sheet or line back.
    NotBack,
    /// A law of lines from coordinates, of heights, of conversions or of the unit spiral
    /// table is broken.
    Law(&'static str),
}

impl fmt::Display for Difference {
    fn fmt(&self, f: &mut fmt::Formatter) -> fmt::Result {
        match self {
            Difference::Answer => write!(f, "the answers"),
            Difference::Lent(entry) => write!(
                f,
                "entry {} of the lent memory: library {}, reference {}",
                entry.index, entry.found, entry.expected
            ),
            Difference::Given(entry) => write!(
                f,
                "entry {} of what is given: {} before the call, {} after it",
                entry.index, entry.expected, entry.found
            ),
            Difference::NotBack => {
                write!(f, "the library's reader and writer do not undo each other")
            }
            Difference::Law(law) => write!(f, "{law}"),
        }
    }
}

/// The result of one comparison.
#[derive(Clone, Debug, PartialEq, Eq)]
pub struct Comparison {
    pub library: Answer,
    pub reference: Answer,
    /// The first difference.
    pub difference: Option<Difference>,
    /// For a text that fits: the refusal that it tells, 0 for a list of stations.
    pub told: Option<usize>,
}

/// Calls both sides with the input.
pub fn compare(library: &dyn Side, input: &Input) -> Comparison {
    match &input.request {
        Request::Stations(sheet) => with_given(input, sheet, |sheet| {
            both(input, library, |side, row| side.stations(sheet, row)).0
        }),
        Request::Check(sheet) => with_given(input, sheet, |sheet| {
            let nothing_lent = |side: &dyn Side, _: &mut [u8]| side.check(sheet);
            both(input, library, nothing_lent).0
        }),
        Request::Rewrite(sheet) => with_given(input, sheet, |sheet| {
            both(input, library, |side, bytes| side.rewrite(sheet, bytes)).0
        }),
        Request::Elements(curve) => {
            both(input, library, |side, numbers| {
                side.elements(*curve, numbers)
            })
            .0
        }
        Request::Text(sheet) => with_given(input, sheet, |sheet| {
            let (comparison, expected) = both(input, library, |side, text| side.text(sheet, text));
            let told = told_by(&expected);
            Comparison { told, ..comparison }
        }),
        Request::Read(sheet) => with_given(input, sheet, |sheet| {
            let outcome = both(input, library, |side, line| side.read(sheet, line));
            undone(outcome, sheet, |line, bytes| {
                let edition = library.edition(sheet)?;
                library.write(edition as u32, line, bytes)
            })
        }),
        Request::Write(edition, line) => with_given(input, line, |line| {
            let call = |side: &dyn Side, bytes: &mut [u8]| side.write(*edition, line, bytes);
            let outcome = both(input, library, call);
            undone(outcome, line, |sheet, numbers| {
                if library.edition(sheet)? != *edition as usize {
                    return refuse(2, 0);
                }
                library.read(sheet, numbers)
            })
        }),
        Request::Peg(sheet, station) => with_given(input, sheet, |sheet| {
            let call = |side: &dyn Side, numbers: &mut [i64]| side.peg(sheet, *station, numbers);
            both(input, library, call).0
        }),
        Request::FromPoints(survey) => with_given(input, &survey.points, |points| {
            with_given(input, &survey.curves, |curves| {
                let call = |side: &dyn Side, line: &mut [u32]| {
                    side.line_from_points(survey.heading, points, curves, line)
                };
                lawful(both(input, library, call).0, || broken_law(library, survey))
            })
        }),
        Request::Height(profile, station) => with_given(input, profile, |profile| {
            let call = |side: &dyn Side, height: &mut [i64]| side.height(profile, *station, height);
            lawful(both(input, library, call).0, || {
                broken_height_law(library, profile, *station)
            })
        }),
        Request::Edition(sheet) => with_given(input, sheet, |sheet| {
            let nothing_lent = |side: &dyn Side, _: &mut [u8]| side.edition(sheet);
            both(input, library, nothing_lent).0
        }),
        Request::Convert(sheet, edition) => with_given(input, sheet, |sheet| {
            let call = |side: &dyn Side, bytes: &mut [u8]| side.convert(sheet, *edition, bytes);
            lawful(both(input, library, call).0, || {
                broken_conversion_law(library, sheet)
            })
        }),
        Request::UnitSpiral(thousandth, length) => {
            let call = |side: &dyn Side, offsets: &mut [u64]| {
                side.unit_spiral(*thousandth, *length, offsets)
            };
            lawful(both(input, library, call).0, || {
                broken_look_up_law(library, *thousandth, *length)
            })
        }
        Request::UnitSpiralTable => {
            let call = |side: &dyn Side, ratios: &mut [u64]| side.unit_spiral_table(ratios);
            lawful(both(input, library, call).0, || broken_table_law(library))
        }
    }
}

/// Sees that the library keeps the laws of the call, where the sides agree.
fn lawful(comparison: Comparison, broken_law: impl FnOnce() -> Option<&'static str>) -> Comparison {
    if comparison.difference.is_some() {
        return comparison;
    }
    Comparison {
        difference: broken_law().map(Difference::Law),
        ..comparison
    }
}

/// Makes a call with a sheet or line that stands between guards, and sees that
/// it is unchanged.
fn with_given<T: Entry>(
    input: &Input,
    given: &[T],
    call: impl FnOnce(&[T]) -> Comparison,
) -> Comparison {
    let memory = Memory::holding(input.pattern.rotate_left(32), given);
    let before = memory.clone();
    let comparison = call(memory.lent());
    // The compiler takes what is given as unchanged; here it must look.
    match black_box(&memory).first_difference(&before) {
        Some(entry) => Comparison {
            difference: Some(Difference::Given(entry)),
            ..comparison
        },
        None => comparison,
    }
}

/// Sees that the library's `back` makes what is given of the answer again, where
/// the sides agree and accept it.
fn undone<T: Entry, G: Clone + Default + PartialEq>(
    (comparison, expected): (Comparison, Outcome<T>),
    given: &[G],
    back: impl FnOnce(&[T], &mut [G]) -> Answer,
) -> Comparison {
    let (None, Ok(count)) = (comparison.difference, expected.answer) else {
        return comparison;
    };
    let mut found = vec![G::default(); given.len()];
    let answer = back(&expected.memory.lent()[..count], &mut found);
    let difference = (answer != Ok(given.len()) || found != given).then_some(Difference::NotBack);
    Comparison {
        difference,
        ..comparison
    }
}

/// What a side answered, and the memory after its call.
struct Outcome<T> {
    answer: Answer,
    memory: Memory<T>,
}

/// Lends equal memory to both sides. Gives the reference's outcome too.
fn both<T: Entry>(
    input: &Input,
    library: &dyn Side,
    call: impl Fn(&dyn Side, &mut [T]) -> Answer,
) -> (Comparison, Outcome<T>) {
    let most = input.request.call().most_room();
    let memory = Memory::new(input.pattern, input.room_entries(), most);
    let outcome = |side: &dyn Side| {
        let mut memory = memory.clone();
        let answer = call(side, memory.lent_mut());
        Outcome { answer, memory }
    };
    let [found, expected] = [outcome(library), outcome(&Reference)];
    let comparison = Comparison {
        library: found.answer,
        reference: expected.answer,
        difference: first_difference(&found, &expected),
        told: None,
    };
    (comparison, expected)
}

/// The first difference between two outcomes.
fn first_difference<T: Entry>(found: &Outcome<T>, expected: &Outcome<T>) -> Option<Difference> {
    if found.answer != expected.answer {
        return Some(Difference::Answer);
    }
    let entry = found.memory.first_difference(&expected.memory)?;
    Some(Difference::Lent(entry))
}

/// What a text that fits tells.
fn told_by(outcome: &Outcome<u8>) -> Option<usize> {
    let count = outcome.answer.ok()?;
    let text = std::str::from_utf8(&outcome.memory.lent()[..count]).expect("the text is ASCII");
    Some(refusal_number(text).map_or(0, usize::from))
}

#[cfg(test)]
mod tests {
    use super::*;
    use crate::input::{Call, Room};
    use crate::side::Library;
    use crate::spoilt::{Change, Spoilt};
    use reference::edition::SECOND;
    use reference::line::Line;
    use reference::samples::point_edges::case_1;
    use reference::samples::profile_edges::crest;
    use reference::samples::sheet_fields::{sheet_in, sheet_of};

    /// A count that is one too large.
    fn count<T>(answer: Answer, _: &mut [T]) -> Answer {
        answer.map(|count| count + 1)
    }

    /// The next number instead of a refusal's own.
    fn number<T>(answer: Answer, _: &mut [T]) -> Answer {
        answer.or_else(|refusal| refuse(refusal.number + 1, refusal.place))
    }

    /// The next place instead of a refusal's own.
    fn place<T>(answer: Answer, _: &mut [T]) -> Answer {
        answer.map_err(|refusal| refusal.at(refusal.place + 1))
    }

    /// Another last entry of those that are written.
    fn content<T: From<u8>>(answer: Answer, lent: &mut [T]) -> Answer {
        lent[answer? - 1] = T::from(0x5A);
        answer
    }

    /// Another entry behind those that are written.
    fn remainder<T: From<u8>>(answer: Answer, lent: &mut [T]) -> Answer {
        lent[answer?] = T::from(0x5A);
        answer
    }

    /// Another first entry, where there is one, though the call is refused.
    fn refused<T: From<u8>>(answer: Answer, lent: &mut [T]) -> Answer {
        if let (Err(_), Some(first)) = (answer, lent.first_mut()) {
            *first = T::from(0x5A);
        }
        answer
    }

    /// A refusal whatever the answer is.
    fn refusing<T>(_: Answer, _: &mut [T]) -> Answer {
        refuse(9, 1)
    }

    fn spoilt(
        numbers: Change<u64>,
        bytes: Change<u8>,
        line: Change<u32>,
        signed: Change<i64>,
    ) -> Spoilt {
        Spoilt {
            numbers,
            bytes,
            line,
            signed,
            ..Spoilt::NOT
        }
    }

    /// The pattern's bytes at the places that are spoilt are not 0x5A.
    const PATTERN: u64 = 0x3000_0000_0000_0201;

    /// Case 1's requests, one of each call.
    fn requests() -> Vec<Request> {
        let sheet = sheet_of(&Line::case_1());
        let mut requests: Vec<Request> = Request::OF_A_SHEET
            .map(|request| request(sheet.clone()))
            .into();
        requests.push(Request::Elements(Line::case_1().curve(1)));
        requests.push(Request::Write(1, Line::case_1().numbers()));
        requests.push(Request::FromPoints(case_1()));
        requests.push(Request::Height(crest().numbers(), 200_000));
        requests.push(Request::UnitSpiral(250, 40_000));
        requests.push(Request::UnitSpiralTable);
        assert_eq!(requests.len(), Call::ALL.len());
        requests
    }

    /// Those that are lent memory.
    fn lending_requests() -> Vec<Request> {
        let mut requests = requests();
        requests.retain(|request| !matches!(request, Request::Check(_) | Request::Edition(_)));
        requests
    }

    fn difference(library: &dyn Side, request: &Request, room: Room) -> Option<Difference> {
        let input = Input {
            request: request.clone(),
            room,
            pattern: PATTERN,
        };
        compare(library, &input).difference
    }

    /// The index of the entry that differs.
    fn index(difference: Option<Difference>) -> Option<isize> {
        match difference {
            Some(Difference::Lent(entry)) => Some(entry.index),
            _ => None,
        }
    }

    #[test]
    fn equal_sides_do_not_differ() {
        for request in requests() {
            for more in [-1, 0, 1] {
                assert_eq!(difference(&Reference, &request, Room::Needed(more)), None);
                assert_eq!(difference(&Library, &request, Room::Needed(more)), None);
            }
        }
    }

    #[test]
    fn wrong_answers_are_found() {
        let answer = Some(Difference::Answer);
        let wrong_count = Spoilt {
            edition: |sheet| count(Reference.edition(sheet), &mut [0]),
            ..spoilt(count, count, count, count)
        };
        let refusals = [
            spoilt(number, number, number, number),
            spoilt(place, place, place, place),
        ];
        for request in requests() {
            assert_eq!(difference(&wrong_count, &request, Room::Needed(0)), answer);
        }
        for library in &refusals {
            for request in lending_requests() {
                assert_eq!(difference(library, &request, Room::Needed(-1)), answer);
            }
            let cut = Request::Check(vec![0x10; 3]);
            assert_eq!(difference(library, &cut, Room::Entries(0)), answer);
        }
    }

    #[test]
    fn changed_entries_are_found() {
        for request in lending_requests() {
            let needed = request.needed() as isize;
            let found = |library, more| index(difference(&library, &request, Room::Needed(more)));
            assert_eq!(
                found(spoilt(content, content, content, content), 0),
                Some(needed - 1)
            );
            assert_eq!(
                found(spoilt(remainder, remainder, remainder, remainder), 1),
                Some(needed)
            );
            // A height needs one number: with fewer there is none to change.
            assert_eq!(
                found(spoilt(refused, refused, refused, refused), -1),
                (needed > 1).then_some(0)
            );
        }
        let outside = Request::Height(crest().numbers(), u64::MAX);
        let found = difference(
            &spoilt(refused, refused, refused, refused),
            &outside,
            Room::Needed(0),
        );
        assert_eq!(index(found), Some(0));
    }

    /// Each call is as it should be, but the one that undoes it is not.
    #[test]
    fn reader_and_writer_that_do_not_undo_each_other_are_found() {
        let write = Request::Write(2, Line::case_1().numbers());
        let read = Request::Read(sheet_in(SECOND, &Line::case_1()));
        let not_back = Some(Difference::NotBack);
        for wrong_reader in [content, count, refusing] {
            let library = Spoilt {
                line: wrong_reader,
                ..Spoilt::NOT
            };
            assert_eq!(difference(&library, &write, Room::Needed(0)), not_back);
            assert_eq!(difference(&library, &write, Room::Needed(-1)), None);
        }
        for wrong_writer in [content, count, refusing] {
            let library = Spoilt {
                bytes: wrong_writer,
                ..Spoilt::NOT
            };
            assert_eq!(difference(&library, &read, Room::Needed(0)), not_back);
            assert_eq!(difference(&library, &read, Room::Needed(-1)), None);
        }
        let other_edition = Spoilt {
            edition: |sheet| Ok(3 - Reference.edition(sheet)?),
            ..Spoilt::NOT
        };
        for request in [read, write] {
            assert_eq!(
                difference(&other_edition, &request, Room::Needed(0)),
                not_back
            );
        }
    }

    /// The answer is as it should be, but a line of full room is not, nor the height
    /// of a profile that starts 1 mm higher, nor the row of what is looked up.
    #[test]
    fn broken_laws_are_found() {
        let library = Spoilt {
            line: |answer, line| {
                line[5] = 1;
                answer
            },
            ..Spoilt::NOT
        };
        let left = Request::FromPoints(case_1().mirrored());
        let found = difference(&library, &left, Room::Needed(0));
        assert!(matches!(found, Some(Difference::Law(_))), "{found:?}");
        let library = Spoilt {
            height: |profile, station, numbers| {
                let count = Reference.height(profile, station, numbers)?;
                numbers[0] += i64::from(profile[2] == 1);
                Ok(count)
            },
            ..Spoilt::NOT
        };
        let from_0 = Request::Height(crest().numbers(), 200_000);
        let found = difference(&library, &from_0, Room::Needed(0));
        assert!(matches!(found, Some(Difference::Law(_))), "{found:?}");
        let library = Spoilt {
            convert: |sheet, edition, bytes| match edition {
                1 => refuse(24, 0),
                _ => Reference.convert(sheet, edition, bytes),
            },
            ..Spoilt::NOT
        };
        let there = Request::Convert(sheet_of(&Line::case_1()), 2);
        let found = difference(&library, &there, Room::Needed(0));
        assert!(matches!(found, Some(Difference::Law(_))), "{found:?}");
        let library = Spoilt {
            table: |ratios| {
                let count = Reference.unit_spiral_table(ratios)?;
                ratios[500] += 1_000;
                Ok(count)
            },
            ..Spoilt::NOT
        };
        let of_its_row = Request::UnitSpiral(250, 40_000);
        let found = difference(&library, &of_its_row, Room::Needed(0));
        assert!(matches!(found, Some(Difference::Law(_))), "{found:?}");
        let library = Spoilt {
            look_up: |thousandth, length, offsets| {
                let count = Reference.unit_spiral(thousandth, length, offsets)?;
                offsets[1] += u64::from(thousandth == 499);
                Ok(count)
            },
            ..Spoilt::NOT
        };
        let found = difference(&library, &Request::UnitSpiralTable, Room::Needed(0));
        assert!(matches!(found, Some(Difference::Law(_))), "{found:?}");
    }

    #[test]
    fn changed_guards_are_found() {
        let outcome = || Outcome {
            answer: Ok(1),
            memory: Memory::<u64>::new(PATTERN, 1, 3),
        };
        assert_eq!(first_difference(&outcome(), &outcome()), None);
        for guard in [-1, 1, 2, 3] {
            let mut found = outcome();
            found.memory.set(guard, 0x5A);
            assert_eq!(index(first_difference(&found, &outcome())), Some(guard));
        }
    }

    #[test]
    fn told_refusals() {
        let told = |sheet: &[u8], more| {
            let input = Input {
                request: Request::Text(sheet.to_vec()),
                room: Room::Needed(more),
                pattern: PATTERN,
            };
            compare(&Reference, &input).told
        };
        let sheet = sheet_of(&Line::case_1());
        assert_eq!(told(&sheet, 0), Some(0));
        assert_eq!(told(&sheet[..20], 0), Some(1));
        assert_eq!(told(&sheet, -1), None);
    }
}
