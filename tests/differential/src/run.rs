//! Runs of inputs, and the report of one input.

use crate::compare::{compare, Comparison};
use crate::input::{Input, Request};
use crate::inputs::Inputs;
use crate::progress::Progress;
use crate::side::{Answer, Side};
use crate::tally::Tally;
use reference::hexadecimal::digits_of;
use reference::line::Line;
use reference::points::Heading;
use reference::refusal::Refusal;
use reference::samples::surveys::Survey;
use reference::sheet;
use std::panic::{catch_unwind, AssertUnwindSafe};

/// Compares the first `count` inputs of the seed. Gives the counts, or the
/// report of the first input on which the sides differ.
pub fn run(library: &dyn Side, seed: u64, count: u64) -> Result<Tally, String> {
    let inputs = Inputs::of(seed);
    let mut tally = Tally::default();
    let mut progress = Progress::new("inputs compared", count);
    for index in 0..count {
        let input = inputs.input(index);
        let result = compare_caught(library, &input);
        match &result {
            Some(comparison) if comparison.difference.is_none() => tally.add(&input, comparison),
            _ => {
                progress.end();
                return Err(report(&inputs, index, &input, &result));
            }
        }
        progress.show(index + 1);
    }
    progress.end();
    Ok(tally)
}

/// Compares one input of the seed. Gives whether the sides agree, and the report.
pub fn replay(library: &dyn Side, seed: u64, index: u64) -> (bool, String) {
    let inputs = Inputs::of(seed);
    let input = inputs.input(index);
    let result = compare_caught(library, &input);
    let agree = matches!(
        &result,
        Some(Comparison {
            difference: None,
            ..
        })
    );
    (agree, report(&inputs, index, &input, &result))
}

/// The comparison; nothing where a side panicked, as on an answer that the
/// library's crate does not know.
fn compare_caught(library: &dyn Side, input: &Input) -> Option<Comparison> {
    catch_unwind(AssertUnwindSafe(|| compare(library, input))).ok()
}

/// An input and what came of it.
fn report(inputs: &Inputs, index: u64, input: &Input, result: &Option<Comparison>) -> String {
    let mut rows = vec![row("seed", inputs.seed), row("index", index)];
    rows.extend(inputs.name(index).map(|name| row("name", name)));
    rows.push(row("call", input.request.call().name()));
    rows.extend(request_rows(&input.request));
    rows.push(row("room", input.room_entries()));
    match result {
        Some(comparison) => rows.extend(comparison_rows(comparison)),
        None => rows.push(row("panicked", "a side stopped with the message above")),
    }
    rows.concat()
}

/// The curve, the numbers of the line or profile, the points, what is looked up, or the
/// sheet and what the reference reads in it.
fn request_rows(request: &Request) -> Vec<String> {
    match request {
        Request::Elements(curve) => vec![row("curve A R L", curve)],
        Request::Stations(sheet)
        | Request::Check(sheet)
        | Request::Rewrite(sheet)
        | Request::Text(sheet)
        | Request::Read(sheet)
        | Request::Edition(sheet) => sheet_rows(sheet),
        Request::Convert(sheet, asked) => {
            let mut rows = sheet_rows(sheet);
            rows.push(row("asked for", asked));
            rows
        }
        Request::Peg(sheet, station) => {
            let mut rows = sheet_rows(sheet);
            rows.push(row("station", station));
            rows
        }
        Request::Write(edition, line) => vec![row("edition", edition), row("line", joined(line))],
        Request::FromPoints(survey) => survey_rows(survey),
        Request::Height(profile, station) => {
            vec![row("profile", joined(profile)), row("station", station)]
        }
        Request::UnitSpiral(thousandth, length) => {
            vec![row("thousandth", thousandth), row("length", length)]
        }
        Request::UnitSpiralTable => Vec::new(),
    }
}

fn joined<T: ToString>(numbers: &[T]) -> String {
    let numbers: Vec<String> = numbers.iter().map(T::to_string).collect();
    numbers.join(" ")
}

/// What is given beside the points, the points as east and north, radii and
/// spirals, and the line that the reference makes of them.
fn survey_rows(survey: &Survey) -> Vec<String> {
    let Heading { v, e, start } = survey.heading;
    vec![
        row("V, e, start", joined(&[v, e, start])),
        row("points", joined(&survey.points)),
        row("curves R L", joined(&survey.curves)),
        line_row(survey.line()),
    ]
}

/// The line: `N V E START D0 SIDE A R L D1 ..`, or its refusal.
fn line_row(line: Result<Line, Refusal>) -> String {
    match line {
        Ok(line) => row("line", line),
        Err(refusal) => row("line", refusal),
    }
}

/// The sheet in hexadecimal, its edition where it is read, and its line.
pub fn sheet_rows(sheet: &[u8]) -> Vec<String> {
    let mut rows = vec![row("sheet", digits_of(sheet))];
    let edition = sheet::edition_of(sheet).ok();
    rows.extend(edition.map(|edition| row("edition", edition.number)));
    rows.push(line_row(sheet::line_of(sheet)));
    rows
}

fn comparison_rows(comparison: &Comparison) -> Vec<String> {
    let difference = match comparison.difference {
        Some(difference) => difference.to_string(),
        None => "none".to_string(),
    };
    vec![
        row("library", answer_text(&comparison.library)),
        row("reference", answer_text(&comparison.reference)),
        row("difference", difference),
    ]
}

fn answer_text(answer: &Answer) -> String {
    match answer {
        Ok(count) => format!("count {count}"),
        Err(refusal) => refusal.to_string(),
    }
}

pub fn row(name: &str, value: impl ToString) -> String {
    format!("{name:12} {}\n", value.to_string())
}

#[cfg(test)]
mod tests {
    use super::*;
    use crate::input::{Call, Room};
    use crate::side::Library;
    use crate::spoilt::{
        Spoilt, CONVERT_FAULTS, EDITION_FAULTS, ELEMENT_FAULTS, HEIGHT_FAULTS, LOOK_UP_FAULTS,
        PEG_FAULTS, POINT_FAULTS, TABLE_FAULTS, WRITE_FAULTS,
    };
    use reference::refusal::refuse;

    #[test]
    fn library_agrees_on_some_inputs() {
        let tally = run(&Library, 7, 300).unwrap();
        assert_eq!(tally.total(), 300);
        let (agree, report) = replay(&Library, 7, 299);
        assert!(agree && report.contains("difference   none\n"), "{report}");
    }

    /// The first inputs are the calls of case 1's sheet, the second of them the
    /// check.
    #[test]
    fn first_difference_is_reported_and_replayed() {
        let library = Spoilt {
            bytes: |answer, _| answer.map(|count| count + 1),
            ..Spoilt::NOT
        };
        let found = run(&library, 1, 10).err().unwrap();
        let name = "name         check: case-01\n";
        let start = format!("seed         1\nindex        1\n{name}call         check\n");
        assert!(found.starts_with(&start), "{found}");
        let answers = "library      count 6\nreference    count 5\n";
        let end = format!("room         0\n{answers}difference   the answers\n");
        assert!(found.ends_with(&end), "{found}");
        assert_eq!(replay(&library, 1, 1), (false, found));
    }

    #[test]
    fn faulty_writer_is_reported_with_its_line() {
        let library = Spoilt {
            line: |_, _| refuse(8, 0),
            ..Spoilt::NOT
        };
        let inputs = Inputs::of(1);
        let input = Input {
            request: Request::Write(2, vec![0, 70, 8, 0, 500_000]),
            room: Room::Needed(0),
            pattern: 0,
        };
        let result = compare_caught(&library, &input);
        let found = report(&inputs, u64::MAX, &input, &result);
        let line = "edition      2\nline         0 70 8 0 500000\n";
        assert!(
            found.contains(&format!("call         write\n{line}")),
            "{found}"
        );
        assert!(found.ends_with("do not undo each other\n"), "{found}");
        assert!(!found.contains("\nname "), "{found}");
    }

    /// The indexes of one call's inputs: those that are not random, and random ones.
    fn indexes_of(inputs: &Inputs, call: Call) -> [Vec<u64>; 2] {
        let fixed = inputs.fixed();
        let is_call = |index: &u64| inputs.input(*index).request.call() == call;
        [0..fixed, fixed..fixed + 10_000].map(|indexes| indexes.filter(is_call).collect())
    }

    /// The report of the first of these inputs in which the fault shows.
    fn first_report(inputs: &Inputs, indexes: &[u64], library: &Spoilt) -> Option<String> {
        let mut reports = indexes.iter().filter_map(|index| {
            let input = inputs.input(*index);
            let result = compare_caught(library, &input);
            let differs = result.as_ref()?.difference.is_some();
            differs.then(|| report(inputs, *index, &input, &result))
        });
        reports.next()
    }

    /// Each fault of elements shows in the inputs with a name, and in random ones.
    #[test]
    fn faulty_elements_are_reported() {
        let inputs = Inputs::of(1);
        let kinds = indexes_of(&inputs, Call::Elements);
        for (fault, elements) in ELEMENT_FAULTS {
            let library = Spoilt {
                elements,
                ..Spoilt::NOT
            };
            for indexes in &kinds {
                let found = first_report(&inputs, indexes, &library).expect(fault);
                assert!(found.contains("\ncall         elements\n"), "{found}");
                assert!(found.contains("\ncurve A R L  "), "{found}");
            }
        }
    }

    /// Each fault of pegs likewise.
    #[test]
    fn faulty_pegs_are_reported() {
        let inputs = Inputs::of(1);
        let kinds = indexes_of(&inputs, Call::Peg);
        for (fault, peg) in PEG_FAULTS {
            let library = Spoilt { peg, ..Spoilt::NOT };
            for indexes in &kinds {
                let found = first_report(&inputs, indexes, &library).expect(fault);
                assert!(found.contains("\ncall         peg\n"), "{found}");
                assert!(found.contains("\nstation      "), "{found}");
            }
        }
    }

    /// Each fault of lines from coordinates likewise.
    #[test]
    fn faulty_lines_from_points_are_reported() {
        let inputs = Inputs::of(1);
        let kinds = indexes_of(&inputs, Call::FromPoints);
        for (fault, points) in POINT_FAULTS {
            let library = Spoilt {
                points,
                ..Spoilt::NOT
            };
            for indexes in &kinds {
                let found = first_report(&inputs, indexes, &library).expect(fault);
                assert!(found.contains("\ncall         points\n"), "{found}");
                assert!(found.contains("\npoints       "), "{found}");
                assert!(found.contains("\ncurves R L   "), "{found}");
            }
        }
    }

    /// Each fault of heights likewise.
    #[test]
    fn faulty_heights_are_reported() {
        let inputs = Inputs::of(1);
        let kinds = indexes_of(&inputs, Call::Height);
        for (fault, height) in HEIGHT_FAULTS {
            let library = Spoilt {
                height,
                ..Spoilt::NOT
            };
            for indexes in &kinds {
                let found = first_report(&inputs, indexes, &library).expect(fault);
                assert!(found.contains("\ncall         height\n"), "{found}");
                assert!(found.contains("\nprofile      "), "{found}");
                assert!(found.contains("\nstation      "), "{found}");
            }
        }
    }

    /// Each fault of editions, of the writer and of the converter likewise.
    #[test]
    fn faulty_editions_are_reported() {
        let check = |fault: &str, call: Call, library: Spoilt| {
            let inputs = Inputs::of(1);
            for indexes in indexes_of(&inputs, call) {
                let found = first_report(&inputs, &indexes, &library).expect(fault);
                let name = format!("\ncall         {}\n", call.name());
                assert!(found.contains(&name), "{found}");
            }
        };
        for (fault, edition) in EDITION_FAULTS {
            let library = Spoilt {
                edition,
                ..Spoilt::NOT
            };
            check(fault, Call::Edition, library);
        }
        for (fault, write) in WRITE_FAULTS {
            let library = Spoilt {
                write,
                ..Spoilt::NOT
            };
            check(fault, Call::Write, library);
        }
        for (fault, convert) in CONVERT_FAULTS {
            let library = Spoilt {
                convert,
                ..Spoilt::NOT
            };
            check(fault, Call::Convert, library);
        }
    }

    /// Each fault of the unit spiral table, looked up or whole, likewise.
    #[test]
    fn faulty_unit_spirals_are_reported() {
        let inputs = Inputs::of(1);
        let kinds = indexes_of(&inputs, Call::UnitSpiral);
        for (fault, look_up) in LOOK_UP_FAULTS {
            let library = Spoilt {
                look_up,
                ..Spoilt::NOT
            };
            for indexes in &kinds {
                let found = first_report(&inputs, indexes, &library).expect(fault);
                assert!(found.contains("\ncall         look-up\n"), "{found}");
                assert!(found.contains("\nthousandth   "), "{found}");
                assert!(found.contains("\nlength       "), "{found}");
            }
        }
        let kinds = indexes_of(&inputs, Call::UnitSpiralTable);
        for (fault, table) in TABLE_FAULTS {
            let library = Spoilt {
                table,
                ..Spoilt::NOT
            };
            for indexes in &kinds {
                let found = first_report(&inputs, indexes, &library).expect(fault);
                assert!(found.contains("\ncall         table\nroom "), "{found}");
            }
        }
    }

    #[test]
    fn panic_is_reported() {
        let library = Spoilt {
            bytes: |_, _| panic!("a test"),
            ..Spoilt::NOT
        };
        let found = run(&library, 1, 10).err().unwrap();
        assert!(found.contains("\nindex        1\n"), "{found}");
        assert!(found.contains("\npanicked "), "{found}");
    }
}
