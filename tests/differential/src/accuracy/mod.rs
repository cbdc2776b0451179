//! Watches the accuracy claim (document 01, Clerk's sums): the library's own
//! stations, elements and offsets on spirals against the exact ones, which are
//! fractions.

mod lines;
mod record;
mod table;
mod watched;

use crate::inputs::dice_of;
use crate::progress::Progress;
use crate::run::{row, sheet_rows};
use crate::side::Side;
use lines::any_line;
use reference::line::Line;
use reference::samples::sheet_fields::sheet_of;
use watched::Watched;

/// Works the first `count` lines of the seed. Gives the table, or the report of
/// the first line that breaks a bound.
pub fn watch(library: &dyn Side, seed: u64, count: u64) -> Result<String, String> {
    let mut watched = Watched::new();
    let mut progress = Progress::new("lines worked", count);
    for index in 0..count {
        let line = any_line(&mut dice_of(seed, index));
        let seen = watched.see(library, &line);
        if let Err(broken) = seen {
            progress.end();
            return Err(report(seed, index, &line, &broken));
        }
        progress.show(index + 1);
    }
    progress.end();
    let table = table::table(&watched, seed);
    match watched.missing() {
        Some(missing) => Err(format!("{table}{}", row("broken", missing))),
        None => Ok(table),
    }
}

/// A line that breaks a bound.
fn report(seed: u64, index: u64, line: &Line, broken: &str) -> String {
    let mut rows = vec![
        row("broken", broken),
        row("seed", seed),
        row("index", index),
    ];
    rows.extend(sheet_rows(&sheet_of(line)));
    rows.concat()
}

#[cfg(test)]
mod tests {
    use super::*;
    use crate::side::Library;
    use crate::spoilt::{Change, Spoilt};
    use reference::refusal::refuse;

    #[test]
    fn table_of_few_lines() {
        let table = watch(&Library, 1, 8).unwrap();
        assert!(table.starts_with("8 lines, seed 1: "), "{table}");
    }

    #[test]
    fn moved_stations_are_reported() {
        let library = Spoilt {
            numbers: |answer, row| {
                row[..answer?]
                    .iter_mut()
                    .for_each(|number| *number += 1_401);
                answer
            },
            ..Spoilt::NOT
        };
        let report = watch(&library, 1, 8).unwrap_err();
        assert!(report.starts_with("broken       "), "{report}");
        assert!(report.contains("\nsheet "), "{report}");
    }

    #[test]
    fn moved_offsets_are_reported() {
        let moved: [Change<i64>; 2] = [
            |answer, numbers| {
                numbers[3] += 7;
                answer
            },
            |answer, numbers| {
                numbers[4] -= 7;
                answer
            },
        ];
        for (signed, name) in moved.into_iter().zip(["x", "y"]) {
            let library = Spoilt {
                signed,
                ..Spoilt::NOT
            };
            let report = watch(&library, 1, 8).unwrap_err();
            let start = format!("broken       peg {name} at ");
            assert!(report.starts_with(&start), "{report}");
        }
    }

    #[test]
    fn library_that_refuses_every_line_is_reported() {
        let library = Spoilt {
            numbers: |_, _| refuse(12, 1),
            ..Spoilt::NOT
        };
        let report = watch(&library, 1, 8).unwrap_err();
        assert!(report.starts_with("broken       REFUSED 12 1 "), "{report}");
    }
}
