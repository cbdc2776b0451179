//! The reference's command line: makes samples and works them, makes the unit spiral
//! table, searches for large differences between the working rule and the fractions,
//! and tells the drift of roads and how far the rule lies from the clothoid.

use reference::accuracy_table::accuracy_table;
use reference::clothoid::{clothoid_table, COUNT, SEED};
use reference::drift::drift_table;
use reference::hexadecimal::{digits_of, lines, read_bytes};
use reference::line::MOST_CURVES;
use reference::report::report;
use reference::samples::station_cases::named_sheets;
use reference::samples::station_sheets::sample_station_sheets;
use reference::search::search;
use reference::unit_spiral::{table_source, table_text};
use std::ffi::OsString;
use std::fmt::Display;
use std::fs;
use std::io::{self, BufWriter, Read, Write};
use std::path::Path;
use std::process::ExitCode;

const USAGE: &str = "\
usage: reference station-sheets SEED COUNT
       reference reports
       reference sample-sheets FOLDER
       reference unit-spiral
       reference unit-spiral-source
       reference accuracy SEED CURVES LINES
       reference drift SEED ROADS CURVES
       reference clothoid [SEED COUNT]

station-sheets
          prints COUNT sample sheets for the station program, one per line: two
          hexadecimal digits for each byte. The list starts with document 01's
          cases and the edges of the reader's and the calculator's checks; the
          rest is random, always the same for the same SEED.
reports   reads such lines on standard input and prints for each what the
          station program prints for this sheet.
sample-sheets
          writes into FOLDER sheets with a name, each as NAME.sheet, with what
          the station program prints for it as NAME.txt.
unit-spiral
          prints the unit spiral table as the program unit_spiral does: 501 lines,
          each with the row, which is the spiral angle in thousandths of a radian,
          and x and y of the spiral of length one at scale 10⁹.
unit-spiral-source
          prints the Rattle source of this table, laid out as `rt fmt` does.
accuracy  works CURVES curves and LINES lines by the working rule and in
          fractions, climbs from some of them to larger differences, and prints
          a table of the largest, rule minus exact, each with the curve where it
          was seen; and of the shortest exact straight and arc that are accepted
          and the longest that are refused 15 and 14. Always the same for the
          same SEED.
drift     prints how far the ends of mountain roads drift, rule minus exact: of
          the one of 64 curves among the sheets with a name, and of ROADS random
          ones of CURVES curves each (1 to 64) the mean, the mean size, the least
          and the largest. Always the same for the same SEED.
clothoid  prints how far X, Y, k, p and TT lie from those of the clothoid itself,
          rule minus clothoid, the largest difference either way: with the terms
          of source document 002 and with one more, for spirals of a quarter, a
          half and all of the radius, COUNT of each and climbs from the worst,
          and for COUNT curves with any. Always the same for the same SEED.
          Without SEED and COUNT: seed 1, 500000, about 20 seconds.
";

/// What the arguments ask for.
enum Request {
    StationSheets {
        seed: u64,
        count: usize,
    },
    Reports,
    SampleSheets {
        folder: String,
    },
    UnitSpiral,
    UnitSpiralSource,
    Accuracy {
        seed: u64,
        curves: usize,
        lines: usize,
    },
    Drift {
        seed: u64,
        roads: usize,
        curves: usize,
    },
    Clothoid {
        seed: u64,
        count: usize,
    },
}

fn main() -> ExitCode {
    let Some(request) = read_arguments(std::env::args_os().skip(1)) else {
        eprint!("{USAGE}");
        return ExitCode::from(2);
    };
    match answer(request) {
        Ok(()) => ExitCode::SUCCESS,
        Err(error) => {
            eprintln!("reference: {error}");
            ExitCode::FAILURE
        }
    }
}

/// The request, or nothing when the arguments are wrong.
fn read_arguments(arguments: impl Iterator<Item = OsString>) -> Option<Request> {
    let words: Vec<OsString> = arguments.collect();
    let words: Vec<&str> = words
        .iter()
        .map(|word| word.to_str())
        .collect::<Option<_>>()?;
    match words[..] {
        ["station-sheets", seed, count] => Some(Request::StationSheets {
            seed: seed.parse().ok()?,
            count: count.parse().ok()?,
        }),
        ["reports"] => Some(Request::Reports),
        ["sample-sheets", folder] => Some(Request::SampleSheets {
            folder: folder.to_string(),
        }),
        ["unit-spiral"] => Some(Request::UnitSpiral),
        ["unit-spiral-source"] => Some(Request::UnitSpiralSource),
        ["accuracy", seed, curves, lines] => Some(Request::Accuracy {
            seed: seed.parse().ok()?,
            curves: curves.parse().ok()?,
            lines: lines.parse().ok()?,
        }),
        ["drift", seed, roads, curves] => Some(Request::Drift {
            seed: seed.parse().ok()?,
            roads: above_zero(roads)?,
            curves: above_zero(curves).filter(|curves| *curves <= MOST_CURVES)?,
        }),
        ["clothoid"] => Some(Request::Clothoid {
            seed: SEED,
            count: COUNT,
        }),
        ["clothoid", seed, count] => Some(Request::Clothoid {
            seed: seed.parse().ok()?,
            count: above_zero(count)?,
        }),
        _ => None,
    }
}

/// A number above zero.
fn above_zero(word: &str) -> Option<usize> {
    word.parse().ok().filter(|number| *number > 0)
}

/// Does what is asked for.
fn answer(request: Request) -> io::Result<()> {
    match request {
        Request::StationSheets { seed, count } => {
            print(digits_of_each(sample_station_sheets(seed, count)))
        }
        Request::Reports => write_out(lines(&standard_input()?).map(report_text)),
        Request::SampleSheets { folder } => write_samples(Path::new(&folder)),
        Request::UnitSpiral => write_out([table_text()].into_iter()),
        Request::UnitSpiralSource => write_out([table_source()].into_iter()),
        Request::Accuracy {
            seed,
            curves,
            lines,
        } => print(accuracy_table(&search(seed, curves, lines)).into_iter()),
        Request::Drift {
            seed,
            roads,
            curves,
        } => print(drift_table(seed, roads, curves).into_iter()),
        Request::Clothoid { seed, count } => print(clothoid_table(seed, count).into_iter()),
    }
}

fn standard_input() -> io::Result<Vec<u8>> {
    let mut text = Vec::new();
    io::stdin().lock().read_to_end(&mut text)?;
    Ok(text)
}

/// Prints each item and a newline.
fn print(items: impl Iterator<Item = impl Display>) -> io::Result<()> {
    write_out(items.map(|item| format!("{item}\n")))
}

/// Writes each text, or each group of bytes, as it stands.
fn write_out(texts: impl Iterator<Item = impl AsRef<[u8]>>) -> io::Result<()> {
    let mut out = BufWriter::new(io::stdout().lock());
    for text in texts {
        out.write_all(text.as_ref())?;
    }
    out.flush()
}

fn digits_of_each(sheets: impl Iterator<Item = Vec<u8>>) -> impl Iterator<Item = String> {
    sheets.map(|sheet| digits_of(&sheet))
}

/// Writes the sheets with a name, and their reports, into the folder.
fn write_samples(folder: &Path) -> io::Result<()> {
    fs::create_dir_all(folder)?;
    for named in named_sheets() {
        let path = folder.join(named.name);
        fs::write(path.with_extension("sheet"), &named.sheet)?;
        fs::write(path.with_extension("txt"), report(&named.sheet))?;
    }
    Ok(())
}

/// The station program's report for the sheet on a line of text.
fn report_text(line: &[u8]) -> String {
    report(&read_bytes(line))
}

#[cfg(test)]
mod tests {
    use super::*;

    fn is_taken(line: &str) -> bool {
        let words = line.split(' ').map(OsString::from);
        read_arguments(words).is_some()
    }

    #[test]
    fn arguments_of_clothoid() {
        assert!(is_taken("clothoid") && is_taken("clothoid 0 1"));
        for line in [
            "clothoid 1",
            "clothoid 1 0",
            "clothoid x 1",
            "clothoid 1 2 3",
        ] {
            assert!(!is_taken(line), "{line}");
        }
    }

    #[test]
    fn arguments_of_drift() {
        assert!(is_taken("drift 1 1000 60") && is_taken("drift 0 1 64"));
        for line in [
            "drift 1 1000",
            "drift 1 0 60",
            "drift 1 5 0",
            "drift 1 5 65",
        ] {
            assert!(!is_taken(line), "{line}");
        }
    }

    #[test]
    fn arguments_of_the_unit_spiral() {
        assert!(is_taken("unit-spiral") && is_taken("unit-spiral-source"));
        for line in [
            "unit-spiral 1",
            "unit-spiral-source table.rt",
            "unit_spiral",
        ] {
            assert!(!is_taken(line), "{line}");
        }
    }

    #[test]
    fn report_as_text() {
        assert_eq!(
            report_text(b"10 11 A0 00 00 00 00 F4 24 00"),
            "POINT CURVE STATION\nEND 0 500.000000\n"
        );
        assert_eq!(report_text(b"1011a000000000f42401"), "REFUSED 7 0\n");
        assert_eq!(report_text(b""), "REFUSED 1 0\n");
        let longer = "10".repeat(720);
        assert_eq!(report_text(longer.as_bytes()), "REFUSED 4 0\n");
    }
}
