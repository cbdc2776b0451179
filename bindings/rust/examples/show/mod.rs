//! What the examples share: taking a sheet from a file, printing stations.

use pokyandi::{Refusal, ROW_NUMBERS, SHEET_BYTES};
use std::env;
use std::ffi::OsString;
use std::fs::File;
use std::io::{self, Read};
use std::path::Path;
use std::process::ExitCode;

/// One byte more than the longest sheet, so that a longer file is refused.
const MOST_READ: u64 = SHEET_BYTES as u64 + 1;

/// Does something with the sheet of the file that the first argument names, or of
/// standard input. Exit status: 0 it is done, 1 something is refused, 2 the sheet
/// cannot be read.
pub fn with_sheet(program: &str, work: fn(&[u8]) -> Result<(), Refusal>) -> ExitCode {
    let path = env::args_os().nth(1);
    match take_sheet(path.as_ref()) {
        Ok(sheet) => ExitCode::from(u8::from(work(&sheet).is_err())),
        Err(error) => {
            let name = path.unwrap_or("standard input".into());
            eprintln!("{program}: {}: {error}", Path::new(&name).display());
            ExitCode::from(2)
        }
    }
}

/// The bytes of the sheet; without a path, those of standard input.
fn take_sheet(path: Option<&OsString>) -> io::Result<Vec<u8>> {
    let mut sheet = Vec::new();
    match path {
        Some(path) => File::open(path)?.take(MOST_READ).read_to_end(&mut sheet)?,
        None => io::stdin().take(MOST_READ).read_to_end(&mut sheet)?,
    };
    Ok(sheet)
}

/// Prints a refusal, where there is one, and gives the answer back.
pub fn told<T>(answer: Result<T, Refusal>) -> Result<T, Refusal> {
    answer.inspect_err(|refusal| println!("{refusal}"))
}

/// Prints a line for each station of a sheet: the number of its curve, the name
/// of the point, metres; the end has curve 0. Or the refusal.
#[allow(dead_code)] // Not every example prints them.
pub fn print_stations(sheet: &[u8]) -> Result<(), Refusal> {
    let mut row = [0; ROW_NUMBERS];
    let count = told(pokyandi::stations(sheet, &mut row))?;
    for (i, station) in row[..count].iter().enumerate() {
        let (curve, name) = if i + 1 == count {
            (0, "END")
        } else {
            (i / 4 + 1, ["TS", "SC", "CS", "ST"][i % 4])
        };
        let (metres, rest) = (station / 1_000_000, station % 1_000_000);
        println!("{curve} {name} {metres}.{rest:06}");
    }
    Ok(())
}
