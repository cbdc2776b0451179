//! Runs the station program and compares what it prints with the reports that
//! the reference made.

use reference::runner::folder::SheetFolder;
use reference::runner::list::SheetList;
use std::ffi::OsString;
use std::io::{self, Write};
use std::path::{Path, PathBuf};
use std::process::ExitCode;
use std::time::Duration;

const USAGE: &str = "\
usage: run_stations PROGRAM list SHEETS REPORTS
       run_stations PROGRAM folder FOLDER

list      runs PROGRAM once for each sheet in the file SHEETS (in hexadecimal,
          one per line) and compares what it prints with the file REPORTS,
          where the reports stand one after the other.
folder    runs PROGRAM for each NAME.sheet in FOLDER and compares what it prints
          with NAME.txt, in four ways: whole through a pipe, from the file, one
          byte at a time, and in pieces of mixed sizes.

PROGRAM must print just the report, nothing on standard error, and end within 10
seconds with exit status 0. Prints one line of counts; or the differences, after
ten of which it stops. Exit status: 0 when there is no difference, 1 when there
is one or a file cannot be read, 2 when the arguments are wrong.
";

/// The time that a program has for one sheet.
const TIME_LIMIT: Duration = Duration::from_secs(10);

/// What the arguments ask for.
enum Request {
    List { sheets: PathBuf, reports: PathBuf },
    Folder { folder: PathBuf },
}

fn main() -> ExitCode {
    let arguments: Vec<OsString> = std::env::args_os().skip(1).collect();
    let Some((program, request)) = read_arguments(&arguments) else {
        eprint!("{USAGE}");
        return ExitCode::from(2);
    };
    match answer(&program, &request) {
        Ok(status) => status,
        Err(error) => {
            eprintln!("run_stations: {error}");
            ExitCode::FAILURE
        }
    }
}

/// The program and the request, or nothing when the arguments are wrong.
fn read_arguments(arguments: &[OsString]) -> Option<(PathBuf, Request)> {
    let (program, rest) = arguments.split_first()?;
    let request = match rest {
        [word, sheets, reports] if word == "list" => Request::List {
            sheets: sheets.into(),
            reports: reports.into(),
        },
        [word, folder] if word == "folder" => Request::Folder {
            folder: folder.into(),
        },
        _ => return None,
    };
    Some((program.into(), request))
}

/// Runs the program and prints what came of it.
fn answer(program: &Path, request: &Request) -> io::Result<ExitCode> {
    match request {
        Request::List { sheets, reports } => {
            let list = SheetList::read(sheets, reports)?;
            let differences = list.run(program, TIME_LIMIT)?;
            conclude(&differences, &list.tally().to_string())
        }
        Request::Folder { folder } => {
            let folder = SheetFolder::read(folder)?;
            let differences = folder.run(program, TIME_LIMIT)?;
            let counts = format!("{}, each in four ways", folder.tally());
            conclude(&differences, &counts)
        }
    }
}

/// Prints the differences, or the counts when there is none.
fn conclude(differences: &[String], counts: &str) -> io::Result<ExitCode> {
    let mut out = io::stdout().lock();
    if differences.is_empty() {
        writeln!(out, "{counts}")?;
        return Ok(ExitCode::SUCCESS);
    }
    for difference in differences {
        writeln!(out, "{difference}")?;
    }
    let count = differences.len();
    Err(io::Error::other(format!(
        "the program differs {count} times"
    )))
}

#[cfg(test)]
mod tests {
    use super::*;

    fn is_known(arguments: &[&str]) -> bool {
        let arguments: Vec<OsString> = arguments.iter().map(OsString::from).collect();
        read_arguments(&arguments).is_some()
    }

    #[test]
    fn arguments() {
        assert!(is_known(&["stations", "list", "sheets", "reports"]));
        assert!(is_known(&["stations", "folder", "samples"]));
        assert!(!is_known(&[]));
        assert!(!is_known(&["stations"]));
        assert!(!is_known(&["stations", "list", "sheets"]));
        assert!(!is_known(&["stations", "folder"]));
        assert!(!is_known(&["stations", "folder", "samples", "more"]));
        assert!(!is_known(&["stations", "folders", "samples"]));
    }
}
