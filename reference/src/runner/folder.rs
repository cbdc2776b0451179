//! Runs the station program for each sheet of a folder, in four ways.

use super::difference::{difference, MOST_DIFFERENCES};
use super::program::run;
use super::tally::Tally;
use super::ways::{from_file, in_pieces, through_pipe, Input};
use std::fs;
use std::io;
use std::path::{Path, PathBuf};
use std::time::Duration;

/// The sizes of the pieces, in turn, when they are mixed.
const MIXED_SIZES: [usize; 9] = [3, 1, 7, 2, 64, 5, 150, 1, 300];

/// How the program gets a sheet.
#[derive(Clone, Copy)]
enum Way {
    Pipe,
    File,
    SingleBytes,
    MixedPieces,
}

impl Way {
    const ALL: [Way; 4] = [Way::Pipe, Way::File, Way::SingleBytes, Way::MixedPieces];

    fn words(self) -> &'static str {
        match self {
            Way::Pipe => "whole through a pipe",
            Way::File => "from the file",
            Way::SingleBytes => "one byte at a time",
            Way::MixedPieces => "in pieces of mixed sizes",
        }
    }

    fn input(self, path: &Path, limit: Duration) -> io::Result<Input> {
        match self {
            Way::Pipe => through_pipe(&fs::read(path)?),
            Way::File => from_file(path),
            Way::SingleBytes => in_pieces(&fs::read(path)?, &[1], limit),
            Way::MixedPieces => in_pieces(&fs::read(path)?, &MIXED_SIZES, limit),
        }
    }
}

/// The sheets of a folder, NAME.sheet each, and the report that is expected for
/// each, NAME.txt.
pub struct SheetFolder {
    pairs: Vec<(PathBuf, String)>,
}

impl SheetFolder {
    /// Finds the sheets, in the order of their names, and reads the reports.
    pub fn read(folder: &Path) -> io::Result<SheetFolder> {
        let sheets = files(folder, "sheet")?;
        let reports = files(folder, "txt")?;
        if sheets.is_empty() {
            return Err(about(folder, "no sheet is there"));
        }
        if let Some(report) = reports
            .iter()
            .find(|report| !report.with_extension("sheet").exists())
        {
            return Err(about(report, "its sheet is missing"));
        }
        let pair = |sheet: PathBuf| {
            let report = sheet.with_extension("txt");
            let text = fs::read_to_string(&report).map_err(|error| about(&report, error))?;
            Ok((sheet, text))
        };
        Ok(SheetFolder {
            pairs: sheets.into_iter().map(pair).collect::<io::Result<_>>()?,
        })
    }

    pub fn tally(&self) -> Tally {
        Tally::of(self.pairs.iter().map(|(_, report)| report.as_str()))
    }

    /// Runs the program for each sheet in each way, each time at most as long as
    /// the limit, and describes the differences.
    pub fn run(&self, program: &Path, limit: Duration) -> io::Result<Vec<String>> {
        let mut found = Vec::new();
        let runs = self
            .pairs
            .iter()
            .flat_map(|pair| Way::ALL.map(|way| (pair, way)));
        for ((sheet, report), way) in runs {
            let outcome = run(program, way.input(sheet, limit)?, limit)?;
            if let Some(text) = difference(&outcome, report) {
                let (sheet, way) = (sheet.display(), way.words());
                found.push(format!("{sheet}, {way}:\n{text}"));
            }
            if found.len() == MOST_DIFFERENCES {
                break;
            }
        }
        Ok(found)
    }
}

/// The files of a folder with this extension, in the order of their names.
fn files(folder: &Path, extension: &str) -> io::Result<Vec<PathBuf>> {
    let mut files = Vec::new();
    for entry in fs::read_dir(folder).map_err(|error| about(folder, error))? {
        let path = entry?.path();
        if path.extension().is_some_and(|found| found == extension) {
            files.push(path);
        }
    }
    files.sort();
    Ok(files)
}

fn about(path: &Path, what: impl std::fmt::Display) -> io::Error {
    io::Error::other(format!("{}: {what}", path.display()))
}

#[cfg(test)]
mod tests {
    use super::*;

    const LIMIT: Duration = Duration::from_secs(10);

    /// A folder of files for a test; removed at its end.
    struct TestFolder(PathBuf);

    impl TestFolder {
        fn new(name: &str, files: &[(&str, &str)]) -> TestFolder {
            let name = format!("reference-{}-{name}", std::process::id());
            let folder = std::env::temp_dir().join(name);
            fs::create_dir_all(&folder).unwrap();
            for (name, text) in files {
                fs::write(folder.join(name), text).unwrap();
            }
            TestFolder(folder)
        }

        fn read(&self) -> io::Result<SheetFolder> {
            SheetFolder::read(&self.0)
        }
    }

    impl Drop for TestFolder {
        fn drop(&mut self) {
            let _ = fs::remove_dir_all(&self.0);
        }
    }

    #[test]
    fn four_ways_of_each_sheet() {
        // The program prints its standard input.
        let long = "END 0 1\n".repeat(90);
        let folder = TestFolder::new(
            "four-ways",
            &[
                ("a.sheet", "REFUSED 1 0\n"),
                ("a.txt", "REFUSED 1 0\n"),
                ("b.sheet", &long),
                ("b.txt", &long),
                ("empty.sheet", ""),
                ("empty.txt", ""),
                ("README.md", "about the sheets"),
            ],
        );
        let sheets = folder.read().unwrap();
        let found = sheets.run(Path::new("cat"), LIMIT).unwrap();
        assert!(found.is_empty(), "{found:?}");
        assert_eq!(
            sheets.tally().to_string(),
            "3 sheets: 2 accepted, 1 refused (1: 1)"
        );
    }

    #[test]
    fn every_way_differs() {
        let files = [("a.sheet", "REFUSED 1 1\n"), ("a.txt", "REFUSED 1 0\n")];
        let folder = TestFolder::new("differs", &files);
        let found = folder.read().unwrap().run(Path::new("cat"), LIMIT).unwrap();
        assert_eq!(found.len(), Way::ALL.len());
        assert!(found[2].contains("a.sheet, one byte at a time:\nexpected:\nREFUSED 1 0\n"));
    }

    #[test]
    fn unfit_folders() {
        let error = |name: &str, files: &[(&str, &str)]| {
            let folder = TestFolder::new(name, files);
            folder.read().err().unwrap().to_string()
        };
        assert!(error("none", &[]).ends_with(": no sheet is there"));
        let lone_report = [("a.sheet", ""), ("a.txt", ""), ("b.txt", "")];
        assert!(error("lone-report", &lone_report).ends_with("b.txt: its sheet is missing"));
        assert!(error("lone-sheet", &[("a.sheet", "")]).contains("a.txt: "));
        assert!(SheetFolder::read(Path::new("no-such-folder")).is_err());
    }
}
