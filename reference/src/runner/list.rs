//! Runs the station program once for each sheet of a list.

use super::difference::{difference, MOST_DIFFERENCES};
use super::program::run;
use super::tally::Tally;
use super::ways::through_pipe;
use crate::hexadecimal::{digits_of, lines, read_bytes};
use crate::report::split_reports;
use std::fs;
use std::io;
use std::path::Path;
use std::sync::atomic::{AtomicUsize, Ordering};
use std::sync::Mutex;
use std::thread;
use std::time::Duration;

/// Programs that run at once.
const THREADS: usize = 2;

/// A list of sheets, and the report that is expected for each.
pub struct SheetList {
    pairs: Vec<(Vec<u8>, String)>,
}

impl SheetList {
    /// Reads the sheets, in hexadecimal on one line of text each, and their
    /// reports, one after the other.
    pub fn read(sheets: &Path, reports: &Path) -> io::Result<SheetList> {
        let sheets = read_file(sheets)?;
        let reports = read_file(reports)?;
        SheetList::of(&sheets, &String::from_utf8_lossy(&reports))
    }

    fn of(sheets: &[u8], reports: &str) -> io::Result<SheetList> {
        let sheets: Vec<Vec<u8>> = lines(sheets).map(read_bytes).collect();
        let reports =
            split_reports(reports).ok_or_else(|| io::Error::other("the last report has no end"))?;
        if sheets.len() != reports.len() {
            let counts = format!("{} sheets, but {} reports", sheets.len(), reports.len());
            return Err(io::Error::other(counts));
        }
        let reports = reports.into_iter().map(String::from);
        Ok(SheetList {
            pairs: sheets.into_iter().zip(reports).collect(),
        })
    }

    pub fn tally(&self) -> Tally {
        Tally::of(self.pairs.iter().map(|(_, report)| report.as_str()))
    }

    /// Runs the program for the sheets, each at most as long as the limit, and
    /// describes the differences, in the order of the list.
    pub fn run(&self, program: &Path, limit: Duration) -> io::Result<Vec<String>> {
        let next = AtomicUsize::new(0);
        let found = Mutex::new(Vec::new());
        let work = || -> io::Result<()> {
            while let Some(index) = self.take(&next, &found) {
                if let Some(text) = self.difference(index, program, limit)? {
                    found.lock().expect("no thread fails").push((index, text));
                }
            }
            Ok(())
        };
        thread::scope(|scope| {
            let threads = [(); THREADS].map(|()| scope.spawn(work));
            threads
                .into_iter()
                .try_for_each(|thread| thread.join().expect("no thread fails"))
        })?;
        let mut found = found.into_inner().expect("no thread fails");
        found.sort();
        Ok(found.into_iter().map(|(_, text)| text).collect())
    }

    /// The index of the next sheet, if any is left to be run.
    fn take(&self, next: &AtomicUsize, found: &Mutex<Vec<(usize, String)>>) -> Option<usize> {
        if found.lock().expect("no thread fails").len() >= MOST_DIFFERENCES {
            return None;
        }
        let index = next.fetch_add(1, Ordering::Relaxed);
        (index < self.pairs.len()).then_some(index)
    }

    /// Runs the program for one sheet and describes the difference, if any.
    fn difference(
        &self,
        index: usize,
        program: &Path,
        limit: Duration,
    ) -> io::Result<Option<String>> {
        let (sheet, report) = &self.pairs[index];
        let outcome = run(program, through_pipe(sheet)?, limit)?;
        Ok(difference(&outcome, report)
            .map(|text| format!("sheet {}: {}\n{text}", index + 1, digits_of(sheet))))
    }
}

fn read_file(path: &Path) -> io::Result<Vec<u8>> {
    fs::read(path).map_err(|error| io::Error::other(format!("{}: {error}", path.display())))
}

#[cfg(test)]
mod tests {
    use super::*;

    const LIMIT: Duration = Duration::from_secs(10);

    /// A list for a shell, whose sheets are its scripts.
    fn script_list(pairs: &[(&str, &str)]) -> SheetList {
        let sheets: Vec<String> = pairs
            .iter()
            .map(|(script, _)| digits_of(script.as_bytes()) + "\n")
            .collect();
        let reports: Vec<&str> = pairs.iter().map(|(_, report)| *report).collect();
        SheetList::of(sheets.concat().as_bytes(), &reports.concat()).unwrap()
    }

    fn run_list(list: &SheetList) -> Vec<String> {
        list.run(Path::new("sh"), LIMIT).unwrap()
    }

    #[test]
    fn expected_list() {
        let list = script_list(&[
            ("echo REFUSED 1 0", "REFUSED 1 0\n"),
            ("echo POINT; echo END 0 1", "POINT\nEND 0 1\n"),
            ("echo REFUSED 2 0", "REFUSED 2 0\n"),
        ]);
        assert!(run_list(&list).is_empty());
        assert_eq!(
            list.tally().to_string(),
            "3 sheets: 1 accepted, 2 refused (1: 1, 2: 1)"
        );
    }

    #[test]
    fn differences_in_the_order_of_the_list() {
        let list = script_list(&[
            ("echo REFUSED 1 1", "REFUSED 1 0\n"),
            ("echo REFUSED 2 0", "REFUSED 2 0\n"),
            ("a=", "REFUSED 3 0\n"),
        ]);
        let found = run_list(&list);
        assert_eq!(found.len(), 2);
        assert!(found[0].starts_with("sheet 1: 6563686f"));
        assert!(found[0].ends_with("expected:\nREFUSED 1 0\nprinted:\nREFUSED 1 1\n"));
        assert!(found[1].starts_with("sheet 3: 613d\n"));
    }

    #[test]
    fn many_differences_end_the_list() {
        let list = script_list(&[("exit 1", "REFUSED 1 0\n"); 200]);
        let found = run_list(&list).len();
        assert!((MOST_DIFFERENCES..MOST_DIFFERENCES + THREADS).contains(&found));
    }

    #[test]
    fn unfit_lists() {
        let error = |sheets: &[u8], reports| SheetList::of(sheets, reports).err().unwrap();
        let counts = error(b"10\n11\n", "REFUSED 1 0\n");
        assert_eq!(counts.to_string(), "2 sheets, but 1 reports");
        let end = error(b"10\n", "POINT CURVE STATION\n");
        assert_eq!(end.to_string(), "the last report has no end");
        let missing = SheetList::read(Path::new("no-such-file"), Path::new("."));
        assert!(missing
            .err()
            .unwrap()
            .to_string()
            .starts_with("no-such-file: "));
    }

    #[test]
    fn program_that_cannot_run() {
        let list = script_list(&[("", "REFUSED 1 0\n")]);
        assert!(list.run(Path::new("./no-such-program"), LIMIT).is_err());
    }
}
