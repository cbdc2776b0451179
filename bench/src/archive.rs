//! An archive of many sheets of edition 1 and of all sizes, each read and written again
//! by one call, and each brought to edition 2.

use crate::arguments::Options;
use crate::baseline::Baseline;
#[cfg(before)]
use crate::before::Before;
use crate::compare::{compare_convert, compare_rewrite};
use crate::inputs::random_sheet;
use crate::job::keep;
use crate::library::Library;
use crate::measure::{alternate, sure, Work};
use crate::reference_side::Reference;
use crate::side::Side;
use crate::table;
use reference::edition::SECOND;
use reference::line::MOST_CURVES;
use reference::samples::dice::Dice;
use std::hint::black_box;

const SEED: u64 = 9;
const SHEETS: usize = 100_000;
const QUICK_SHEETS: usize = 2_000;
/// Sheets below this many curves are three of four.
const MANY_CURVES: usize = 8;

/// Accepted sheets, one behind the other, the same in every run.
pub struct Archive {
    bytes: Vec<u8>,
    /// Where each sheet ends.
    ends: Vec<usize>,
    curves: usize,
}

impl Archive {
    pub fn make(options: &Options) -> Archive {
        let mut archive = Archive {
            bytes: Vec::new(),
            ends: Vec::new(),
            curves: 0,
        };
        let mut dice = Dice::new(SEED);
        for _ in 0..sheet_count(options) {
            let curves = curve_count(&mut dice);
            archive.bytes.extend(random_sheet(&mut dice, curves));
            archive.ends.push(archive.bytes.len());
            archive.curves += curves;
        }
        archive
    }

    fn len(&self) -> usize {
        self.ends.len()
    }

    fn sheets(&self) -> impl Iterator<Item = &[u8]> {
        let begins = [0].into_iter().chain(self.ends.iter().copied());
        let ends = self.ends.iter();
        begins
            .zip(ends)
            .map(|(begin, end)| &self.bytes[begin..*end])
    }

    /// What the archive is, in words.
    fn words(&self) -> String {
        let mean = |sum: usize| sum as f64 / self.len() as f64;
        format!(
            "{} sheets of 0 to {MOST_CURVES} curves, in the mean {:.1} curves and {:.1} bytes",
            self.len(),
            mean(self.curves),
            mean(self.bytes.len())
        )
    }
}

fn sheet_count(options: &Options) -> usize {
    match options.quick {
        true => QUICK_SHEETS,
        false => SHEETS,
    }
}

/// How many curves the next sheet has: few in three of four, many in the fourth,
/// and all counts of either kind alike.
fn curve_count(dice: &mut Dice) -> usize {
    match dice.once_in(4) {
        true => dice.index(MANY_CURVES, MOST_CURVES),
        false => dice.index(0, MANY_CURVES - 1),
    }
}

/// Fails when a sheet has two answers.
pub fn compare(archive: &Archive) -> Result<(), String> {
    let (mut library, mut reference) = (Library::new(), Reference::new());
    for (i, sheet) in archive.sheets().enumerate() {
        compare_rewrite(sheet, &mut library, &mut reference)
            .and_then(|()| compare_convert(sheet, SECOND, &mut library, &mut reference))
            .map_err(|problem| format!("archive, sheet {i}: {problem}"))?;
    }
    Ok(())
}

/// Times an archive whose answers have been compared, a round being all of it.
pub fn measure(archive: &Archive, options: &Options) -> Result<(), String> {
    println!("\nArchive: {},", archive.words());
    println!("each read and written again by one call, one after the other:");
    measure_works(archive, rewriting(archive), options)?;
    println!("each brought to edition 2:");
    measure_works(archive, converting(archive), options)
}

/// Each side's work, by its name, the library's first.
type Works<'a> = Vec<(&'static str, Work<'a>)>;

fn measure_works(archive: &Archive, works: Works, options: &Options) -> Result<(), String> {
    let (names, mut works): (Vec<&str>, Vec<Work>) = works.into_iter().unzip();
    alternate(1, archive.len(), &mut works)?;
    let times = alternate(options.rounds(), archive.len(), &mut works)?;
    table::print_rates(&names, &times);
    Ok(())
}

fn converting(archive: &Archive) -> Works<'_> {
    let (mut library, mut reference) = (Library::new(), Reference::new());
    let mut baseline = Baseline::new();
    let second = SECOND.number;
    vec![
        (
            "library",
            each(archive, move |sheet| keep(library.convert(sheet, second))),
        ),
        (
            "reference",
            each(archive, move |sheet| keep(reference.convert(sheet, second))),
        ),
        (
            "C",
            each(archive, move |sheet| keep(baseline.convert(sheet, second))),
        ),
    ]
}

fn rewriting(archive: &Archive) -> Works<'_> {
    let (mut library, mut reference) = (Library::new(), Reference::new());
    let mut baseline = Baseline::new();
    #[cfg(before)]
    let mut before = Before::new();
    vec![
        (
            "library",
            each(archive, move |sheet| keep(library.rewrite(sheet))),
        ),
        (
            "reference",
            each(archive, move |sheet| keep(reference.rewrite(sheet))),
        ),
        (
            "C",
            each(archive, move |sheet| keep(baseline.rewrite(sheet))),
        ),
        #[cfg(before)]
        (
            "before",
            each(archive, move |sheet| keep(before.rewrite(sheet))),
        ),
    ]
}

/// The work of one call for each sheet.
fn each<'a>(archive: &'a Archive, mut call: impl FnMut(&[u8]) + 'a) -> Work<'a> {
    sure(move || archive.sheets().for_each(|sheet| call(black_box(sheet))))
}

#[cfg(test)]
mod tests {
    use super::*;
    use reference::sheet::line_of;

    fn quick() -> Archive {
        Archive::make(&Options {
            quick: true,
            ..Options::default()
        })
    }

    #[test]
    fn sheets_lie_one_behind_the_other() {
        let archive = quick();
        assert_eq!(archive.sheets().count(), QUICK_SHEETS);
        assert_eq!(archive.sheets().collect::<Vec<_>>().concat(), archive.bytes);
    }

    #[test]
    fn every_count_and_most_below_eight() {
        let mut counts = [0; MOST_CURVES + 1];
        for sheet in quick().sheets() {
            let line = line_of(sheet).expect("the sheet is accepted");
            counts[line.curve_count()] += 1;
        }
        assert!(counts.iter().all(|times| *times > 0), "{counts:?}");
        let few: usize = counts[..MANY_CURVES].iter().sum();
        assert!((1_450..1_550).contains(&few), "{few}");
    }
}
