//! `pokyandi elements`: the elements of every curve of sheets, and the straights.

use crate::commands::sheets::{each, Sheet, Sheets};
use crate::console::{Console, Status};
use crate::decimal::decimal;
use crate::line::{Line, POINTS};
use pokyandi::{Refusal, ROW_NUMBERS};
use std::fmt::Write;
use std::io;

pub fn run(sheets: Sheets, console: &mut Console) -> io::Result<Status> {
    each(sheets, console, |sheet, console| {
        console.print(sheet.heading().as_bytes())?;
        match tables(sheet) {
            Ok(text) => console.print(text.as_bytes()).map(|()| Status::Done),
            Err(refusal) => sheet.refuse(refusal, console),
        }
    })
}

/// The columns of a curve's elements, in the order of the library.
const CURVES: &str =
    "CURVE                X             Y             k             p             D            TT\n";
const STRAIGHTS: &str = "STRAIGHT        LENGTH\n";

/// Both tables, in metres.
fn tables(sheet: &Sheet) -> Result<String, Refusal> {
    let mut row = [0; ROW_NUMBERS];
    let count = pokyandi::stations(&sheet.bytes, &mut row)?;
    let line = Line::of_sheet(&sheet.bytes)?;
    let mut text = String::new();
    if line.curve_count() > 0 {
        text += CURVES;
    }
    for i in 1..=line.curve_count() {
        put_row(&mut text, i, &line.curve(i).elements()?);
    }
    text += STRAIGHTS;
    let straights = straights(1_000 * line.start(), &row[..count]);
    for (i, straight) in straights.enumerate() {
        put_row(&mut text, i, &[straight]);
    }
    Ok(text)
}

/// The straights between start, stations and end, µm: from ST to the next TS.
fn straights(start: u64, row: &[u64]) -> impl Iterator<Item = u64> + '_ {
    let ends_of_curves = row
        .iter()
        .skip(POINTS.len() - 1)
        .step_by(POINTS.len())
        .copied();
    let begins = [start].into_iter().chain(ends_of_curves);
    begins
        .zip(row.iter().step_by(POINTS.len()))
        .map(|(begin, end)| end - begin)
}

/// A line of a table: a number, and lengths of µm in metres.
fn put_row(text: &mut String, number: usize, lengths: &[u64]) {
    // A text takes all that is written to it.
    let _ = write!(text, "{number:<8}");
    for um in lengths {
        let _ = write!(text, " {:>13}", decimal(*um, 6));
    }
    text.push('\n');
}
