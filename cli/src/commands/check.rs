//! `pokyandi check`: a line for each sheet, fine or why it is refused.

use crate::commands::sheets::{each, Sheets};
use crate::console::{Console, Status};
use crate::explain;
use crate::files::Name;
use crate::line::POINTS;
use crate::quantity::kilometres;
use pokyandi::ROW_NUMBERS;
use std::io;

pub fn run(sheets: Sheets, console: &mut Console) -> io::Result<Status> {
    each(sheets, console, |sheet, console| {
        let mut row = [0; ROW_NUMBERS];
        let (words, status) = match pokyandi::stations(&sheet.bytes, &mut row) {
            Ok(count) => (fine(&row[..count]), Status::Done),
            Err(refusal) => (explain::of_sheet(&sheet.bytes, refusal), Status::Refused),
        };
        console.print(format!("{}: {words}\n", Name(sheet.name)).as_bytes())?;
        Ok(status)
    })
}

/// `fine, 1 curve, end at 0+879.659907 km`
fn fine(row: &[u64]) -> String {
    let end = row.last().expect("a row has an end");
    let curves = explain::counted(row.len() / POINTS.len(), "curve");
    format!("fine, {curves}, end at {} km", kilometres(*end, 6))
}
