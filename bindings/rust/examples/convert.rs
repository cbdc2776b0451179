//! Prints a packed sheet and the sheet of the same line in the other edition,
//! converted and converted back; then the line moved past kilometre 200, which
//! edition 1 does not hold, and other calls that are refused.
//!
//!     convert [FILE]     without FILE the sheet is read from standard input
//!
//! Exit status: 0 the sheet is converted, 1 it is refused, 2 it cannot be read.

mod show;

use pokyandi::{line, Refusal, LINE_NUMBERS, SHEET_BYTES};
use show::{told, with_sheet};
use std::process::ExitCode;

/// mm: kilometre 1,234
const FAR_START: u32 = 1_234_000_000;

fn main() -> ExitCode {
    with_sheet("convert", show_editions)
}

fn show_editions(sheet: &[u8]) -> Result<(), Refusal> {
    let edition = told(pokyandi::edition(sheet))?;
    print_sheet(sheet)?;
    let printed = print_converted(edition, sheet);
    print_far(sheet)?;
    print_refused(edition, sheet);
    printed
}

fn other(edition: u32) -> u32 {
    match edition {
        1 => 2,
        _ => 1,
    }
}

/// The sheet's edition, its length, and its bytes in hexadecimal.
fn print_sheet(sheet: &[u8]) -> Result<(), Refusal> {
    print!(
        "edition {}, {} bytes:",
        pokyandi::edition(sheet)?,
        sheet.len()
    );
    for byte in sheet {
        print!(" {byte:02x}");
    }
    println!();
    Ok(())
}

/// Prints the sheet in the other edition, and whether it comes back as it was.
fn print_converted(edition: u32, sheet: &[u8]) -> Result<(), Refusal> {
    let mut converted = [0; SHEET_BYTES];
    let count = told(pokyandi::convert(sheet, other(edition), &mut converted))?;
    print_sheet(&converted[..count])?;

    let mut back = [0; SHEET_BYTES];
    let count = pokyandi::convert(&converted[..count], edition, &mut back)?;
    let same = back[..count] == *sheet;
    println!(
        "and back: {}",
        if same {
            "the same bytes"
        } else {
            "other bytes"
        }
    );
    Ok(())
}

/// The line that starts at kilometre 1,234: its sheet in edition 2, which is not
/// converted to edition 1, nor written in it.
fn print_far(sheet: &[u8]) -> Result<(), Refusal> {
    let mut numbers = [0; LINE_NUMBERS];
    let count = pokyandi::read(sheet, &mut numbers)?;
    numbers[line::START] = FAR_START;
    let mut far = [0; SHEET_BYTES];
    let size = pokyandi::write(2, &numbers[..count], &mut far)?;
    print!("from kilometre 1,234: ");
    print_sheet(&far[..size])?;
    let mut bytes = [0; SHEET_BYTES];
    let converted = pokyandi::convert(&far[..size], 1, &mut bytes);
    print_refusal("converted to edition 1", converted);
    let written = pokyandi::write(1, &numbers[..count], &mut bytes);
    print_refusal("written in edition 1", written);
    Ok(())
}

/// What is answered where the sheet's own edition is asked for, or edition 3, and
/// to a room of 9 bytes, which is too small for every sheet.
fn print_refused(edition: u32, sheet: &[u8]) {
    let mut bytes = [0; SHEET_BYTES];
    let own = pokyandi::convert(sheet, edition, &mut bytes);
    print_refusal(&format!("edition {edition}"), own);
    let third = pokyandi::convert(sheet, 3, &mut bytes);
    print_refusal("edition 3", third);
    let small = pokyandi::convert(sheet, other(edition), &mut bytes[..9]);
    print_refusal("9 bytes", small);
}

fn print_refusal(what: &str, answer: Result<usize, Refusal>) {
    if let Err(refusal) = answer {
        println!("{what}: {refusal}");
    }
}
