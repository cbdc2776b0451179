//! Prints the line of a packed sheet, makes its last distance 100 m longer,
//! writes the sheet of that line in the same edition and prints its stations; then
//! calls that are refused.
//!
//!     line [FILE]     without FILE the sheet is read from standard input
//!
//! Exit status: 0 the stations are printed, 1 sheet or line is refused, 2 the
//! sheet cannot be read.

mod show;

use pokyandi::{curve, line, Refusal, LINE_NUMBERS, SHEET_BYTES};
use show::{print_stations, told, with_sheet};
use std::process::ExitCode;

/// mm
const LONGER: u32 = 100_000;

fn main() -> ExitCode {
    with_sheet("line", show_line)
}

fn show_line(sheet: &[u8]) -> Result<(), Refusal> {
    let mut numbers = [0; LINE_NUMBERS];
    let count = told(pokyandi::read(sheet, &mut numbers))?;
    let edition = told(pokyandi::edition(sheet))?;
    let numbers = &mut numbers[..count];
    print_line(numbers);

    let n = numbers[line::CURVES] as usize;
    numbers[line::distance(n)] += LONGER;
    print!("the last distance 100 m longer: ");
    let printed = print_written(edition, numbers);
    print_refused(edition, numbers);
    printed
}

fn print_line(numbers: &[u32]) {
    let n = numbers[line::CURVES] as usize;
    println!("curves {n}");
    println!("speed {} km/h", numbers[line::SPEED]);
    println!("crossfall {} percent", numbers[line::CROSSFALL]);
    println!("start {} mm", numbers[line::START]);
    for i in 0..=n {
        if i > 0 {
            print_curve(i, &numbers[line::curve(i)..]);
        }
        println!("distance {i}: {} mm", numbers[line::distance(i)]);
    }
}

fn print_curve(i: usize, numbers: &[u32]) {
    let side = match numbers[curve::SIDE] {
        curve::LEFT => "left",
        _ => "right",
    };
    let deflection = numbers[curve::DEFLECTION];
    let [radius, spiral] = [numbers[curve::RADIUS], numbers[curve::SPIRAL]];
    print!("curve {i}: {side}, deflection {deflection} seconds, ");
    println!("radius {radius} mm, spiral {spiral} mm");
}

/// Writes the line's sheet and prints its stations.
fn print_written(edition: u32, numbers: &[u32]) -> Result<(), Refusal> {
    let mut sheet = [0; SHEET_BYTES];
    let count = told(pokyandi::write(edition, numbers, &mut sheet))?;
    println!("a sheet of {count} bytes:");
    print_stations(&sheet[..count])
}

/// What is answered to edition 3, to a line cut short by a number, to no line, to a
/// room of 9 bytes, which is too small for every sheet, and to side 2.
fn print_refused(edition: u32, numbers: &mut [u32]) {
    let mut sheet = [0; SHEET_BYTES];
    let mut show = |what: &str, edition: u32, numbers: &[u32], room: usize| {
        if let Err(refusal) = pokyandi::write(edition, numbers, &mut sheet[..room]) {
            println!("{what}: {refusal}");
        }
    };
    show("edition 3", 3, numbers, SHEET_BYTES);
    let shorter = &numbers[..numbers.len() - 1];
    show("one number less", edition, shorter, SHEET_BYTES);
    show("no number", edition, &[], SHEET_BYTES);
    show("9 bytes", edition, numbers, 9);
    if numbers[line::CURVES] > 0 {
        numbers[line::curve(1) + curve::SIDE] = 2;
        show("side 2", edition, numbers, SHEET_BYTES);
    }
}
