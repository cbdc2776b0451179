//! Prints X and Y of spirals from the unit spiral table, in metres, and rows of the
//! table; then calls that are refused.
//!
//! Exit status: 0 they are printed, 1 one of them is refused.

use pokyandi::element::{X, Y};
use pokyandi::{Refusal, OFFSET_NUMBERS, TABLE_NUMBERS};
use std::process::ExitCode;

fn main() -> ExitCode {
    if print_all().is_err() {
        return ExitCode::FAILURE;
    }
    let _ = print_offsets("501 thousandths", 501, 500_001, OFFSET_NUMBERS);
    let _ = print_offsets("500.001 m", 500, 500_001, 0);
    let _ = print_offsets("room for X alone", 500, 500_000, 1);
    print!("room for 1001 numbers: ");
    let _ = print_rows(TABLE_NUMBERS - 1);
    ExitCode::SUCCESS
}

fn print_all() -> Result<(), Refusal> {
    print_offsets("80 m at 250 thousandths", 250, 80_000, OFFSET_NUMBERS)?;
    print_offsets("500 m at 500 thousandths", 500, 500_000, OFFSET_NUMBERS)?;
    print_rows(TABLE_NUMBERS)
}

/// Prints X and Y of a spiral of a length in mm, or the refusal, which it answers.
fn print_offsets(name: &str, thousandth: u32, length: u32, room: usize) -> Result<(), Refusal> {
    let mut offsets = [0; OFFSET_NUMBERS];
    let answer = pokyandi::unit_spiral(thousandth, length, &mut offsets[..room]);
    match &answer {
        Ok(_) => println!("{name}: X {} Y {}", metres(offsets[X]), metres(offsets[Y])),
        Err(refusal) => println!("{name}: {refusal}"),
    }
    answer.map(drop)
}

/// Prints rows 0, 250 and 500, or the refusal, which it answers.
fn print_rows(room: usize) -> Result<(), Refusal> {
    let mut ratios = [0; TABLE_NUMBERS];
    let answer = pokyandi::unit_spiral_table(&mut ratios[..room]);
    let count = answer.inspect_err(|refusal| println!("{refusal}"))?;
    let rows = ratios[..count].chunks(OFFSET_NUMBERS);
    println!("{} rows", rows.len());
    for (i, row) in rows.enumerate().step_by(250) {
        println!("row {i}: x {} y {}", row[X], row[Y]);
    }
    Ok(())
}

/// µm in metres.
fn metres(um: u64) -> String {
    format!("{}.{:06}", um / 1_000_000, um % 1_000_000)
}
