//! Prints the stations of a packed sheet, or why it is refused, and the elements
//! of one curve.
//!
//!     stations [FILE]     without FILE the sheet is read from standard input
//!
//! Exit status: 0 the stations are printed, 1 the sheet is refused, 2 it cannot
//! be read.

mod show;

use pokyandi::{element, Refusal, ELEMENT_NUMBERS};
use show::{print_stations, told, with_sheet};
use std::process::ExitCode;

fn main() -> ExitCode {
    with_sheet("stations", |sheet| {
        let printed = print_stations(sheet);
        print_elements()?;
        printed
    })
}

/// Prints the elements of the curve of document 01's case 1: 177,764 seconds,
/// radius 350 m, spirals of 40 m.
fn print_elements() -> Result<(), Refusal> {
    let mut elements = [0; ELEMENT_NUMBERS];
    told(pokyandi::elements(177_764, 350_000, 40_000, &mut elements))?;
    let [x, y] = [elements[element::X], elements[element::Y]];
    let [k, p] = [elements[element::K], elements[element::P]];
    let [d, tt] = [elements[element::D], elements[element::TT]];
    println!("elements of case 1's curve, in µm: X {x} Y {y} k {k} p {p} D {d} TT {tt}");
    Ok(())
}
