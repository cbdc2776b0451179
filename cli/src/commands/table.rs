//! `pokyandi table`: the unit spiral table, or X and Y of one spiral from it.

use crate::commands::sheets::print_refused;
use crate::console::{Console, Status};
use crate::decimal::decimal;
use crate::explain;
use crate::line::library_number;
use pokyandi::element::{X, Y};
use pokyandi::{Refusal, OFFSET_NUMBERS, TABLE_NUMBERS};
use std::fmt::{Display, Write};
use std::io;

/// A spiral that is looked up: its angle in thousandths of a radian, its length in mm.
#[derive(Clone, Copy, Debug, PartialEq, Eq)]
pub struct Spiral {
    pub thousandth: u64,
    pub length: u64,
}

impl Spiral {
    /// X and Y in µm, or refusal 25 or 11.
    pub fn look_up(self) -> Result<[u64; OFFSET_NUMBERS], Refusal> {
        let mut offsets = [0; OFFSET_NUMBERS];
        let [thousandth, length] = [self.thousandth, self.length].map(library_number);
        pokyandi::unit_spiral(thousandth, length, &mut offsets)?;
        Ok(offsets)
    }
}

/// Prints X and Y of a spiral, or all rows where none is asked for.
pub fn run(as_csv: bool, spiral: Option<Spiral>, console: &mut Console) -> io::Result<Status> {
    match spiral {
        None => print_rows(as_csv, console),
        Some(spiral) => print_spiral(as_csv, spiral, console),
    }
}

fn print_rows(as_csv: bool, console: &mut Console) -> io::Result<Status> {
    let mut ratios = [0; TABLE_NUMBERS];
    let count = pokyandi::unit_spiral_table(&mut ratios);
    let count = count.expect("so many numbers are enough for the table");
    let mut text = match as_csv {
        true => "thousandth,angle(rad),x,y\n".into(),
        false => row("THOUSANDTH", "ANGLE(rad)", &["x", "y"]),
    };
    for (thousandth, ratios) in ratios[..count].chunks(OFFSET_NUMBERS).enumerate() {
        let angle = radians(thousandth as u64);
        let [x, y] = [X, Y].map(|i| decimal(ratios[i], 9));
        // A text takes all that is written to it.
        let _ = match as_csv {
            true => writeln!(text, "{thousandth},{angle},{x},{y}"),
            false => write!(text, "{}", row(thousandth, &angle, &[&x, &y])),
        };
    }
    console.print(text.as_bytes()).map(|()| Status::Done)
}

fn print_spiral(as_csv: bool, spiral: Spiral, console: &mut Console) -> io::Result<Status> {
    let Spiral { thousandth, length } = spiral;
    if as_csv {
        console.print(b"thousandth,angle(rad),length(m),X(m),Y(m)\n")?;
    }
    let offsets = match spiral.look_up() {
        Ok(offsets) => offsets,
        Err(refusal) => {
            print_refused("", if as_csv { ",,,," } else { "" }, refusal, console)?;
            let words = explain::of_spiral(spiral, refusal);
            console.say(&format!("table: {words}"));
            return Ok(Status::Refused);
        }
    };
    let (angle, length) = (radians(thousandth), decimal(length, 3));
    let [x, y] = [X, Y].map(|i| decimal(offsets[i], 6));
    let text = match as_csv {
        true => format!("{thousandth},{angle},{length},{x},{y}\n"),
        false => {
            let heading = row("THOUSANDTH", "ANGLE(rad)", &["LENGTH(m)", "X(m)", "Y(m)"]);
            heading + &row(thousandth, &angle, &[&length, &x, &y])
        }
    };
    console.print(text.as_bytes()).map(|()| Status::Done)
}

/// Thousandths of a radian in radians.
fn radians(thousandth: u64) -> String {
    decimal(thousandth, 3)
}

fn row(thousandth: impl Display, angle: &str, numbers: &[&str]) -> String {
    let numbers = numbers.iter().map(|number| format!(" {number:>11}"));
    let numbers: String = numbers.collect();
    format!("{thousandth:>10} {angle:>10}{numbers}\n")
}
