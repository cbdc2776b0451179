//! `pokyandi stations`: the stations of sheets.

use crate::commands::sheets::{each, Sheet, Sheets};
use crate::console::{Console, Status};
use crate::decimal::decimal;
use crate::line::POINTS;
use crate::quantity::{estacas, kilometres};
use pokyandi::{Refusal, ROW_NUMBERS, TEXT_BYTES};
use std::fmt::Write;
use std::io;

/// How stations are printed.
#[derive(Clone, Copy, Debug, PartialEq, Eq)]
pub enum Form {
    Metres,
    Kilometres,
    Estacas,
    Csv,
}

impl Form {
    /// The form of this name.
    pub fn named(name: &str) -> Option<Form> {
        match name {
            "metres" => Some(Form::Metres),
            "km" => Some(Form::Kilometres),
            "estaca" => Some(Form::Estacas),
            "csv" => Some(Form::Csv),
            _ => None,
        }
    }

    /// A station of µm in this form; in CSV it is in metres.
    pub fn written(self, station: u64) -> String {
        match self {
            Form::Metres | Form::Csv => decimal(station, 6),
            Form::Kilometres => kilometres(station, 6),
            Form::Estacas => estacas(station),
        }
    }

    /// The most letters of a station up to this one, µm: those of the last µm of its
    /// estaca, since the metres of an estaca have one digit or two.
    pub fn widest(self, station: u64) -> usize {
        const ESTACA: u64 = 20_000_000;
        self.written(station / ESTACA * ESTACA + ESTACA - 1).len()
    }
}

pub fn run(form: Form, sheets: Sheets, console: &mut Console) -> io::Result<Status> {
    if form == Form::Csv {
        console.print(b"sheet,point,curve,station\n")?;
    }
    each(sheets, console, |sheet, console| match form {
        Form::Metres => print_text(sheet, console),
        Form::Kilometres | Form::Estacas => print_list(sheet, form, console),
        Form::Csv => print_csv(sheet, console),
    })
}

/// What the program `stations` prints.
fn print_text(sheet: &Sheet, console: &mut Console) -> io::Result<Status> {
    let mut text = [0; TEXT_BYTES];
    let count = pokyandi::text(&sheet.bytes, &mut text);
    let count = count.expect("so many bytes are enough for every sheet");
    console.print(sheet.heading().as_bytes())?;
    console.print(&text[..count])?;
    match pokyandi::check(&sheet.bytes) {
        Ok(_) => Ok(Status::Done),
        Err(refusal) => {
            sheet.explain(refusal, console);
            Ok(Status::Refused)
        }
    }
}

/// The same list, stations written in another way.
fn print_list(sheet: &Sheet, form: Form, console: &mut Console) -> io::Result<Status> {
    console.print(sheet.heading().as_bytes())?;
    let points = match points(&sheet.bytes) {
        Ok(points) => points,
        Err(refusal) => return sheet.refuse(refusal, console),
    };
    let mut text = String::from("POINT CURVE STATION\n");
    for Point {
        name,
        curve,
        station,
    } in points
    {
        // A text takes all that is written to it.
        let _ = writeln!(text, "{name} {curve} {}", form.written(station));
    }
    console.print(text.as_bytes())?;
    Ok(Status::Done)
}

/// A line for each point, with the sheet's name. A refusal stands in the point's
/// column, so that no number of it is taken for a station.
fn print_csv(sheet: &Sheet, console: &mut Console) -> io::Result<Status> {
    let name = quoted(&sheet.name.to_string_lossy());
    let points = match points(&sheet.bytes) {
        Ok(points) => points,
        Err(refusal) => return sheet.refuse_in_row(&format!("{name},"), ",,", refusal, console),
    };
    let mut text = String::new();
    for Point {
        name: point,
        curve,
        station,
    } in points
    {
        let station = Form::Csv.written(station);
        let _ = writeln!(text, "{name},{point},{curve},{station}");
    }
    console.print(text.as_bytes())?;
    Ok(Status::Done)
}

/// A name as a field of CSV.
pub fn quoted(name: &str) -> String {
    match name.contains([',', '"', '\n', '\r']) {
        true => format!("\"{}\"", name.replace('"', "\"\"")),
        false => name.to_string(),
    }
}

/// A station, µm, with the name of its point and the number of its curve.
pub struct Point {
    pub name: &'static str,
    pub curve: usize,
    pub station: u64,
}

/// The points of a sheet in order; the end has curve 0.
pub fn points(sheet: &[u8]) -> Result<Vec<Point>, Refusal> {
    let mut row = [0; ROW_NUMBERS];
    let count = pokyandi::stations(sheet, &mut row)?;
    let point = |(i, &station): (usize, &u64)| match i + 1 == count {
        true => Point {
            name: "END",
            curve: 0,
            station,
        },
        false => Point {
            name: POINTS[i % POINTS.len()],
            curve: i / POINTS.len() + 1,
            station,
        },
    };
    Ok(row[..count].iter().enumerate().map(point).collect())
}

#[cfg(test)]
mod tests {
    use super::*;

    #[test]
    fn names_in_csv() {
        assert_eq!(quoted("a b.sheet"), "a b.sheet");
        assert_eq!(quoted("a,\"b\".sheet"), "\"a,\"\"b\"\".sheet\"");
    }
}
