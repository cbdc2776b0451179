//! `pokyandi pegs`: the list for a crew, a line for each station to be pegged.

use crate::commands::sheets::{each, Sheet, Sheets};
use crate::commands::stations::{points, quoted, Form};
use crate::commands::stops::{end_of, stations, too_many, Every, Stop};
use crate::console::{Console, Status};
use crate::files::Name;
use crate::line::Line;
use crate::quantity::signed_metres;
use pokyandi::{peg, Refusal, PEG_NUMBERS};
use std::io;
use std::iter::once;

pub fn run(form: Form, every: Every, sheets: Sheets, console: &mut Console) -> io::Result<Status> {
    every.warn(console);
    if form == Form::Csv {
        console.print(b"sheet,station,point,element,number,length,x,y\n")?;
    }
    each(sheets, console, |sheet, console| {
        let stops = match stops(&sheet.bytes) {
            Ok(stops) => stops,
            Err(refusal) => return refuse(sheet, form, refusal, console),
        };
        if let Some(words) = too_many(&stops, every.um) {
            console.say(&format!("pokyandi: {}: {words}", Name(sheet.name)));
            return Ok(Status::Failed);
        }
        print_list(sheet, form, &stops, every.um, console)
    })
}

fn refuse(
    sheet: &Sheet,
    form: Form,
    refusal: Refusal,
    console: &mut Console,
) -> io::Result<Status> {
    match form {
        Form::Csv => {
            sheet.refuse_in_row(&format!("{},,", csv_name(sheet)), ",,,,,", refusal, console)
        }
        _ => {
            console.print(sheet.heading().as_bytes())?;
            sheet.refuse(refusal, console)
        }
    }
}

/// The start, TS, SC, CS and ST of every curve, and the end, in order. Where there
/// is no spiral, TS and SC are one peg, and so are CS and ST.
fn stops(sheet: &[u8]) -> Result<Vec<Stop>, Refusal> {
    let points = points(sheet)?;
    let start = (1_000 * Line::of_sheet(sheet)?.start(), "START");
    let points = points.iter().map(|point| (point.station, point.name));
    Ok(Stop::at(once(start).chain(points)))
}

fn print_list(
    sheet: &Sheet,
    form: Form,
    stops: &[Stop],
    every: u64,
    console: &mut Console,
) -> io::Result<Status> {
    let name = csv_name(sheet);
    let width = form.widest(end_of(stops)).max(USUAL_WIDTH);
    if form != Form::Csv {
        console.print(sheet.heading().as_bytes())?;
        console.print(heading(width).as_bytes())?;
    }
    let count = stations(stops, every).count();
    for (i, (station, points)) in stations(stops, every).enumerate() {
        let mut numbers = [0; PEG_NUMBERS];
        let answer = pokyandi::peg(&sheet.bytes, station, &mut numbers);
        answer.expect("a station of the line has its element");
        let station = form.written(station);
        let row = match form {
            Form::Csv => csv_row(&name, &station, points, &numbers),
            _ => row(width, &station, points, &numbers),
        };
        console.print(row.as_bytes())?;
        console.progress(i + 1, count, "pegs");
    }
    Ok(Status::Done)
}

fn csv_name(sheet: &Sheet) -> String {
    quoted(&sheet.name.to_string_lossy())
}

/// The width of the stations' column; only estacas far beyond kilometre 200 take more.
const USUAL_WIDTH: usize = 17;

fn heading(width: usize) -> String {
    let station = "STATION";
    format!("{station:>width$} POINT ELEMENT    NUMBER       LENGTH          X          Y\n")
}

fn row(width: usize, station: &str, points: &str, numbers: &[i64; PEG_NUMBERS]) -> String {
    let points = if points.is_empty() { "-" } else { points };
    let (kind, number) = (kind_of(numbers), numbers[peg::NUMBER]);
    let [length, x, y] = lengths_of(numbers);
    format!("{station:>width$} {points:<5} {kind:<10} {number:>6} {length:>12} {x:>10} {y:>10}\n")
}

fn csv_row(sheet: &str, station: &str, points: &str, numbers: &[i64; PEG_NUMBERS]) -> String {
    let (kind, number) = (kind_of(numbers), numbers[peg::NUMBER]);
    let lengths = lengths_of(numbers).join(",");
    format!("{sheet},{station},{points},{kind},{number},{lengths}\n")
}

fn kind_of(numbers: &[i64; PEG_NUMBERS]) -> &'static str {
    match numbers[peg::KIND] {
        peg::STRAIGHT => "straight",
        peg::SPIRAL_IN => "spiral-in",
        peg::ARC => "arc",
        peg::SPIRAL_OUT => "spiral-out",
        _ => "unknown",
    }
}

/// Length, x and y in metres.
fn lengths_of(numbers: &[i64; PEG_NUMBERS]) -> [String; 3] {
    [peg::LENGTH, peg::X, peg::Y].map(|i| signed_metres(numbers[i]))
}
