//! `pokyandi profile`: the heights of a road's profile, a line for each station.

use crate::commands::sheets::{each_text, print_refused, Sheet, Sheets};
use crate::commands::stations::{quoted, Form};
use crate::commands::stops::{stations, too_many, Every, Stop};
use crate::console::{Console, Status};
use crate::files::Name;
use crate::items::Remark;
use crate::limits;
use crate::profile::field;
use crate::profile::text::ProfileText;
use crate::profile::{words, Profile, Vertex};
use crate::quantity::signed_metres_of_mm;
use pokyandi::Refusal;
use std::io;
use std::iter::once;

const UM_IN_MM: u64 = 1_000;

/// Which heights are asked for, and how stations are printed.
pub struct Wanted {
    pub form: Form,
    pub every: Every,
    /// Where the list begins and ends, mm, unless as usual.
    pub from: Option<u64>,
    pub to: Option<u64>,
}

pub fn run(wanted: Wanted, texts: Sheets, console: &mut Console) -> io::Result<Status> {
    wanted.every.warn(console);
    if wanted.form == Form::Csv {
        console.print(b"text,station(m),point,element,number,height(m)\n")?;
    }
    each_text(texts, console, |file, console| {
        let text = match ProfileText::read(&file.bytes) {
            Ok(text) => text,
            Err(fault) => {
                say(file, &fault, console);
                return Ok(Status::Refused);
            }
        };
        for warning in &text.warnings {
            say(file, warning, console);
        }
        if let Err(refusal) = text.profile.check() {
            refuse(file, wanted.form, refusal, console)?;
            say(file, &text.remark(refusal), console);
            return Ok(Status::Refused);
        }
        print_profile(file, &wanted, &text.profile, console)
    })
}

/// Says something about a line of the text.
fn say(file: &Sheet, Remark { line, words }: &Remark, console: &mut Console) {
    console.say(&format!("{}:{line}: {words}", Name(file.name)));
}

/// `REFUSED` with number and place in place of a list.
fn refuse(file: &Sheet, form: Form, refusal: Refusal, console: &mut Console) -> io::Result<()> {
    match form {
        Form::Csv => print_refused(&format!("{},,", csv_name(file)), ",,,", refusal, console),
        _ => {
            console.print(file.heading().as_bytes())?;
            print_refused("", "", refusal, console)
        }
    }
}

/// Prints the heights of a profile that is accepted.
fn print_profile(
    file: &Sheet,
    wanted: &Wanted,
    profile: &Profile,
    console: &mut Console,
) -> io::Result<Status> {
    let from = wanted.from.unwrap_or(profile.start() as u64);
    let to = wanted.to.unwrap_or_else(|| usual_end(profile));
    for station in [from, to] {
        if let Err(refusal) = profile.height(station) {
            refuse(file, wanted.form, refusal, console)?;
            let words = words::of_station(profile, station, refusal);
            console.say(&format!("{}: {words}", Name(file.name)));
            return Ok(Status::Refused);
        }
    }
    let stops = stops(profile, from, to);
    let problem = match from <= to {
        true => too_many(&stops, wanted.every.um),
        false => Some(backwards(from, to)),
    };
    if let Some(words) = problem {
        console.say(&format!("pokyandi: {}: {words}", Name(file.name)));
        return Ok(Status::Failed);
    }
    print_list(file, wanted, profile, &stops, console)
}

/// The end of the last curve, or the last station that has a height; of a profile
/// without curves the start.
fn usual_end(profile: &Profile) -> u64 {
    let end = match profile.vertex_count() {
        0 => profile.start(),
        n => profile.vertex(n).end(),
    };
    limits::last_station(profile).min(end as u64)
}

fn backwards(from: u64, to: u64) -> String {
    let [from, to] = [from, to].map(|mm| field::station(mm as i64));
    format!("the list would begin at {from}, behind its end at {to}: --from and --to say where")
}

/// Where the list begins and ends and, between them, the start of the profile and the
/// points of its curves, in order.
fn stops(profile: &Profile, from: u64, to: u64) -> Vec<Stop> {
    let vertices = (1..=profile.vertex_count()).map(|i| profile.vertex(i));
    let points = once((profile.start(), "START")).chain(vertices.flat_map(points_of));
    let points = points.map(|(station, name)| (station as u64, name));
    let points = points.filter(|(station, _)| (from..=to).contains(station));
    let points = once((from, "")).chain(points).chain(once((to, "")));
    Stop::at(points.map(|(station, name)| (UM_IN_MM * station, name)))
}

/// The points of a curve in order, mm.
fn points_of(vertex: Vertex) -> Vec<(i64, &'static str)> {
    let extreme = match vertex.kind() {
        "crest" => "HIGH",
        _ => "LOW",
    };
    let mut points = vec![(vertex.begin(), "BVC"), (vertex.station, "MID")];
    points.extend(vertex.extreme().map(|station| (station, extreme)));
    points.push((vertex.end(), "EVC"));
    points.sort_by_key(|(station, _)| *station);
    points
}

fn print_list(
    file: &Sheet,
    wanted: &Wanted,
    profile: &Profile,
    stops: &[Stop],
    console: &mut Console,
) -> io::Result<Status> {
    let (form, every) = (wanted.form, wanted.every.um);
    let name = csv_name(file);
    if form != Form::Csv {
        console.print(file.heading().as_bytes())?;
        console.print(heading(form).as_bytes())?;
    }
    let count = stations(stops, every).count();
    for (i, (um, points)) in stations(stops, every).enumerate() {
        let mm = um / UM_IN_MM;
        let height = profile.height(mm);
        let height = height.expect("a station between two of the profile has its height");
        let (station, height) = (form.written(um), signed_metres_of_mm(height));
        let (element, number) = element_at(profile, mm as i64);
        let row = match form {
            Form::Csv => format!("{name},{station},{points},{element},{number},{height}\n"),
            _ => {
                let points = if points.is_empty() { "-" } else { points };
                row(&station, points, element, number, &height)
            }
        };
        console.print(row.as_bytes())?;
        console.progress(i + 1, count, "heights");
    }
    Ok(Status::Done)
}

fn csv_name(file: &Sheet) -> String {
    quoted(&file.name.to_string_lossy())
}

/// The names of the columns, with units.
fn heading(form: Form) -> String {
    let station = match form {
        Form::Metres | Form::Csv => "STATION(m)",
        Form::Kilometres => "STATION(km)",
        Form::Estacas => "STATION(estaca)",
    };
    row(station, "POINT", "ELEMENT", "NUMBER", "HEIGHT(m)")
}

fn row(
    station: &str,
    points: &str,
    element: &str,
    number: impl std::fmt::Display,
    height: &str,
) -> String {
    format!("{station:>17} {points:<9} {element:<7} {number:>6} {height:>11}\n")
}

/// The element under a station of mm, and its number: grade 0 to n, or crest or sag
/// 1 to n. Where two meet it is the one that begins there.
fn element_at(profile: &Profile, station: i64) -> (&'static str, usize) {
    let begun = (1..=profile.vertex_count()).map(|i| (i, profile.vertex(i)));
    let last = begun
        .take_while(|(_, vertex)| vertex.begin() <= station)
        .last();
    match last {
        None => ("grade", 0),
        Some((i, vertex)) if station < vertex.end() => (vertex.kind(), i),
        Some((i, _)) => ("grade", i),
    }
}
