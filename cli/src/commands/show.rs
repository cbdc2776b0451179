//! `pokyandi show`: the text of a sheet, which `make` takes back.

use crate::commands::sheets::{each, Sheets};
use crate::console::{Console, Status};
use crate::decimal::decimal;
use crate::line::{Curve, Line};
use crate::quantity::{degrees_in_letters, kilometres};
use pokyandi::Refusal;
use std::ffi::OsStr;
use std::io;

pub fn run(name: &OsStr, console: &mut Console) -> io::Result<Status> {
    each(
        Sheets::Named(vec![name.into()]),
        console,
        |sheet, console| match text_of(&sheet.bytes) {
            Ok(text) => console.print(text.as_bytes()).map(|()| Status::Done),
            Err(refusal) => sheet.refuse(refusal, console),
        },
    )
}

/// The text of a sheet.
fn text_of(sheet: &[u8]) -> Result<String, Refusal> {
    let edition = pokyandi::edition(sheet)?;
    let line = Line::of_sheet(sheet)?;
    Ok(format!("edition {edition}\n") + &text_of_line(&line))
}

fn text_of_line(line: &Line) -> String {
    let mut text = format!("speed {}km/h\n", line.speed());
    text += &format!("crossfall {}%\n", line.crossfall());
    text += &format!("start {}km\n", kilometres(line.start(), 3));
    text += &distance(line, 0);
    for i in 1..=line.curve_count() {
        let curve = line.curve(i);
        let Curve {
            deflection,
            radius,
            spiral,
            ..
        } = curve;
        let side = curve.side();
        let angle = degrees_in_letters(deflection);
        let [radius, spiral] = [radius, spiral].map(|mm| decimal(mm, 3));
        text += &format!("curve {side} {angle} {radius}m {spiral}m  # {i}\n");
        text += &distance(line, i);
    }
    text
}

fn distance(line: &Line, i: usize) -> String {
    format!("distance {}m\n", decimal(line.distance(i), 3))
}

#[cfg(test)]
mod tests {
    use super::*;
    use crate::limits;
    use crate::line::example;
    use crate::text::Text;

    #[test]
    fn the_text_of_a_sheet_is_its_line_and_edition() {
        for edition in limits::editions() {
            let text = text_of(&example().sheet(edition).unwrap()).unwrap();
            let text = Text::read(text.as_bytes(), None).unwrap();
            assert_eq!((text.edition, text.line()), (edition, Ok(example())));
        }
    }
}
