//! `pokyandi make`: the sheet of a plain text.

use crate::console::{Console, Status};
use crate::edition;
use crate::explain::counted;
use crate::files::{are_same, is_output, read_text, replace, Name};
use crate::items::Remark;
use crate::line::Line;
use crate::text::Text;
use std::ffi::OsStr;
use std::io;

pub fn run(
    edition: Option<u32>,
    text_name: &OsStr,
    sheet_name: &OsStr,
    console: &mut Console,
) -> io::Result<Status> {
    if are_same(text_name, sheet_name) {
        let name = Name(text_name);
        console.say(&format!(
            "pokyandi: {name}: the sheet would replace the text"
        ));
        return Ok(Status::Failed);
    }
    let text = match read_text(text_name) {
        Ok(text) => text,
        Err(error) => {
            console.fail(&Name(text_name), &error);
            return Ok(Status::Failed);
        }
    };
    let (made, remarks) = make(&text, edition);
    for Remark { line, words } in remarks {
        console.say(&format!("{}:{line}: {words}", Name(text_name)));
    }
    match made {
        Some(made) => Ok(made.status.max(write(sheet_name, &made, console)?)),
        None => Ok(Status::Refused),
    }
}

/// A sheet, and what is to be said of it.
struct Made {
    sheet: Vec<u8>,
    summary: String,
    /// Whether its stations are refused.
    status: Status,
}

/// The sheet of a text, where there is one, and what is to be said of the text.
fn make(text: &[u8], edition: Option<u32>) -> (Option<Made>, Vec<Remark>) {
    let mut text = match Text::read(text, edition) {
        Ok(text) => text,
        Err(fault) => return (None, vec![fault]),
    };
    let mut remarks = std::mem::take(&mut text.warnings);
    let edition = text.edition;
    let made = text
        .line()
        .and_then(|line| Ok((line.sheet(edition)?, line)));
    let (sheet, line) = match made {
        Ok(made) => made,
        Err(refusal) => {
            remarks.push(text.remark(refusal));
            return (None, remarks);
        }
    };
    remarks.extend(text.found(&line));
    // Reader and writer of the library undo each other; it is seen here once more.
    let read_back = (pokyandi::edition(&sheet), Line::of_sheet(&sheet));
    if read_back != (Ok(edition), Ok(line.clone())) {
        let words = "the sheet read back is another line: nothing is written".into();
        remarks.push(Remark { line: 1, words });
        return (None, remarks);
    }
    let refusal = pokyandi::check(&sheet).err();
    remarks.extend(refusal.map(|refusal| text.remark(refusal)));
    let made = Made::of(edition, &line, sheet, refusal.is_some());
    (Some(made), remarks)
}

impl Made {
    fn of(edition: u32, line: &Line, sheet: Vec<u8>, is_refused: bool) -> Made {
        let size = counted(sheet.len(), "byte");
        let curves = counted(line.curve_count(), "curve");
        let (status, but) = match is_refused {
            true => (Status::Refused, "; its stations are refused"),
            false => (Status::Done, ""),
        };
        let edition = match edition {
            edition::USUAL => String::new(),
            edition => format!(" in edition {edition}"),
        };
        let summary = format!("written{edition}, {size}, {curves}{but}");
        Made {
            sheet,
            summary,
            status,
        }
    }
}

/// Puts the sheet into its file, or out.
fn write(name: &OsStr, made: &Made, console: &mut Console) -> io::Result<Status> {
    if is_output(name) {
        return console.print(&made.sheet).map(|()| Status::Done);
    }
    match replace(name, &made.sheet) {
        Ok(()) => {
            console.say(&format!("{}: {}", Name(name), made.summary));
            Ok(Status::Done)
        }
        Err(error) => {
            console.fail(&Name(name), &error);
            Ok(Status::Failed)
        }
    }
}
