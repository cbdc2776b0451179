//! `pokyandi convert`: sheets in the other edition, in place of what they were.

use crate::commands::sheets::{each_counted, Sheet, Sheets};
use crate::console::{Console, Status};
use crate::explain::{self, counted};
use crate::files::{is_standard, rewrite, Name};
use crate::line::Line;
use pokyandi::{Refusal, SHEET_BYTES};
use std::io;

pub fn run(to: u32, sheets: Sheets, console: &mut Console) -> io::Result<Status> {
    console.expect_no_results();
    let mut tally = Tally::default();
    let (status, count) = each_counted(sheets, console, |sheet, console| {
        let done = convert(sheet, to, console)?;
        tally.count(&done);
        Ok(tell(sheet, to, &done, console))
    })?;
    if count > 1 {
        console.say(&tally.words(to, count));
    }
    Ok(status)
}

/// What became of a sheet.
enum Done {
    /// So many bytes are written.
    Converted(usize),
    /// It has the edition already.
    Had,
    Refused(Refusal),
    Failed(io::Error),
}

/// Converts a sheet in its file, or from standard input to standard output, where a
/// sheet that has the edition already goes as it is.
fn convert(sheet: &Sheet, to: u32, console: &mut Console) -> io::Result<Done> {
    let had = pokyandi::edition(&sheet.bytes) == Ok(to);
    let new = match had {
        true => sheet.bytes.clone(),
        false => match converted(&sheet.bytes, to) {
            Ok(new) => new,
            Err(refusal) => return Ok(Done::Refused(refusal)),
        },
    };
    let written = match (is_standard(sheet.name), had) {
        (true, _) => Ok(console.print(&new)?),
        (false, true) => Ok(()),
        (false, false) => put(sheet, &new),
    };
    Ok(match written {
        Err(error) => Done::Failed(error),
        Ok(()) if had => Done::Had,
        Ok(()) => Done::Converted(new.len()),
    })
}

/// The sheet in this edition, or the first refusal.
fn converted(sheet: &[u8], to: u32) -> Result<Vec<u8>, Refusal> {
    let mut bytes = [0; SHEET_BYTES];
    let count = pokyandi::convert(sheet, to, &mut bytes)?;
    Ok(bytes[..count].to_vec())
}

/// Puts the converted sheet into its file. It has the line of the old one and comes
/// back as it was: that is proved of the library, and seen here once more.
fn put(old: &Sheet, new: &[u8]) -> io::Result<()> {
    let old_edition = pokyandi::edition(&old.bytes);
    let back = old_edition.and_then(|edition| converted(new, edition));
    if Line::of_sheet(new) != Line::of_sheet(&old.bytes) || back.as_ref() != Ok(&old.bytes) {
        let words = "the converted sheet is another line: nothing is written";
        return Err(io::Error::other(words));
    }
    rewrite(old.name, new)
}

/// Says what became of a sheet. Of several, those that are converted are only counted.
fn tell(sheet: &Sheet, to: u32, done: &Done, console: &mut Console) -> Status {
    let name = Name(sheet.name);
    let mut say = |words: String| console.say(&format!("{name}: {words}"));
    match done {
        Done::Converted(_) if sheet.among_others || is_standard(sheet.name) => Status::Done,
        Done::Converted(size) => {
            let size = counted(*size, "byte");
            say(format!("converted to edition {to}, {size}"));
            Status::Done
        }
        Done::Had => {
            say(format!("left alone: it has edition {to} already"));
            Status::Done
        }
        Done::Refused(refusal) => {
            let words = explain::of_sheet(&sheet.bytes, *refusal);
            say(format!("left alone: {words}"));
            Status::Refused
        }
        Done::Failed(error) => {
            console.fail(&name, error);
            Status::Failed
        }
    }
}

/// How many sheets were converted, had the edition already, and were refused.
#[derive(Default)]
struct Tally {
    converted: usize,
    had: usize,
    refused: usize,
}

impl Tally {
    fn count(&mut self, done: &Done) {
        match done {
            Done::Converted(_) => self.converted += 1,
            Done::Had => self.had += 1,
            Done::Refused(_) => self.refused += 1,
            Done::Failed(_) => {}
        }
    }

    /// `300 sheets: 297 converted to edition 2, 2 had it already, 1 refused, 0 failed`;
    /// those that could not be read or written are the rest.
    fn words(&self, to: u32, count: usize) -> String {
        let Tally {
            converted,
            had,
            refused,
        } = self;
        let failed = count - converted - had - refused;
        format!(
            "{}: {converted} converted to edition {to}, {had} had it already, \
             {refused} refused, {failed} failed",
            counted(count, "sheet")
        )
    }
}
