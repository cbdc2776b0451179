//! Several sheets, or texts, in one run: one that fails does not stop the others.

use crate::console::{Console, Status};
use crate::explain;
use crate::files::{is_standard, read_all, read_sheet, read_text, Name};
use pokyandi::Refusal;
use std::ffi::{OsStr, OsString};
use std::io;
use std::os::unix::ffi::OsStringExt;

/// The sheets or texts of a run, by their files' names.
pub enum Sheets {
    Named(Vec<OsString>),
    /// The names stand in this file, a line each.
    Listed(OsString),
}

/// What the files of a run are.
#[derive(Clone, Copy)]
struct Kind {
    name: &'static str,
    plural: &'static str,
    heading: &'static str,
    read: fn(&OsStr) -> io::Result<Vec<u8>>,
}

const SHEET: Kind = Kind {
    name: "sheet",
    plural: "sheets",
    heading: "SHEET",
    read: read_sheet,
};
const TEXT: Kind = Kind {
    name: "text",
    plural: "texts",
    heading: "TEXT",
    read: read_text,
};

/// A sheet, or a text, that was read.
pub struct Sheet<'a> {
    pub name: &'a OsStr,
    pub bytes: Vec<u8>,
    kind: Kind,
    /// Whether others are in the same run, so that its results want its name.
    pub among_others: bool,
}

/// Does something with each sheet. The error is that of standard output.
pub fn each(
    sheets: Sheets,
    console: &mut Console,
    work: impl FnMut(&Sheet, &mut Console) -> io::Result<Status>,
) -> io::Result<Status> {
    each_counted(sheets, console, work).map(|(status, _)| status)
}

/// The same, and how many sheets were named.
pub fn each_counted(
    sheets: Sheets,
    console: &mut Console,
    work: impl FnMut(&Sheet, &mut Console) -> io::Result<Status>,
) -> io::Result<(Status, usize)> {
    each_of(SHEET, sheets, console, work)
}

/// Does something with each text.
pub fn each_text(
    texts: Sheets,
    console: &mut Console,
    work: impl FnMut(&Sheet, &mut Console) -> io::Result<Status>,
) -> io::Result<Status> {
    each_of(TEXT, texts, console, work).map(|(status, _)| status)
}

fn each_of(
    kind: Kind,
    sheets: Sheets,
    console: &mut Console,
    mut work: impl FnMut(&Sheet, &mut Console) -> io::Result<Status>,
) -> io::Result<(Status, usize)> {
    let Some(names) = names_of(&sheets, kind, console) else {
        return Ok((Status::Failed, 0));
    };
    let among_others = names.len() > 1 || matches!(sheets, Sheets::Listed(_));
    let mut worst = Status::Done;
    for (i, name) in names.iter().enumerate() {
        let status = match (kind.read)(name) {
            Ok(bytes) => {
                let sheet = Sheet {
                    name,
                    bytes,
                    kind,
                    among_others,
                };
                work(&sheet, console)?
            }
            Err(error) => failed(console, name, &error),
        };
        worst = worst.max(status);
        console.progress(i + 1, names.len(), kind.plural);
    }
    Ok((worst, names.len()))
}

/// The names of the sheets; none, with words, where they cannot be had.
fn names_of(sheets: &Sheets, kind: Kind, console: &mut Console) -> Option<Vec<OsString>> {
    let (names, list) = match sheets {
        Sheets::Named(names) => (names.clone(), None),
        Sheets::Listed(list) => match read_all(list) {
            Ok(text) => (names_in(&text), Some(list)),
            Err(error) => {
                failed(console, list, &error);
                return None;
            }
        },
    };
    if let (Some(list), true) = (list, names.is_empty()) {
        let (list, kind) = (Name(list), kind.name);
        console.say(&format!("pokyandi: {list}: it names no {kind}"));
        return None;
    }
    let inputs = names.iter().chain(list).filter(|name| is_standard(name));
    if inputs.count() > 1 {
        console.say("pokyandi: standard input can be read only once");
        return None;
    }
    Some(names)
}

fn failed(console: &mut Console, name: &OsStr, error: &io::Error) -> Status {
    console.fail(&Name(name), error);
    Status::Failed
}

/// The lines of a list that are not empty.
fn names_in(text: &[u8]) -> Vec<OsString> {
    let text = text.strip_prefix(b"\xEF\xBB\xBF").unwrap_or(text);
    let lines = text.split(|byte| *byte == b'\n');
    let names = lines.map(|line| line.strip_suffix(b"\r").unwrap_or(line));
    names
        .filter(|name| !name.is_empty())
        .map(|name| OsString::from_vec(name.to_vec()))
        .collect()
}

impl Sheet<'_> {
    /// The line above the sheet's results, where others are in the same run.
    pub fn heading(&self) -> String {
        match self.among_others {
            true => format!("{} {}\n", self.kind.heading, Name(self.name)),
            false => String::new(),
        }
    }

    /// `REFUSED` with number and place for the results, and the words.
    pub fn refuse(&self, refusal: Refusal, console: &mut Console) -> io::Result<Status> {
        self.refuse_in_row("", "", refusal, console)
    }

    /// The same between other columns of a row.
    pub fn refuse_in_row(
        &self,
        before: &str,
        behind: &str,
        refusal: Refusal,
        console: &mut Console,
    ) -> io::Result<Status> {
        print_refused(before, behind, refusal, console)?;
        self.explain(refusal, console);
        Ok(Status::Refused)
    }

    /// Says why the sheet is refused.
    pub fn explain(&self, refusal: Refusal, console: &mut Console) {
        let words = explain::of_sheet(&self.bytes, refusal);
        console.say(&format!("{}: {words}", Name(self.name)));
    }
}

/// `REFUSED` with number and place, between other columns of a row.
pub fn print_refused(
    before: &str,
    behind: &str,
    Refusal { reason, place }: Refusal,
    console: &mut Console,
) -> io::Result<()> {
    let line = format!("{before}REFUSED {} {place}{behind}\n", reason.number());
    console.print(line.as_bytes())
}
