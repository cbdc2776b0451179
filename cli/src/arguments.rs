//! The command line.

use crate::commands::profile::Wanted;
use crate::commands::sheets::Sheets;
use crate::commands::stations::Form;
use crate::commands::stops::Every;
use crate::commands::table::Spiral;
use crate::edition;
use crate::help;
use crate::quantity::{length_in_metres, number};
use std::borrow::Cow;
use std::ffi::{OsStr, OsString};
use std::os::unix::ffi::OsStrExt;

/// What the arguments ask for.
pub enum Request {
    Help(&'static str),
    Version,
    Stations {
        form: Form,
        sheets: Sheets,
    },
    Pegs {
        form: Form,
        every: Every,
        sheets: Sheets,
    },
    Profile {
        wanted: Wanted,
        texts: Sheets,
    },
    Elements {
        sheets: Sheets,
    },
    Check {
        sheets: Sheets,
    },
    Convert {
        to: u32,
        sheets: Sheets,
    },
    Make {
        edition: Option<u32>,
        text: OsString,
        sheet: OsString,
    },
    Show {
        sheet: OsString,
    },
    Table {
        as_csv: bool,
        spiral: Option<Spiral>,
    },
}

#[derive(Clone, Copy, PartialEq, Eq)]
enum Subcommand {
    Stations,
    Pegs,
    Profile,
    Elements,
    Check,
    Convert,
    Make,
    Show,
    Table,
}

impl Subcommand {
    fn named(name: &str) -> Result<Subcommand, String> {
        match name {
            "stations" => Ok(Subcommand::Stations),
            "pegs" => Ok(Subcommand::Pegs),
            "profile" => Ok(Subcommand::Profile),
            "elements" => Ok(Subcommand::Elements),
            "check" => Ok(Subcommand::Check),
            "convert" => Ok(Subcommand::Convert),
            "make" => Ok(Subcommand::Make),
            "show" => Ok(Subcommand::Show),
            "table" => Ok(Subcommand::Table),
            _ => Err(format!("{name} is no subcommand\n{}", help::USAGE)),
        }
    }

    fn help(self) -> &'static str {
        match self {
            Subcommand::Stations => help::STATIONS,
            Subcommand::Pegs => help::PEGS,
            Subcommand::Profile => help::PROFILE,
            Subcommand::Elements => help::ELEMENTS,
            Subcommand::Check => help::CHECK,
            Subcommand::Convert => help::CONVERT,
            Subcommand::Make => help::MAKE,
            Subcommand::Show => help::SHOW,
            Subcommand::Table => help::TABLE,
        }
    }

    /// Whether it takes several sheets or texts, and so a list of them.
    fn takes_list(self) -> bool {
        match self {
            Subcommand::Stations
            | Subcommand::Pegs
            | Subcommand::Profile
            | Subcommand::Elements
            | Subcommand::Check
            | Subcommand::Convert => true,
            Subcommand::Make | Subcommand::Show | Subcommand::Table => false,
        }
    }

    /// Whether it prints stations in a form that is asked for.
    fn takes_form(self) -> bool {
        self == Subcommand::Stations || self.takes_distance()
    }

    /// Whether it lists the multiples of a distance.
    fn takes_distance(self) -> bool {
        matches!(self, Subcommand::Pegs | Subcommand::Profile)
    }
}

/// The request, or what is wrong with the arguments.
pub fn read(words: &[OsString]) -> Result<Request, String> {
    let texts: Vec<Cow<str>> = words.iter().map(|word| word.to_string_lossy()).collect();
    let texts: Vec<&str> = texts.iter().map(|text| &**text).collect();
    match texts[..] {
        [] => Err(format!("a subcommand is missing\n{}", help::USAGE)),
        ["--help" | "-h" | "help"] => Ok(Request::Help(help::ALL)),
        ["--help" | "-h" | "help", name, ..] => Ok(Request::Help(Subcommand::named(name)?.help())),
        ["--version" | "-V", ..] => Ok(Request::Version),
        [name, ..] => {
            let subcommand = Subcommand::named(name)?;
            let told = |problem| format!("{problem}; see pokyandi {name} --help");
            let words = Words::read(subcommand, &words[1..]).map_err(told)?;
            words.request(subcommand).map_err(told)
        }
    }
}

/// The words after a subcommand.
#[derive(Default)]
struct Words {
    names: Vec<OsString>,
    form: Option<Form>,
    every: Option<Every>,
    from: Option<u64>,
    to: Option<u64>,
    edition: Option<u32>,
    list: Option<OsString>,
    wants_help: bool,
}

impl Words {
    fn read(subcommand: Subcommand, words: &[OsString]) -> Result<Words, String> {
        let mut read = Words::default();
        let mut rest = words.iter();
        while let Some(word) = rest.next() {
            let (option, joined) = parts_of(word);
            let mut value = || {
                let next = joined.map(OsStr::to_os_string);
                let next = next.or_else(|| rest.next().cloned());
                next.ok_or(format!("{option} lacks its value"))
            };
            match &*option {
                "--as" if subcommand.takes_form() => {
                    once(&option, &mut read.form, form(&value()?)?)?;
                }
                "--as" if subcommand == Subcommand::Table => {
                    once(&option, &mut read.form, csv(&value()?)?)?;
                }
                "--every" if subcommand.takes_distance() => {
                    once(&option, &mut read.every, every(&value()?)?)?;
                }
                "--from" if subcommand == Subcommand::Profile => {
                    once(&option, &mut read.from, station(&option, &value()?)?)?;
                }
                "--to" if subcommand == Subcommand::Profile => {
                    once(&option, &mut read.to, station(&option, &value()?)?)?;
                }
                "--to" if subcommand == Subcommand::Convert => {
                    once(&option, &mut read.edition, edition(&option, &value()?)?)?;
                }
                "--edition" if subcommand == Subcommand::Make => {
                    once(&option, &mut read.edition, edition(&option, &value()?)?)?;
                }
                "--list" if subcommand.takes_list() => once(&option, &mut read.list, value()?)?,
                "--help" | "-h" if joined.is_none() => read.wants_help = true,
                "--" if joined.is_none() => read.names.extend(rest.by_ref().cloned()),
                "-" => read.names.push(word.clone()),
                _ if option.starts_with('-') => return Err(format!("{option} is no option here")),
                _ => read.names.push(word.clone()),
            }
        }
        Ok(read)
    }

    fn request(mut self, subcommand: Subcommand) -> Result<Request, String> {
        if self.wants_help {
            return Ok(Request::Help(subcommand.help()));
        }
        let form = self.form.unwrap_or(Form::Metres);
        let every = self.every.take().unwrap_or(Every::USUAL);
        match subcommand {
            Subcommand::Stations => Ok(Request::Stations {
                form,
                sheets: self.sheets_or(Some("-"))?,
            }),
            Subcommand::Pegs => Ok(Request::Pegs {
                form,
                every,
                sheets: self.sheets_or(Some("-"))?,
            }),
            Subcommand::Profile => Ok(Request::Profile {
                wanted: Wanted {
                    form,
                    every,
                    from: self.from,
                    to: self.to,
                },
                texts: self.sheets_or(Some("-"))?,
            }),
            Subcommand::Elements => Ok(Request::Elements {
                sheets: self.sheets_or(None)?,
            }),
            Subcommand::Check => Ok(Request::Check {
                sheets: self.sheets_or(None)?,
            }),
            Subcommand::Convert => {
                let to = self.edition.ok_or("--to is missing, the edition")?;
                let sheets = self.sheets_or(None)?;
                Ok(Request::Convert { to, sheets })
            }
            Subcommand::Make => {
                let edition = self.edition;
                let [text, sheet] = self.names("a text and a sheet are wanted")?;
                Ok(Request::Make {
                    edition,
                    text,
                    sheet,
                })
            }
            Subcommand::Show => {
                let [sheet] = self.names("one sheet is wanted")?;
                Ok(Request::Show { sheet })
            }
            Subcommand::Table => Ok(Request::Table {
                as_csv: form == Form::Csv,
                spiral: self.spiral()?,
            }),
        }
    }

    /// The sheets that are named or listed; where none is, the usual one.
    fn sheets_or(self, usual: Option<&str>) -> Result<Sheets, String> {
        match (self.list, self.names.is_empty(), usual) {
            (None, false, _) => Ok(Sheets::Named(self.names)),
            (Some(list), true, _) => Ok(Sheets::Listed(list)),
            (Some(_), false, _) => Err("files or a list of them are wanted, not both".into()),
            (None, true, Some(usual)) => Ok(Sheets::Named(vec![usual.into()])),
            (None, true, None) => Err("a sheet is missing".into()),
        }
    }

    /// The spiral that is looked up, where one is.
    fn spiral(self) -> Result<Option<Spiral>, String> {
        if self.names.is_empty() {
            return Ok(None);
        }
        let [thousandth, length] = self.names("an angle and a length are wanted, or neither")?;
        let thousandth = number(&thousandth.to_string_lossy(), "thousandths");
        Ok(Some(Spiral {
            thousandth: thousandth?.value,
            length: length_in_metres(&length.to_string_lossy())?.value,
        }))
    }

    /// Exactly as many names.
    fn names<const N: usize>(self, wanted: &str) -> Result<[OsString; N], String> {
        self.names.try_into().map_err(|_| wanted.into())
    }
}

/// Puts the value of an option into its place, which must be free.
fn once<T>(option: &str, place: &mut Option<T>, value: T) -> Result<(), String> {
    match place.replace(value) {
        None => Ok(()),
        Some(_) => Err(format!("{option} is given twice")),
    }
}

/// An option, and the value that is joined to it by `=`.
fn parts_of(word: &OsStr) -> (Cow<'_, str>, Option<&OsStr>) {
    let bytes = word.as_bytes();
    match bytes.iter().position(|byte| *byte == b'=') {
        Some(end) if bytes.starts_with(b"--") => (
            String::from_utf8_lossy(&bytes[..end]),
            Some(OsStr::from_bytes(&bytes[end + 1..])),
        ),
        _ => (word.to_string_lossy(), None),
    }
}

fn form(name: &OsStr) -> Result<Form, String> {
    let name = name.to_string_lossy();
    Form::named(&name).ok_or(format!("--as takes metres, km, estaca or csv, not {name}"))
}

/// The one form of a table that is asked for.
fn csv(name: &OsStr) -> Result<Form, String> {
    let name = name.to_string_lossy();
    let csv = Form::named(&name).filter(|form| *form == Form::Csv);
    csv.ok_or(format!("--as takes csv, not {name}"))
}

fn every(word: &OsStr) -> Result<Every, String> {
    Every::read(&word.to_string_lossy()).map_err(|words| format!("--every {words}"))
}

fn edition(option: &str, word: &OsStr) -> Result<u32, String> {
    let word = word.to_string_lossy();
    let edition = word.parse().ok().and_then(edition::numbered);
    edition.ok_or_else(|| format!("{option} takes {}, not {word}", edition::names()))
}

/// A station of mm, in metres where it names no unit.
fn station(option: &str, word: &OsStr) -> Result<u64, String> {
    let station = length_in_metres(&word.to_string_lossy());
    let station = station.map_err(|words| format!("{option} {words}"))?;
    Ok(station.value)
}
