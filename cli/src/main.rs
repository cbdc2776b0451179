//! The command `pokyandi`, for people: it reads arguments, sheets and plain
//! text, and prints. Stations, pegs, elements, heights, the lines of points and the
//! unit spiral table are numbers that a call of the proved library answered; a straight
//! is the difference of two stations, and the points of vertical curves lie half a
//! length from a vertex.

mod arguments;
mod bits;
mod commands;
mod console;
mod decimal;
mod edition;
mod explain;
mod field;
mod files;
mod help;
mod items;
mod limits;
mod line;
mod profile;
mod quantity;
mod signals;
mod survey;
mod text;

use arguments::Request;
use commands::{check, convert, elements, make, pegs, show, stations, table};
use console::{Console, Status};
use std::env;
use std::io;
use std::process::ExitCode;

fn main() -> ExitCode {
    let words: Vec<_> = env::args_os().skip(1).collect();
    let mut console = Console::new();
    let ended = match arguments::read(&words) {
        Ok(request) => answer(request, &mut console),
        Err(problem) => {
            console.say(&format!("pokyandi: {problem}"));
            Ok(Status::Failed)
        }
    };
    match ended.and_then(|status| console.finish().map(|()| status)) {
        Ok(status) => status.into(),
        Err(error) => {
            console.fail(&"standard output", &error);
            Status::Failed.into()
        }
    }
}

/// Does what is asked for. The error is that of standard output.
fn answer(request: Request, console: &mut Console) -> io::Result<Status> {
    match request {
        Request::Help(text) => console.print(text.as_bytes()).map(|()| Status::Done),
        Request::Version => version(console),
        Request::Stations { form, sheets } => stations::run(form, sheets, console),
        Request::Pegs {
            form,
            every,
            sheets,
        } => pegs::run(form, every, sheets, console),
        Request::Profile { wanted, texts } => commands::profile::run(wanted, texts, console),
        Request::Elements { sheets } => elements::run(sheets, console),
        Request::Check { sheets } => check::run(sheets, console),
        Request::Convert { to, sheets } => convert::run(to, sheets, console),
        Request::Make {
            edition,
            text,
            sheet,
        } => make::run(edition, &text, &sheet, console),
        Request::Show { sheet } => show::run(&sheet, console),
        Request::Table { as_csv, spiral } => table::run(as_csv, spiral, console),
    }
}

/// The versions of the command and of the library that it is linked with.
fn version(console: &mut Console) -> io::Result<Status> {
    let number = pokyandi::version();
    let [major, minor, patch] = [1_000_000, 1_000, 1].map(|unit| number / unit % 1_000);
    let command = env!("CARGO_PKG_VERSION");
    let text = format!("pokyandi {command}, library {major}.{minor}.{patch}\n");
    console.print(text.as_bytes()).map(|()| Status::Done)
}
