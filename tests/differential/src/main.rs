//! Holds the proved static library against the separately written reference: the
//! same inputs for both, and all that they answer and write compared; its
//! stations and elements against document 01's sums in fractions, and what it
//! gives for published examples.

mod accuracy;
mod arguments;
mod compare;
mod conversion_laws;
mod height_laws;
mod input;
mod inputs;
mod laws;
mod memory;
mod progress;
mod published;
mod published_heights;
mod published_lines;
mod run;
mod side;
#[cfg(test)]
mod spoilt;
mod tally;
mod unit_spiral_laws;

use arguments::{command_of, Command, USAGE};
use side::Library;
use std::io::{self, Write};
use std::process::ExitCode;

/// Exit status for arguments that are not understood.
const NOT_UNDERSTOOD: u8 = 2;

fn main() -> ExitCode {
    let arguments: Vec<String> = std::env::args_os()
        .skip(1)
        .map(|argument| argument.to_string_lossy().into_owned())
        .collect();
    match command_of(&arguments) {
        Ok(Command::Help) => print(true, USAGE),
        Ok(Command::Run { seed, count }) => run(seed, count),
        Ok(Command::Replay { seed, index }) => {
            let (agree, report) = run::replay(&Library, seed, index);
            print(agree, &report)
        }
        Ok(Command::Accuracy { seed, lines }) => {
            print_checked(accuracy::watch(&Library, seed, lines))
        }
        Ok(Command::Published) => print_checked(published()),
        Err(message) => {
            eprint!("differential: {message}\n\n{USAGE}");
            ExitCode::from(NOT_UNDERSTOOD)
        }
    }
}

/// The published elements, lines and heights.
fn published() -> Result<String, String> {
    let elements = published::check(&Library)?;
    let lines = published_lines::check(&Library)?;
    let heights = published_heights::check(&Library)?;
    Ok(elements + &lines + &heights)
}

fn run(seed: u64, count: u64) -> ExitCode {
    let tally = match run::run(&Library, seed, count) {
        Ok(tally) => tally,
        Err(report) => return print(false, &format!("the sides differ\n{report}")),
    };
    let missing = tally.missing();
    let mut text = tally.table();
    text.extend(missing.iter().map(|what| format!("never occurred: {what}")));
    if missing.is_empty() {
        text.push(format!("{} inputs, seed {seed}: all agree", tally.total()));
    }
    print(missing.is_empty(), &(text.join("\n") + "\n"))
}

/// Prints what was found, or what is wrong.
fn print_checked(found: Result<String, String>) -> ExitCode {
    match found {
        Ok(text) => print(true, &text),
        Err(report) => print(false, &report),
    }
}

/// Prints the text. The exit status is 0 where all is well and it was printed.
fn print(well: bool, text: &str) -> ExitCode {
    let printed = io::stdout().write_all(text.as_bytes()).is_ok();
    if well && printed {
        ExitCode::SUCCESS
    } else {
        ExitCode::FAILURE
    }
}
