//! Prints the element under each station of a packed sheet, or why it is refused.
//!
//!     peg FILE STATION..     a station is in metres, with six decimals at most
//!
//! Exit status: 0 all are printed, 1 one is refused, 2 the sheet cannot be read, or
//! a station is none.

mod show;

use pokyandi::{peg, Refusal, PEG_NUMBERS};
use show::{told, with_sheet};
use std::env;
use std::process::{exit, ExitCode};

fn main() -> ExitCode {
    with_sheet("peg", |sheet| {
        let mut printed = Ok(());
        for word in env::args_os().skip(2) {
            let word = word.to_string_lossy();
            let Some(station) = station(&word) else {
                eprintln!("peg: {word}: no station in metres");
                exit(2);
            };
            printed = printed.and(print_peg(sheet, station));
        }
        printed
    })
}

/// The station of a word in µm.
fn station(word: &str) -> Option<u64> {
    let (whole, decimals) = word.split_once('.').unwrap_or((word, ""));
    let is_number = |text: &str| text.bytes().all(|byte| byte.is_ascii_digit());
    let fits = (1..=12).contains(&whole.len()) && decimals.len() <= 6;
    match fits && is_number(whole) && is_number(decimals) {
        true => format!("{whole}{decimals:0<6}").parse().ok(),
        false => None,
    }
}

fn print_peg(sheet: &[u8], station: u64) -> Result<(), Refusal> {
    let mut numbers = [0; PEG_NUMBERS];
    told(pokyandi::peg(sheet, station, &mut numbers))?;
    let kind = match numbers[peg::KIND] {
        peg::STRAIGHT => "straight",
        peg::SPIRAL_IN => "spiral in",
        peg::ARC => "arc",
        _ => "spiral out",
    };
    let [length, x, y] = [peg::LENGTH, peg::X, peg::Y].map(|i| metres(numbers[i]));
    let number = numbers[peg::NUMBER];
    println!("{kind} {number}, length {length}, x {x}, y {y}");
    Ok(())
}

/// µm in metres.
fn metres(um: i64) -> String {
    let sign = if um < 0 { "-" } else { "" };
    let size = um.unsigned_abs();
    format!("{sign}{}.{:06}", size / 1_000_000, size % 1_000_000)
}
