//! Prints the heights of a profile at its start and where each of its curves begins,
//! has its vertex and ends; then why it is refused where a curve is shorter, and the
//! height of a station before the start.
//!
//! Exit status: 0 the heights are printed, 1 the profile is refused.

use pokyandi::{profile, vertex, Refusal, HEIGHT_NUMBERS};
use std::process::ExitCode;

/// Speed in km/h, start and its height in mm, the first grade in millionths; of each
/// vertex station, grade and curve length.
#[rustfmt::skip]
const PROFILE: [i64; 13] = [
    40, 12_340_500, 845_250, -35_000,
    12_520_000, 42_500, 80_000,
    13_140_000, -60_000, 120_000,
    13_420_000, -15_000, 60_000,
];

fn main() -> ExitCode {
    if print_heights(&PROFILE).is_err() {
        return ExitCode::FAILURE;
    }
    let start = PROFILE[profile::START];
    let _ = print_height("before", &PROFILE, start - 1);
    let mut numbers = PROFILE;
    numbers[profile::vertex(2) + vertex::LENGTH] = 50_000;
    let _ = print_height("curve 2 of 50 m", &numbers, start);
    ExitCode::SUCCESS
}

fn print_heights(numbers: &[i64]) -> Result<(), Refusal> {
    print_height("start", numbers, numbers[profile::START])?;
    let vertices = (numbers.len() - 4) / 3;
    for i in 1..=vertices {
        let numbers_of_vertex = &numbers[profile::vertex(i)..];
        let station = numbers_of_vertex[vertex::STATION];
        let half = numbers_of_vertex[vertex::LENGTH] / 2;
        print_height("begin", numbers, station - half)?;
        print_height("vertex", numbers, station)?;
        print_height("end", numbers, station + half)?;
    }
    Ok(())
}

/// Prints a height, or the refusal, which it answers.
fn print_height(name: &str, numbers: &[i64], station: i64) -> Result<(), Refusal> {
    let mut height = [0; HEIGHT_NUMBERS];
    let answer = pokyandi::height(numbers, station as u64, &mut height);
    let told = match &answer {
        Ok(_) => metres(height[0]),
        Err(refusal) => refusal.to_string(),
    };
    println!("{name} {}: {told}", metres(station));
    answer.map(drop)
}

/// mm in metres.
fn metres(mm: i64) -> String {
    let sign = if mm < 0 { "-" } else { "" };
    let size = mm.unsigned_abs();
    format!("{sign}{}.{:03}", size / 1_000, size % 1_000)
}
