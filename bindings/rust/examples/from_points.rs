//! Prints the line through four points: its distances, and side and deflection of
//! its curves; then why it is refused where a PI lies halfway between its
//! neighbours.
//!
//! Exit status: 0 the line is printed, 1 it is refused.

use pokyandi::{curve, line, Refusal, LINE_NUMBERS};
use std::process::ExitCode;

/// km/h
const SPEED: u32 = 40;
/// percent
const CROSSFALL: u32 = 8;
/// mm
const START: u32 = 12_340_500;
/// East and north of start, PI 1, PI 2 and end, mm.
#[rustfmt::skip]
const POINTS: [i64; 8] = [-120_250, 85_000, 90_100, 259_120, 332_230, 241_755, 528_000, 408_900];
/// Radius and spiral of PI 1 and PI 2, mm.
const CURVES: [u32; 4] = [120_000, 40_000, 100_000, 40_000];

fn main() -> ExitCode {
    match make_line(&POINTS) {
        Ok(numbers) => print_line(&numbers),
        Err(refusal) => {
            println!("{refusal}");
            return ExitCode::FAILURE;
        }
    }
    let mut points = POINTS;
    points[2] = (points[0] + points[4]) / 2;
    points[3] = (points[1] + points[5]) / 2;
    if let Err(refusal) = make_line(&points) {
        println!("PI 1 halfway: {refusal}");
    }
    ExitCode::SUCCESS
}

fn make_line(points: &[i64]) -> Result<[u32; LINE_NUMBERS], Refusal> {
    let mut numbers = [0; LINE_NUMBERS];
    pokyandi::from_points(SPEED, CROSSFALL, START, points, &CURVES, &mut numbers)?;
    Ok(numbers)
}

fn print_line(numbers: &[u32]) {
    for i in 0..=numbers[line::CURVES] as usize {
        if i > 0 {
            print_curve(i, &numbers[line::curve(i)..]);
        }
        println!("distance {i}: {} mm", numbers[line::distance(i)]);
    }
}

fn print_curve(i: usize, numbers: &[u32]) {
    let side = match numbers[curve::SIDE] {
        curve::LEFT => "left",
        _ => "right",
    };
    let deflection = numbers[curve::DEFLECTION];
    println!("curve {i}: {side}, deflection {deflection} seconds");
}
