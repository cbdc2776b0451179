//! The table of times.

use crate::measure::Times;

/// What stands beside the library.
const OTHERS: &[&str] = if cfg!(before) {
    &["reference, ns", "C, ns", "before, ns"]
} else {
    &["reference, ns", "C, ns"]
};

pub fn print_heading() {
    let others = OTHERS
        .iter()
        .map(|name| format!(" {name:>13} {:>7}  {:<16}", "ratio", "its middle half"));
    let row = format!("{:<42} {:>12}", "call", "library, ns") + &others.collect::<String>();
    println!("{}", row.trim_end());
}

/// A row; the others are in the order of the heading, as far as they are timed.
pub fn print_row(title: &str, library: &Times, others: &[Option<&Times>]) {
    let own = library.median();
    let others = others.iter().map(|other| match other {
        Some(other) => beside(library, other),
        None => format!("{:40}", ""),
    });
    let row = format!("{title:<42} {own:>12.1}") + &others.collect::<String>();
    println!("{}", row.trim_end());
}

/// Another time, the ratio of the library's to it, and the ratio's middle half.
fn beside(library: &Times, other: &Times) -> String {
    let ratio = library.median() / other.median();
    let half = middle_half(library, other);
    format!(" {:>13.1} {ratio:>7.2}  {half:<16}", other.median())
}

/// Of the ratios by round.
fn middle_half(times: &Times, others: &Times) -> String {
    let (low, high) = times.ratio_quartiles(others);
    format!("{low:.2} to {high:.2}")
}

/// The ratio of the medians, and the middle half of the ratios by round.
pub fn print_ratio(name: &str, times: &Times, others: &Times) {
    let ratio = times.median() / others.median();
    let half = middle_half(times, others);
    println!("  {name}: {ratio:.2}, its middle half {half}");
}

/// The time of each side's call and how many it makes in a second; the ratio of the
/// library's time, which stands first, to each of the others.
pub fn print_rates(names: &[&str], times: &[Times]) {
    println!(
        "  {:<12} {:>10} {:>16} {:>7}  its middle half",
        "", "ns a sheet", "sheets a second", "ratio"
    );
    let library = &times[0];
    for (i, (name, times)) in names.iter().zip(times).enumerate() {
        let time = times.median();
        let rate = 1e9 / time;
        let ratio = match i {
            0 => String::new(),
            _ => format!(
                "{:>7.2}  {}",
                library.median() / time,
                middle_half(library, times)
            ),
        };
        let row = format!("  {name:<12} {time:>10.1} {rate:>16.0} {ratio}");
        println!("{}", row.trim_end());
    }
}
