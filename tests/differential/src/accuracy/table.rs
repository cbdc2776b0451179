//! The table of what was watched. Figures are rounded towards their bounds.

use super::record::{Claim, Differences, Lengths};
use super::watched::Watched;

/// The whole table.
pub fn table(watched: &Watched, seed: u64) -> String {
    let mut rows = vec![counts(watched, seed)];
    rows.push(row([
        "library minus exact, um",
        "bound",
        "below",
        "above",
        "the larger at",
    ]));
    let differences = [
        &watched.elements[..],
        &watched.offsets,
        &watched.stations,
        &watched.stations_over,
    ];
    rows.extend(differences.concat().iter().map(difference_row));
    rows.push(row(["exact length, mm", "bound", "nearest", "", "at"]));
    let lengths = [
        &watched.accepted_straight,
        &watched.accepted_arc,
        &watched.refused_straight,
        &watched.refused_arc,
    ];
    rows.extend(lengths.map(length_row));
    rows.join("\n") + "\n"
}

fn counts(watched: &Watched, seed: u64) -> String {
    let lines = watched.lines();
    let [accepted, full, curves] = [watched.accepted, watched.full, watched.curves];
    let refused = format!(
        "{} refused 14, {} refused 15",
        watched.refused_14, watched.refused_15
    );
    format!(
        "{lines} lines, seed {seed}: {accepted} accepted ({full} of 64 curves), {refused}; \
         {curves} curves of accepted lines"
    )
}

fn row(columns: [&str; 5]) -> String {
    let [name, bound, first, second, at] = columns;
    let text = format!("{name:24} {bound:>6} {first:>12} {second:>12}  {at}");
    text.trim_end().to_string()
}

fn difference_row(seen: &Differences) -> String {
    let bound = seen.bound.map_or(String::new(), |bound| bound.to_string());
    let below = format!("{:.3}", floor(seen.below, 1e3));
    let above = format!("{:.3}", ceiling(seen.above, 1e3));
    row([seen.name, &bound, &below, &above, &seen.at])
}

fn length_row(lengths: &Lengths) -> String {
    let (bound, rounded): (String, fn(f64, f64) -> f64) = match lengths.claim {
        Claim::Longer(tenths) => (format!("> {}", tenth(tenths)), floor),
        Claim::Shorter(tenths) => (format!("< {}", tenth(tenths)), ceiling),
    };
    let (length, at) = match &lengths.nearest {
        Some((length, at)) => (format!("{:.6}", rounded(*length, 1e6)), at.as_str()),
        None => ("-".to_string(), ""),
    };
    row([lengths.name, &bound, &length, "", at])
}

/// Tenths as a decimal number.
fn tenth(tenths: u32) -> String {
    format!("{}.{}", tenths / 10, tenths % 10)
}

/// The next number below, in parts of 1 over `parts`.
fn floor(number: f64, parts: f64) -> f64 {
    (number * parts).floor() / parts
}

/// The next number above.
fn ceiling(number: f64, parts: f64) -> f64 {
    (number * parts).ceil() / parts
}

#[cfg(test)]
mod tests {
    use super::*;
    use crate::side::Library;
    use reference::line::Line;

    #[test]
    fn figures_are_rounded_towards_their_bounds() {
        assert_eq!([floor(-1.0001, 1e3), ceiling(1.0001, 1e3)], [-1.001, 1.001]);
        assert_eq!([floor(0.0, 1e3), ceiling(0.0, 1e3)], [0.0, 0.0]);
    }

    #[test]
    fn rows_of_case_1() {
        let mut watched = Watched::new();
        watched.see(&Library, &Line::case_1()).unwrap();
        let table = table(&watched, 3);
        let words = |name: &str| {
            let row = table.lines().find(|row| row.starts_with(name)).unwrap();
            row[name.len()..]
                .split_whitespace()
                .collect::<Vec<_>>()
                .join(" ")
        };
        let counts = "1 lines, seed 3: 1 accepted (0 of 64 curves), 0 refused 14, 0 refused 15; ";
        assert_eq!(words(counts), "1 curves of accepted lines");
        assert_eq!(words("TT "), "300 0.000 1.061 177764 350000 40000");
        assert!(words("peg x ").starts_with("4 -"));
        assert_eq!(words("CS / i "), "700 -1.291 0.000 curve 1 of 1");
        assert_eq!(
            words("arc, accepted "),
            "> 0.9 261638.467230 arc 1 of 1 curves, 177764 350000 40000"
        );
        assert_eq!(words("arc, refused 14 "), "< 1.1 -");
    }
}
