//! The findings of the search as a table for a person.

use crate::accuracy::{CurveRecord, Extremes, LineRecord, Place, BOUNDS, NAMES, STATION_BOUND};
use crate::curve::Curve;
use crate::search::Findings;

/// The whole table, line by line.
pub fn accuracy_table(findings: &Findings) -> Vec<String> {
    let mut table = curve_rows(&findings.curves);
    table.push(String::new());
    table.extend(station_rows(&findings.lines));
    table.push(String::new());
    table.extend(length_rows(&findings.lines));
    table
}

/// A row of differences: name, bound, then figure and place on either side.
fn row(columns: [&str; 6]) -> String {
    let [name, bound, below, below_at, above, above_at] = columns;
    let text = format!("{name:23} {bound:>5} {below:>13}  {below_at:34} {above:>13}  {above_at}");
    text.trim_end().to_string()
}

/// A row of differences with figures.
fn row_of<T>(name: &str, bound: &str, found: &Extremes<T>, at: impl Fn(&T) -> String) -> String {
    let below = figure_and_place(&found.least, 3, &at);
    let above = figure_and_place(&found.greatest, 3, &at);
    row([name, bound, &below.0, &below.1, &above.0, &above.1])
}

/// The figure with so many decimals, and its place; a dash where nothing was
/// seen.
fn figure_and_place<T>(
    found: &Option<(f64, T)>,
    decimals: usize,
    at: impl Fn(&T) -> String,
) -> (String, String) {
    match found {
        Some((number, place)) => (format!("{number:.decimals$}"), at(place)),
        None => ("-".to_string(), String::new()),
    }
}

fn curve_rows(record: &CurveRecord) -> Vec<String> {
    let mut rows = vec![
        "curves: rule minus exact, µm".to_string(),
        row([
            "",
            "bound",
            "largest below",
            "at A R L",
            "largest above",
            "at A R L",
        ]),
    ];
    for (i, name) in NAMES.into_iter().enumerate() {
        let bound = BOUNDS.get(i).map_or(String::new(), f64::to_string);
        rows.push(row_of(
            name,
            &bound,
            &record.differences[i],
            Curve::to_string,
        ));
    }
    rows
}

fn station_rows(record: &LineRecord) -> Vec<String> {
    let bound = STATION_BOUND.to_string();
    vec![
        format!(
            "lines: {} accepted, {} refused 14, {} refused 15; stations, rule minus exact, µm",
            record.accepted, record.refused_14, record.refused_15
        ),
        row(["", "bound", "largest below", "at", "largest above", "at"]),
        row_of("any station", "", &record.station, station_place),
        row_of(
            "of curve i, over i",
            &bound,
            &record.station_over_curve,
            station_place,
        ),
        row_of(
            "end of n curves, over n",
            &bound,
            &record.end_over_count,
            station_place,
        ),
    ]
}

/// The station's name and curve, how many curves there are, and the curve.
fn station_place(place: &Place) -> String {
    let n = place.line.curve_count();
    let i = place.curve_of_station();
    if place.index == 4 * n {
        return match n {
            0 => "END of 0".to_string(),
            _ => format!("END of {n}, {}", place.line.curve(i)),
        };
    }
    let name = ["TS", "SC", "CS", "ST"][place.index % 4];
    format!("{name} {i} of {n}, {}", place.line.curve(i))
}

fn length_rows(record: &LineRecord) -> Vec<String> {
    vec![
        "lines: exact lengths, mm".to_string(),
        length_row(
            "shortest straight accepted",
            &record.accepted_straight.least,
            straight_place,
        ),
        length_row(
            "longest straight refused 15",
            &record.refused_straight.greatest,
            straight_place,
        ),
        length_row(
            "shortest arc accepted",
            &record.accepted_arc.least,
            arc_place,
        ),
        length_row(
            "longest arc refused 14",
            &record.refused_arc.greatest,
            arc_place,
        ),
    ]
}

/// A row of an exact length.
fn length_row(name: &str, found: &Option<(f64, Place)>, at: fn(&Place) -> String) -> String {
    let (length, place) = figure_and_place(found, 6, at);
    format!("{name:27} {length:>13}  {place}")
        .trim_end()
        .to_string()
}

/// The straight, how many curves there are, and the curves at its ends.
fn straight_place(Place { line, index: i }: &Place) -> String {
    let n = line.curve_count();
    let ends = [*i, i + 1].into_iter().filter(|i| (1..=n).contains(i));
    let curves: Vec<String> = ends.map(|i| line.curve(i).to_string()).collect();
    let name = format!("straight {i} of {n}, {}", curves.join(" and "));
    name.trim_end_matches(", ").to_string()
}

/// The curve of the arc, and how many curves there are.
fn arc_place(Place { line, index: i }: &Place) -> String {
    format!("curve {i} of {}, {}", line.curve_count(), line.curve(*i))
}

#[cfg(test)]
mod tests {
    use super::*;
    use crate::line::Line;

    fn empty() -> Findings {
        Findings {
            curves: CurveRecord::empty(),
            lines: LineRecord::empty(),
        }
    }

    /// The words of the row with this name.
    fn words(table: &[String], name: &str) -> Vec<String> {
        let row = table.iter().find(|row| row.starts_with(name)).unwrap();
        row[name.len()..]
            .split_whitespace()
            .map(str::to_string)
            .collect()
    }

    #[test]
    fn case_1() {
        let mut findings = empty();
        findings.curves.see(Line::case_1().curve(1));
        findings.lines.see(&Line::case_1());
        let table = accuracy_table(&findings);
        let curve = "177764 350000 40000";
        let check = |name: &str, expected: String| {
            assert_eq!(words(&table, name).join(" "), expected);
        };
        check("k ", format!("30 0.673 {curve} 0.673 {curve}"));
        check("D - 2 TT ", format!("-2.351 {curve} -2.351 {curve}"));
        check(
            "of curve i, over i ",
            format!("700 -1.291 CS 1 of 1, {curve} -1.060 TS 1 of 1, {curve}"),
        );
        check(
            "shortest straight accepted ",
            format!("219010.721060 straight 1 of 1, {curve}"),
        );
        check(
            "shortest arc accepted ",
            format!("261638.467231 curve 1 of 1, {curve}"),
        );
        check("longest arc refused 14 ", "-".to_string());
    }

    #[test]
    fn nothing_seen() {
        let table = accuracy_table(&empty());
        assert_eq!(words(&table, "TT "), ["300", "-", "-"]);
        assert_eq!(words(&table, "any station "), ["-", "-"]);
        assert!(table.iter().all(|row| row.trim_end() == row));
    }

    #[test]
    fn places() {
        let curve = Line::case_1().curve(1);
        let place = |n: usize, index| {
            let line = Line::new(70, 8, 0, &[], &vec![curve; n]);
            Place { line, index }
        };
        let station = |n, index| station_place(&place(n, index));
        assert_eq!(station(0, 0), "END of 0");
        assert_eq!(station(2, 8), format!("END of 2, {curve}"));
        assert_eq!(station(2, 7), format!("ST 2 of 2, {curve}"));
        let straight = straight_place(&place(2, 1));
        assert_eq!(straight, format!("straight 1 of 2, {curve} and {curve}"));
        assert_eq!(straight_place(&place(0, 0)), "straight 0 of 0");
    }
}
