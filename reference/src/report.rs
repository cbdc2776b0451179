//! The station program: what it prints for the bytes of standard input
//! (document 01, The station program).

use crate::line::MOST_CURVES;
use crate::refusal::Refusal;
use crate::sheet;
use crate::stations::stations;

/// Most bytes that the program reads; further ones do not count.
pub const MOST_READ: usize = 707;

/// Length of the row that is lent to the calculator: enough for every line.
const ROW_LENGTH: usize = 4 * MOST_CURVES + 1;

/// The first line of a list of stations.
const HEADING: &str = "POINT CURVE STATION\n";
/// The names of a curve's four points, in their order.
const CURVE_POINTS: [&str; 4] = ["TS", "SC", "CS", "ST"];
/// The name of the last point, which has curve 0.
const END: &str = "END";
/// The first word of a refusal.
const REFUSED: &str = "REFUSED";

/// What the program prints when this is its standard input: the stations, or
/// the refusal.
pub fn report(input: &[u8]) -> String {
    match row(input) {
        Ok(row) => station_list(&row),
        Err(refusal) => format!("{refusal}\n"),
    }
}

/// The stations of the sheet on standard input, µm. The reader refuses first,
/// then the calculator.
pub fn row(input: &[u8]) -> Result<Vec<u64>, Refusal> {
    let line = sheet::line_of(&input[..input.len().min(MOST_READ)])?;
    let mut row = vec![0; ROW_LENGTH];
    let count = stations(&line, &mut row)?;
    row.truncate(count);
    Ok(row)
}

/// The heading, then one line of text for each station.
fn station_list(row: &[u64]) -> String {
    let mut text = String::from(HEADING);
    for (i, station) in row.iter().enumerate() {
        let (name, curve) = if i + 1 == row.len() {
            (END, 0)
        } else {
            (CURVE_POINTS[i % 4], i / 4 + 1)
        };
        text += &format!("{name} {curve} {}\n", metres(*station));
    }
    text
}

/// A station in µm, as metres with six decimals.
fn metres(station: u64) -> String {
    format!("{}.{:06}", station / 1_000_000, station % 1_000_000)
}

/// The single reports of a text in which they stand one after the other; nothing
/// when the last one has no end.
pub fn split_reports(text: &str) -> Option<Vec<&str>> {
    let mut reports = Vec::new();
    let mut rest = text;
    while !rest.is_empty() {
        let (report, next) = rest.split_at(report_length(rest)?);
        reports.push(report);
        rest = next;
    }
    Some(reports)
}

/// Bytes of the report at the front of a text: it ends with its refusal or with
/// its last point.
fn report_length(text: &str) -> Option<usize> {
    let mut length = 0;
    for line in text.split_inclusive('\n') {
        length += line.len();
        if line.ends_with('\n') && is_last(line) {
            return Some(length);
        }
    }
    None
}

/// Whether a report ends with this line of text.
fn is_last(line: &str) -> bool {
    matches!(line.split(' ').next(), Some(END | REFUSED))
}

/// The refusal that a report tells; nothing for a list of stations.
pub fn refusal_number(report: &str) -> Option<u8> {
    let mut words = report.split(' ');
    match words.next() {
        Some(REFUSED) => words.next()?.parse().ok(),
        _ => None,
    }
}

#[cfg(test)]
mod tests {
    use super::*;
    use crate::line::{Line, LEFT};
    use crate::samples::dice::Dice;
    use crate::samples::roads::road;
    use crate::samples::sheet_fields::sheet_of;

    const CASE_1: &str = "\
POINT CURVE STATION
TS 1 319.010720
SC 1 359.010720
CS 1 620.649187
ST 1 660.649187
END 0 879.659907
";
    const CASE_9: &str = "POINT CURVE STATION\nEND 0 500.000000\n";

    #[test]
    fn case_1() {
        assert_eq!(report(&sheet_of(&Line::case_1())), CASE_1);
    }

    #[test]
    fn side_is_not_printed() {
        let mut line = Line::case_1();
        line.sides[0] = LEFT;
        assert_eq!(report(&sheet_of(&line)), CASE_1);
    }

    #[test]
    fn cases_9_and_10() {
        let mut sheet = sheet_of(&Line::case_9());
        assert_eq!(report(&sheet), CASE_9);
        sheet[9] = 0x01;
        assert_eq!(report(&sheet), "REFUSED 7 0\n");
        assert_eq!(report(&sheet[..9]), "REFUSED 1 0\n");
        assert_eq!(report(&[]), "REFUSED 1 0\n");
    }

    #[test]
    fn refusals_of_the_calculator() {
        let mut line = Line::case_1();
        line.distances[0] = 180_990;
        assert_eq!(report(&sheet_of(&line)), "REFUSED 15 0\n");
        line.curves[0].l = 39_999;
        assert_eq!(report(&sheet_of(&line)), "REFUSED 13 1\n");
    }

    #[test]
    fn points_of_a_full_line() {
        let line = road(&mut Dice::new(1), 64);
        let text = report(&sheet_of(&line));
        assert_eq!(text.lines().count(), 1 + 257);
        let points: Vec<&str> = text
            .lines()
            .skip(1)
            .map(|line| line.rsplit_once(' ').unwrap().0)
            .collect();
        assert_eq!(points[..5], ["TS 1", "SC 1", "CS 1", "ST 1", "TS 2"]);
        assert_eq!(points[252..], ["TS 64", "SC 64", "CS 64", "ST 64", "END 0"]);
    }

    #[test]
    fn metres_of_stations() {
        assert_eq!(metres(0), "0.000000");
        assert_eq!(metres(1), "0.000001");
        assert_eq!(metres(999_999), "0.999999");
        assert_eq!(metres(1_000_000), "1.000000");
        assert_eq!(metres(1_500_000_020_300), "1500000.020300");
    }

    #[test]
    fn only_707_bytes_count() {
        let full = sheet_of(&road(&mut Dice::new(1), 64));
        let mut longer = full.clone();
        longer.resize(707, 0);
        assert_eq!(report(&longer), "REFUSED 7 0\n");
        longer.resize(3_000, 0xFF);
        assert_eq!(report(&longer), "REFUSED 7 0\n");
        assert_eq!(row(&full).map(|row| row.len()), Ok(257));
    }

    #[test]
    fn reports_one_after_the_other() {
        let reports = [CASE_1, "REFUSED 15 0\n", "REFUSED 1 0\n", CASE_9];
        let text = reports.concat();
        assert_eq!(split_reports(&text).unwrap(), reports);
        assert_eq!(split_reports("").unwrap().len(), 0);
        for cut in [1, CASE_9.len() - 3] {
            assert_eq!(split_reports(&text[..text.len() - cut]), None);
        }
        let numbers = reports.map(refusal_number);
        assert_eq!(numbers, [None, Some(15), Some(1), None]);
    }
}
