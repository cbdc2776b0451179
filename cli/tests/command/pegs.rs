//! The list of pegs: every line is what the library answers, and none is missing.

use crate::run::{run, run_in_shell, run_with_input, sample_files, samples};
use crate::several::{counted, micrometres};
use pokyandi::{LINE_NUMBERS, PEG_NUMBERS, ROW_NUMBERS};
use std::collections::BTreeMap;
use std::fs;

const KINDS: [&str; 4] = ["straight", "spiral-in", "arc", "spiral-out"];

/// A sample that is accepted, with its start and its stations, µm.
struct Sample {
    path: String,
    sheet: Vec<u8>,
    start: u64,
    row: Vec<u64>,
}

fn accepted() -> Vec<Sample> {
    let sample = |path: std::path::PathBuf| {
        let sheet = fs::read(&path).unwrap();
        let (mut row, mut line) = ([0; ROW_NUMBERS], [0; LINE_NUMBERS]);
        let count = pokyandi::stations(&sheet, &mut row).ok()?;
        pokyandi::read(&sheet, &mut line).unwrap();
        Some(Sample {
            path: path.to_str()?.into(),
            sheet,
            start: 1_000 * u64::from(line[pokyandi::line::START]),
            row: row[..count].to_vec(),
        })
    };
    sample_files("sheet")
        .into_iter()
        .filter_map(sample)
        .collect()
}

/// The stations of the list, each with the points there.
fn expected(Sample { start, row, .. }: &Sample, every: u64) -> BTreeMap<u64, String> {
    let end = row[row.len() - 1];
    let multiples = (0..=end).step_by(every as usize);
    let multiples = multiples.filter(|station| station >= start);
    let mut stations: BTreeMap<u64, String> =
        multiples.map(|station| (station, String::new())).collect();
    stations.insert(*start, "START".into());
    let names = ["TS", "SC", "CS", "ST"].into_iter().cycle();
    let names = names.take(row.len() - 1).chain(["END"]);
    for (station, name) in row.iter().zip(names) {
        let points = stations.entry(*station).or_default();
        let mark = if points.is_empty() { "" } else { "=" };
        *points += &format!("{mark}{name}");
    }
    stations
}

/// The numbers of the library, from the cells element, number, length, x and y.
fn numbers_of(cells: &[&str]) -> [i64; PEG_NUMBERS] {
    let kind = KINDS.iter().position(|kind| *kind == cells[0]).unwrap();
    let um = |cell: &str| match cell.strip_prefix('-') {
        Some(size) => -(micrometres(size) as i64),
        None => micrometres(cell) as i64,
    };
    let number = cells[1].parse().unwrap();
    [
        kind as i64,
        number,
        um(cells[2]),
        um(cells[3]),
        um(cells[4]),
    ]
}

fn check_list(sample: &Sample, word: &str, every: u64) {
    let Sample { path, sheet, .. } = sample;
    let expected = expected(sample, every);
    let list = run(&["pegs", "--every", word, path]).text();
    let csv = run(&["pegs", "--every", word, "--as", "csv", path]).text();
    for text in [&list, &csv] {
        assert_eq!(text.lines().count(), expected.len() + 1, "{path}");
    }
    let lines = list.lines().zip(csv.lines()).skip(1);
    for ((station, points), (line, csv)) in expected.iter().zip(lines) {
        let mut numbers = [0; PEG_NUMBERS];
        pokyandi::peg(sheet, *station, &mut numbers).unwrap();
        let [cells, csv]: [Vec<&str>; 2] =
            [line.split_whitespace().collect(), csv.split(',').collect()];
        let shown = if points.is_empty() { "-" } else { points };
        assert_eq!((micrometres(cells[0]), cells[1]), (*station, shown));
        assert_eq!((numbers_of(&cells[2..]), cells.len()), (numbers, 7));
        assert_eq!(
            (csv[0], micrometres(csv[1]), csv[2]),
            (&**path, *station, &**points)
        );
        assert_eq!((numbers_of(&csv[3..]), csv.len()), (numbers, 8));
    }
}

#[test]
fn every_line_is_the_library_s_and_none_is_missing() {
    for sample in accepted() {
        check_list(&sample, "20m", 20_000_000);
        check_list(&sample, "7.3", 7_300_000);
    }
}

#[test]
fn every_form_has_the_same_lines() {
    for Sample { path, .. } in accepted() {
        let [metres, km, estaca] =
            ["metres", "km", "estaca"].map(|form| run(&["pegs", "--as", form, &path]).text());
        let widths = [&metres, &km, &estaca].map(|text| text.find(" POINT").unwrap());
        // Of estacas from 100,000 on, as 2,000 km are.
        let is_far = estaca.contains("200000 + ");
        assert_eq!(widths, [17, 17, if is_far { 18 } else { 17 }]);
        let others = km.lines().zip(estaca.lines());
        for (metres, (km, estaca)) in metres.lines().zip(others).skip(1) {
            let (metres, line) = metres.split_at(widths[0]);
            let (km, line_1) = km.split_at(widths[1]);
            let (estaca, line_2) = estaca.split_at(widths[2]);
            assert_eq!([line_1, line_2], [line; 2]);
            let station = micrometres(metres.trim());
            assert_eq!(counted(km.trim(), 1_000), station);
            assert_eq!(counted(estaca.trim(), 20), station);
        }
    }
}

#[test]
fn the_usual_distance_in_every_unit_and_from_standard_input() {
    let name = "stations/case-01.sheet";
    let sheet = fs::read(samples().join(name)).unwrap();
    let usual = run(&["pegs", name]);
    assert_eq!((usual.words.as_str(), usual.status), ("", Some(0)));
    for word in ["20m", "20", "20.000", "20,0m", "20000mm", "0+020km", "1+0e"] {
        assert_eq!(run(&["pegs", "--every", word, name]), usual, "{word}");
    }
    assert_eq!(run_with_input(&["pegs"], &sheet), usual);
    assert_eq!(run_with_input(&["pegs", "--every=20m", "-"], &sheet), usual);
    let km = run(&["pegs", "--every", "20000", name]);
    let words = "pokyandi: warning: --every 20000 is 20000.000 m; mm are written mm\n";
    assert_eq!((km.words.as_str(), km.status), (words, Some(0)));
    assert_eq!(km.out, run(&["pegs", "--every", "20000m", name]).out);
}

#[test]
fn refused_sheets_are_told_as_by_stations() {
    for path in sample_files("sheet") {
        let path = path.to_str().unwrap();
        let stations = run(&["stations", path]);
        if stations.status == Some(1) {
            assert_eq!(run(&["pegs", path]), stations);
            let csv = run(&["pegs", "--as", "csv", path]).text();
            let refused = stations.text();
            let row = format!("{path},,{},,,,,", refused.trim_end());
            assert_eq!(csv.lines().nth(1), Some(&*row));
        }
    }
}

#[test]
fn a_list_that_would_be_too_long_does_not_stop_the_others() {
    let [long, short] = ["stations/mountain-road.sheet", "stations/case-09.sheet"];
    let run = run(&["pegs", "--every", "10mm", long, short]);
    let words = format!(
        "pokyandi: {long}: more than 1000000 distances; --every may be 0.012 m or more here\n"
    );
    assert_eq!((run.words, run.status), (words, Some(2)));
    let text = String::from_utf8(run.out).unwrap();
    assert!(text.starts_with(&format!("SHEET {short}\n          STATION POINT ")));
    assert_eq!(text.lines().count(), 2 + 50_001);
}

#[test]
fn a_long_list_takes_little_memory() {
    let line = "ulimit -v 16384; pokyandi pegs --every 1mm stations/case-09.sheet | wc -c";
    let run = run_in_shell(&samples(), line);
    assert_eq!((run.words.as_str(), run.status), ("", Some(0)));
    assert!(run.text().trim().parse::<u64>().unwrap() > 32 << 20);
}

#[test]
fn progress_within_a_long_list() {
    // Without the program `script` there is no terminal to be had.
    if run_in_shell(&samples(), "command -v script").status == Some(0) {
        let line = "pokyandi pegs --every 100mm stations/mountain-road.sheet >/dev/null";
        let line = format!("script -qec '{line}' /dev/null");
        let shown = run_in_shell(&samples(), &line).text();
        assert!(shown.contains(" of 113611 pegs"), "{shown}");
    }
}
