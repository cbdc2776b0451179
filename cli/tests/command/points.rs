//! Sheets that are made of points.

use crate::run::{run, run_with_input, samples, Folder, Run};
use std::fs;

/// The points of `samples/ridge.txt`.
const RIDGE: &str = "\
speed 40
crossfall 8
start 12340500
point -120250 85000
point 90100 259120 120000 40000
point 332230 241755 100000 40000
point 528000 408900
";

/// What its sheet shows.
const SHOWN: &str = "\
edition 1
speed 40km/h
crossfall 8%
start 12+340.500km
distance 273.065m
curve right 43d43m07s 120.000m 40.000m  # 1
distance 242.751m
curve left 44d35m31s 100.000m 40.000m  # 2
distance 257.416m
";

const FOUND: &str = "\
standard input:4: distance 0: 273.065 m
standard input:5: curve 1: right 43°43'07\"
standard input:5: distance 1: 242.751 m
standard input:6: curve 2: left 44°35'31\"
standard input:6: distance 2: 257.416 m
";

fn make(text: &str) -> Run {
    run_with_input(&["make", "-", "-"], text.as_bytes())
}

/// What is shown of the sheet that is made of a text.
fn shown(text: &str) -> String {
    let made = make(text);
    assert_eq!(made.status, Some(0), "{text}: {}", made.words);
    run_with_input(&["show", "-"], &made.out).text()
}

/// The text with other points, its PIs those of `RIDGE`.
fn with_points(changed: impl Fn([i64; 2]) -> [i64; 2]) -> String {
    let changed_line = |line: &str| {
        let mut words: Vec<String> = line.split(' ').map(String::from).collect();
        if words[0] == "point" {
            let point = [1, 2].map(|i| words[i].parse().unwrap());
            let [east, north] = changed(point).map(|coordinate| coordinate.to_string());
            words.splice(1..3, [east, north]);
        }
        words.join(" ") + "\n"
    };
    RIDGE.lines().map(changed_line).collect()
}

#[test]
fn distances_and_deflections_are_found() {
    let made = make(RIDGE);
    assert_eq!((made.words.as_str(), made.status), (FOUND, Some(0)));
    assert_eq!(run_with_input(&["show", "-"], &made.out).text(), SHOWN);
    assert_eq!(run(&["make", "ridge.txt", "-"]).out, made.out);
}

#[test]
fn the_forms_of_coordinates() {
    let metres = RIDGE
        .replace("-120250 85000", "-120.25m +85m")
        .replace("90100 259120", "+0+090.1km 12+19,120e");
    let signs = RIDGE
        .replace("-120250", "−0+120.250km")
        .replace("point", "POINT");
    for text in [metres, signs, RIDGE.replace('\n', "\r\n")] {
        assert_eq!(shown(&text), SHOWN, "{text}");
    }
}

#[test]
fn a_line_without_curves() {
    let text = "speed 40\ncrossfall 8\nstart 0\npoint 3m 4m\npoint 0m 0m\n";
    let shown = shown(text);
    assert!(shown.ends_with("km\ndistance 5.000m\n"), "{shown}");
}

#[test]
fn the_most_points() {
    let pi = |i: i64| format!("point {}m {}m 120m 40m\n", 290 * i - 9_400, 60 * (i % 2));
    let pis: String = (1..=64).map(pi).collect();
    let head = "speed 40\ncrossfall 8\nstart 0\npoint -9400m 0m\n";
    let shown = shown(&format!("{head}{pis}point 9450m 60m\n"));
    assert_eq!(shown.matches("curve ").count(), 64);
}

#[test]
fn a_line_that_is_moved_or_turned_round_is_the_same() {
    for move_by in [[1, -1], [-9_879_750, 9_591_100]] {
        let moved = with_points(|point| [0, 1].map(|i| point[i] + move_by[i]));
        assert_eq!(shown(&moved), SHOWN, "{moved}");
    }
    assert_eq!(shown(&with_points(|[e, n]| [-e, -n])), SHOWN);
    assert_eq!(shown(&with_points(|[e, n]| [n, -e])), SHOWN);
}

#[test]
fn a_line_that_is_mirrored_has_other_sides() {
    let sides = [("right", "RIGHT"), ("left", "right"), ("RIGHT", "left")];
    let mirrored = sides.iter().fold(SHOWN.to_string(), |shown, (from, to)| {
        shown.replace(from, to)
    });
    assert_eq!(shown(&with_points(|[e, n]| [e, -n])), mirrored);
    assert_eq!(shown(&with_points(|[e, n]| [n, e])), mirrored);
}

#[test]
fn radii_and_spirals_in_the_wrong_unit_get_a_warning() {
    let run = make(&RIDGE.replace("120000 40000", "120 40"));
    let words: Vec<&str> = run.words.lines().collect();
    assert_eq!((words.len(), run.status), (3, Some(1)), "{}", run.words);
    assert!(words[0].ends_with(":5: warning: radius 120 is 0.120 m; for metres write 120m"));
    assert!(words[1].ends_with(":5: warning: spiral 40 is 0.040 m; for metres write 40m"));
    assert!(words[2].contains("refused 10 at curve 1: the radius is 0.120 m; "));
    let near = make(&with_points(|[e, n]| [e + 120_251, n - 84_999]));
    assert!(!near.words.contains("warning"), "{}", near.words);
}

#[test]
fn no_sheet_is_made_where_the_calculator_refuses() {
    let folder = Folder::new();
    let sheet = folder.file("line.sheet", b"old");
    let text = fs::read_to_string(samples().join("ridge.txt")).unwrap();
    let text = folder.file("line.txt", text.replace("120m 40m", "700m 40m").as_bytes());
    let run = run(&["make".as_ref(), text.as_os_str(), sheet.as_os_str()]);
    assert_eq!(run.status, Some(1));
    assert!(run
        .words
        .contains(":9: point -120.250m 85m: refused 15 at distance 0: "));
    assert_eq!(run.words.lines().count(), 1, "{}", run.words);
    assert_eq!(fs::read(&sheet).unwrap(), b"old");
}
