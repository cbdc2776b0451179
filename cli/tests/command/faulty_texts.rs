//! Faulty texts: each has its own words, status 1, and the old sheet is kept.

use crate::run::{run, samples, Folder, Run};
use std::collections::BTreeSet;
use std::fs;

const TEXT: &str = "\
speed 70
crossfall 8
start 0
distance 500m
curve right 49d22m44s 350m 40m
distance 400m
";

const FAULTS: &str = include_str!("faulty_texts.txt");

const POINTS: &str = "\
speed 40
crossfall 8
start 12+340.5km
point -120.250m 85m
point 90.1m 259.120m 120m 40m
point 332.230m 241.755m 100m 40m
point 528m 408.9m
";

const FAULTY_POINTS: &str = include_str!("faulty_points.txt");

/// Makes a text over an old sheet, which must be as it was then.
fn make_over_old(folder: &Folder, text: &[u8]) -> Run {
    let sheet = folder.file("line.sheet", b"old");
    let text = folder.file("line.txt", text);
    let run = run(&["make".as_ref(), text.as_os_str(), sheet.as_os_str()]);
    assert_eq!(fs::read(&sheet).unwrap(), b"old");
    assert_eq!(folder.names(), ["line.sheet", "line.txt"]);
    run
}

fn check_fault(folder: &Folder, text: &[u8], words: &str) {
    let run = make_over_old(folder, text);
    let expected = format!("{}:{words}\n", folder.path("line.txt").display());
    assert_eq!(
        (run.words, run.status, run.out.len()),
        (expected, Some(1), 0)
    );
}

/// A text with this line, from 1, in place of its own, or behind it.
fn with_line(text: &str, number: usize, line: &str) -> String {
    let mut lines: Vec<&str> = text.lines().collect();
    lines.resize(lines.len().max(number), "");
    lines[number - 1] = line;
    lines.join("\n") + "\n"
}

/// Tries each fault of a list in a text, and gives their number.
fn check_faults(text: &str, faults: &str) -> usize {
    let folder = Folder::new();
    let mut told = BTreeSet::new();
    for fault in faults.lines().skip(1) {
        let [number, line, words] = fault.splitn(3, '|').collect::<Vec<_>>().try_into().unwrap();
        let text = with_line(text, number.parse().unwrap(), line);
        check_fault(&folder, text.as_bytes(), words);
        assert!(told.insert(words), "two faults have the words: {words}");
    }
    told.len()
}

#[test]
fn faulty_lines() {
    assert!(check_faults(TEXT, FAULTS) >= 40);
}

#[test]
fn faulty_points() {
    assert!(check_faults(POINTS, FAULTY_POINTS) >= 20);
}

#[test]
fn too_many_points() {
    let point = "point 528m 408.9m 100m 40m\n";
    let text = POINTS.replace("point 528m", &(point.repeat(63) + "point 528m"));
    let words =
        "69: point 528m 408.9m 100m 40m: refused 3: the line has 65 curves; it may have 64 at most";
    check_fault(&Folder::new(), text.as_bytes(), words);
}

#[test]
fn faulty_texts_as_a_whole() {
    let folder = Folder::new();
    let utf_16: Vec<u8> = "\u{feff}speed 70\n"
        .encode_utf16()
        .flat_map(u16::to_le_bytes)
        .collect();
    let latin_1 = TEXT
        .as_bytes()
        .iter()
        .map(|byte| if *byte == b'd' { 0xB0 } else { *byte });
    let latin_1: Vec<u8> = latin_1.collect();
    let curve = "curve right 49d22m44s 350m 40m\ndistance 400m\n";
    let sheet = fs::read(samples().join("stations/case-01.sheet")).unwrap();
    let cases: [(Vec<u8>, &str); 7] = [
        (
            vec![],
            "1: the text ends where speed is wanted, as in: speed 70",
        ),
        (
            b"# nothing\n\n".to_vec(),
            "1: the text ends where speed is wanted, as in: speed 70",
        ),
        (utf_16, "1: the text is UTF-16: save it as UTF-8"),
        (
            latin_1,
            "1: a letter is not UTF-8: save the text as UTF-8, or write angles as 49d22m44s",
        ),
        (
            sheet,
            "1: this is no text; if it is a sheet, pokyandi show prints its text",
        ),
        (
            "speed 70\ncrossfall 8\u{85}\u{9b}2J\n".into(),
            "2: crossfall has 2 values, not 1; a value has no spaces, as in: crossfall 8",
        ),
        (
            (TEXT.to_string() + &curve.repeat(64)).into_bytes(),
            "133: curve right 49d22m44s 350m 40m: refused 3: the line has 65 curves; it may have 64 at most",
        ),
    ];
    for (text, words) in cases {
        check_fault(&folder, &text, words);
    }
}
