//! Both editions of the sheet: made, shown, and taken by the other subcommands.

use crate::run::{run, run_with_input, sample_files, samples, Folder};
use std::fs;

/// Document 01's case 1 with its start left open.
const LINE: &str = "\
speed 70
crossfall 8
start START
distance 500m
curve right 49d22m44s 350m 40m
distance 400m
";

const POINTS: &str = "\
speed 40
crossfall 8
start START
point -120.250m 85m
point 90.1m 259.120m 120m 40m
point 332.230m 241.755m 100m 40m
point 528m 408.9m
";

/// The sheet in its other edition, as the library converts it; none where it refuses.
pub fn converted(sheet: &[u8], edition: u32) -> Option<Vec<u8>> {
    let mut bytes = [0; pokyandi::SHEET_BYTES];
    let count = pokyandi::convert(sheet, edition, &mut bytes).ok()?;
    Some(bytes[..count].to_vec())
}

/// Sheet, words and status of a text that is made.
fn made(options: &[&str], text: &str) -> (Vec<u8>, String, Option<i32>) {
    let arguments = [&["make"], options, &["-", "-"]].concat();
    let run = run_with_input(&arguments, text.as_bytes());
    (run.out, run.words, run.status)
}

#[test]
fn starts_at_the_limits_of_each_edition() {
    let limits = [(1, "200+000"), (2, "4000+000")];
    for text in [LINE, POINTS] {
        for (edition, limit) in limits {
            let text = format!("edition {edition}\n{text}");
            let start = |decimals: &str| text.replace("START", &format!("{limit}.{decimals}km"));
            let (sheet, _, status) = made(&[], &start("000"));
            assert_eq!(status, Some(0));
            assert_eq!(pokyandi::edition(&sheet), Ok(edition));
            let (sheet, words, status) = made(&[], &start("001"));
            assert_eq!((sheet.len(), status), (0, Some(1)));
            let missed = format!(
                "standard input:4: start {limit}.001km: refused 6: the start is {limit}.001 km; \
                 it may be 0+000.000 km to {limit}.000 km in edition {edition}"
            );
            assert!(words.starts_with(&missed), "{words}");
            let hint = "; make the sheet in edition 2, which goes up to 4000+000.000 km\n";
            assert_eq!(words.ends_with(hint), edition == 1, "{words}");
            assert_eq!(words.lines().count(), 1, "{words}");
        }
    }
}

#[test]
fn the_edition_stands_anywhere_before_the_curves() {
    for text in [LINE, POINTS] {
        let text = text.replace("START", "1234+567.890km");
        let lines: Vec<&str> = text.lines().collect();
        let (expected, ..) = made(&["--edition", "2"], &text);
        assert_eq!(pokyandi::edition(&expected), Ok(2));
        let is_late = |line: &&str| line.starts_with("curve") || line.starts_with("point");
        let first = lines.iter().position(is_late).unwrap();
        for place in 0..=lines.len() {
            let mut lines = lines.clone();
            lines.insert(place, "Edition 2 # past 200 km");
            let (sheet, words, status) = made(&[], &lines.join("\n"));
            if place <= first {
                assert_eq!((&sheet, status), (&expected, Some(0)), "{words}");
            } else {
                let late = "the edition stands above the curves or points\n";
                let late = format!("standard input:{}: {late}", place + 1);
                assert_eq!((words, status), (late, Some(1)));
            }
        }
    }
}

#[test]
fn an_edition_that_is_named_twice() {
    let text = format!("edition 2\n{}edition 2\n", LINE.replace("START", "0"));
    let words = "standard input:8: the edition is named a second time\n".to_string();
    assert_eq!(made(&[], &text), (vec![], words, Some(1)));
}

#[test]
fn the_option_counts_before_the_text() {
    let text = LINE.replace("START", "12+340.5km");
    let (first, ..) = made(&[], &text);
    let second = converted(&first, 2).unwrap();
    let texts = ["", "edition 1\n", "edition 2\n"].map(|edition| format!("{edition}{text}"));
    for text in &texts {
        assert_eq!(made(&["--edition", "1"], text).0, first);
        assert_eq!(made(&["--edition=2"], text).0, second);
    }
    assert_eq!(
        texts.map(|text| made(&[], &text).0),
        [&first, &first, &second].map(Vec::clone)
    );
}

#[test]
fn the_summary_names_edition_2_alone() {
    let folder = Folder::new();
    let sheet = folder.path("line.sheet");
    for (edition, words) in [("1", ""), ("2", " in edition 2")] {
        let options = ["make", "--edition", edition, "line.txt"].map(AsRef::as_ref);
        let run = run(&[&options[..], &[sheet.as_os_str()]].concat());
        let summary = format!("{}: written{words}, 21 bytes, 1 curve\n", sheet.display());
        assert_eq!((run.words, run.status), (summary, Some(0)));
    }
}

#[test]
fn every_subcommand_takes_both_editions_of_a_sheet() {
    let mut count = 0;
    for path in sample_files("sheet") {
        let first = fs::read(&path).unwrap();
        let Some(second) = converted(&first, 2) else {
            continue;
        };
        for arguments in [
            &["stations"][..],
            &["stations", "--as", "km"],
            &["pegs", "--every", "500m"],
            &["elements", "-"],
            &["check", "-"],
        ] {
            let runs = [&first, &second].map(|sheet| run_with_input(arguments, sheet));
            assert_eq!(runs[0], runs[1], "{arguments:?} {path:?}");
        }
        let shown = [&first, &second].map(|sheet| run_with_input(&["show", "-"], sheet).text());
        let [one, two] = &shown;
        assert_eq!(one.strip_prefix("edition 1"), two.strip_prefix("edition 2"));
        let again = run_with_input(&["make", "-", "-"], two.as_bytes());
        assert_eq!(again.out, second, "{path:?}");
        count += 1;
    }
    assert!(count > 10, "{count}");
}

#[test]
fn stations_far_beyond_kilometre_200() {
    let text = format!("edition 2\n{}", LINE.replace("START", "4000+000km"));
    let (sheet, ..) = made(&[], &text);
    let stations = run_with_input(&["stations", "--as", "km"], &sheet).text();
    assert!(stations.contains("\nTS 1 4000+319.010720\n"), "{stations}");
    assert!(
        stations.ends_with("\nEND 0 4000+879.659907\n"),
        "{stations}"
    );
    let pegs = run_with_input(&["pegs", "--every", "1+000km"], &sheet).text();
    let start = " 4000000.000000 START straight        0     0.000000   0.000000   0.000000";
    assert!(pegs.lines().any(|line| line.ends_with(start)), "{pegs}");
    let elements = run_with_input(&["elements", "-"], &sheet).text();
    assert!(
        elements.contains("\n0           319.010720\n"),
        "{elements}"
    );
    let crowded = text.replace("distance 500m", "distance 180.990m");
    let (_, words, status) = made(&[], &crowded);
    assert_eq!(status, Some(1));
    let hint = "; it takes a distance of 180.991 m at least\n";
    assert!(words.ends_with(hint), "{words}");
}

#[test]
fn each_edition_s_sheet_with_the_number_of_the_other() {
    let first = fs::read(samples().join("stations/case-01.sheet")).unwrap();
    let second = converted(&first, 2).unwrap();
    for sheet in [first, second] {
        let mut other = sheet.clone();
        other[0] ^= 0x30;
        let [own, other] = [&sheet, &other].map(|sheet| run_with_input(&["check", "-"], sheet));
        assert_eq!(own.status, Some(0));
        assert_eq!(other.status, Some(1), "{}", other.text());
        let number = other.text();
        assert!(number.starts_with("standard input: refused "), "{number}");
    }
}
