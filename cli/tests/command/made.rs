//! Sheets that are made, shown and made again.

use crate::run::{run, run_with_input, sample_files, samples, Folder};
use std::fs;
use std::path::Path;

const CASE_1: &str = "\
speed 70
crossfall 8
start 0
distance 500000
curve right 177764 350000 40000
distance 400000
";

fn case_1_sheet() -> Vec<u8> {
    fs::read(samples().join("stations/case-01.sheet")).unwrap()
}

/// The sheet that is made of a text on standard input.
fn made(text: &[u8]) -> Vec<u8> {
    let run = run_with_input(&["make", "-", "-"], text);
    assert_eq!((run.words.as_str(), run.status), ("", Some(0)));
    run.out
}

#[test]
fn the_texts_that_offices_write() {
    let units = "speed 70km/h\ncrossfall 8%\nstart 0+000km\ndistance 500m\ncurve right 49d22m44s 350,0m 2+0e\ndistance 0+400.000km\n";
    let signs = "SPEED 70\nCrossfall 8\nstart 0+0.00e\ndistance 500.000m\ncurve Right 49°22'44\" 350m 40000mm\ndistance 20+0,00e\n";
    let texts = [
        CASE_1.to_string(),
        CASE_1.trim_end().to_string(),
        CASE_1.replace('\n', "\r\n"),
        CASE_1.replace('\n', "\r"),
        CASE_1.replace("500000\n", "500000 # to PI 1\r"),
        CASE_1.replace(' ', "\t"),
        CASE_1.replace("start", "\n  # valley\n\u{a0}start "),
        CASE_1.replace("500000", "500000# to PI 1"),
        format!("\u{feff}{CASE_1}"),
        format!("\u{feff}# a heading\r\n{}", CASE_1.replace('\n', "  \r\n")),
        units.to_string(),
        signs.to_string(),
    ];
    for text in texts {
        assert_eq!(made(text.as_bytes()), case_1_sheet(), "{text}");
    }
    let latin_1 = [CASE_1.as_bytes(), b"# come\xE7o\n"].concat();
    assert_eq!(made(&latin_1), case_1_sheet());
}

#[test]
fn a_shown_sheet_is_made_again() {
    for path in sample_files("sheet") {
        let shown = run(&["show".as_ref(), path.as_os_str()]);
        if shown.status == Some(0) {
            let run = run_with_input(&["make", "-", "-"], &shown.out);
            assert_eq!(run.out, fs::read(&path).unwrap(), "{path:?}");
        } else {
            assert_eq!(shown.status, Some(1), "{path:?}");
            assert!(shown.text().starts_with("REFUSED "), "{path:?}");
        }
    }
}

/// Makes a text into a file, and gives words and status.
fn make(folder: &Folder, text: &str, sheet: &Path) -> (String, Option<i32>) {
    let text = folder.file("line.txt", text.as_bytes());
    let run = run(&["make".as_ref(), text.as_os_str(), sheet.as_os_str()]);
    (
        run.words
            .replace(&folder.path("").display().to_string(), ""),
        run.status,
    )
}

#[test]
fn a_line_that_the_calculator_refuses_is_made_and_explained() {
    let folder = Folder::new();
    let sheet = folder.path("line.sheet");
    let (words, status) = make(&folder, &CASE_1.replace("500000", "180.990m"), &sheet);
    let why = "line.txt:4: distance 180.990m: refused 15 at distance 0: the straight is 0.000720 m, under 1 mm, \
               by 180.990 m less TT 180.989280 m of curve 1; it takes a distance of 180.991 m at least\n";
    let made = "line.sheet: written, 21 bytes, 1 curve; its stations are refused\n";
    assert_eq!((words, status), (format!("{why}{made}"), Some(1)));
    let case_3 = samples().join("stations/case-03.sheet");
    assert_eq!(fs::read(sheet).unwrap(), fs::read(case_3).unwrap());
}

#[test]
fn values_that_are_probably_in_the_wrong_unit_get_a_warning() {
    let start = "line.txt:3: warning: start 12340 is 0+012.340 km; for metres write 12340m\n";
    let deflection = "line.txt:5: warning: deflection 49 is 0°00'49\"; for degrees write 49d\n";
    let cases = [
        ("start 0", "start 12340", start),
        ("start 0", "start 99999", "start 99999 is"),
        ("177764", "49", deflection),
        (
            "distance 400000",
            "distance 400",
            "line.txt:6: warning: distance 400 is 0.400 m; for metres write 400m\n",
        ),
        (
            "40000\n",
            "40\n",
            "line.txt:5: warning: spiral 40 is 0.040 m; for metres write 40m\n",
        ),
    ];
    for (from, to, warning) in cases {
        let folder = Folder::new();
        let (words, _) = make(
            &folder,
            &CASE_1.replace(from, to),
            &folder.path("line.sheet"),
        );
        assert!(words.contains(warning), "{words}");
    }
    for (from, to) in [
        ("start 0", "start 0"),
        ("start 0", "start 100000"),
        ("start 0", "start 12.34m"),
        ("177764", "0d0m49s"),
    ] {
        let folder = Folder::new();
        let (words, _) = make(
            &folder,
            &CASE_1.replace(from, to),
            &folder.path("line.sheet"),
        );
        assert!(!words.contains("warning"), "{words}");
    }
}

#[test]
fn an_old_sheet_is_replaced_and_nothing_else_is_left() {
    let folder = Folder::new();
    let sheet = folder.file("line.sheet", b"old");
    assert_eq!(make(&folder, CASE_1, &sheet).1, Some(0));
    assert_eq!(fs::read(&sheet).unwrap(), case_1_sheet());
    assert_eq!(folder.names(), ["line.sheet", "line.txt"]);
}

#[test]
fn a_link_to_a_sheet_stays_a_link() {
    let folder = Folder::new();
    let (sheet, link) = (folder.file("line.sheet", b"old"), folder.path("link"));
    std::os::unix::fs::symlink(&sheet, &link).unwrap();
    assert_eq!(make(&folder, CASE_1, &link).1, Some(0));
    assert_eq!(fs::read(&sheet).unwrap(), case_1_sheet());
    assert!(fs::symlink_metadata(&link).unwrap().is_symlink());
}

#[test]
fn warnings_are_told_beside_a_refusal() {
    let folder = Folder::new();
    let text = CASE_1.replace("177764 350000 40000", "49 350 40");
    let (words, status) = make(&folder, &text, &folder.path("line.sheet"));
    let lines: Vec<&str> = words.lines().collect();
    assert_eq!((lines.len(), status), (4, Some(1)), "{words}");
    assert!(lines[1].ends_with("warning: radius 350 is 0.350 m; for metres write 350m"));
    assert!(lines[3].contains("refused 10 at curve 1: the radius is 0.350 m; "));
}
