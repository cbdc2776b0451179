//! Several sheets in one run, and the forms of stations.

use crate::run::{run, run_in_shell, run_with_input, sample_files, samples, Folder};
use std::ffi::OsStr;
use std::fs;
use std::path::Path;

#[test]
fn one_sheet_in_metres_is_what_the_program_stations_prints() {
    for path in sample_files("sheet") {
        let sheet = fs::read(&path).unwrap();
        let text = fs::read(path.with_extension("txt")).unwrap();
        let status = Some(i32::from(text.starts_with(b"REFUSED")));
        let named = run(&["stations".as_ref(), path.as_os_str()]);
        assert_eq!(
            (named.out, named.status),
            (text.clone(), status),
            "{path:?}"
        );
        for arguments in [&["stations"][..], &["stations", "--as", "metres", "-"]] {
            let piped = run_with_input(arguments, &sheet);
            assert_eq!(
                (piped.out, piped.status),
                (text.clone(), status),
                "{path:?}"
            );
        }
        assert_eq!(named.words.is_empty(), status == Some(0), "{path:?}");
    }
}

/// What is printed of a sheet.
fn printed(arguments: &[&str], path: &Path) -> String {
    let mut arguments: Vec<&OsStr> = arguments.iter().map(OsStr::new).collect();
    arguments.push(path.as_os_str());
    run(&arguments).text()
}

/// A number of µm in metres, `319.010720`.
pub fn micrometres(metres: &str) -> u64 {
    assert_eq!(metres.find('.'), metres.len().checked_sub(7), "{metres}");
    metres.replace('.', "").parse().unwrap()
}

/// Kilometres and metres, or estacas and metres, in µm.
pub fn counted(station: &str, metres: u64) -> u64 {
    let (count, rest) = station.split_once('+').unwrap();
    let rest = micrometres(rest.trim());
    assert!(rest < metres * 1_000_000, "{station}");
    count.trim().parse::<u64>().unwrap() * metres * 1_000_000 + rest
}

#[test]
fn every_form_has_the_stations_of_the_library() {
    const NAMES: [&str; 4] = ["TS", "SC", "CS", "ST"];
    for path in sample_files("sheet") {
        let mut row = [0; pokyandi::ROW_NUMBERS];
        let Ok(count) = pokyandi::stations(&fs::read(&path).unwrap(), &mut row) else {
            continue;
        };
        let [km, estaca, csv] =
            ["km", "estaca", "csv"].map(|form| printed(&["stations", "--as", form], &path));
        for text in [&km, &estaca, &csv] {
            assert_eq!(text.lines().count(), count + 1, "{text}");
        }
        let lines = km.lines().zip(estaca.lines()).zip(csv.lines()).skip(1);
        for (i, ((km, estaca), csv)) in lines.enumerate() {
            let (name, curve) = match i + 1 == count {
                true => ("END", 0),
                false => (NAMES[i % 4], i / 4 + 1),
            };
            let point = format!("{name} {curve} ");
            assert_eq!(counted(km.strip_prefix(&point).unwrap(), 1_000), row[i]);
            assert_eq!(counted(estaca.strip_prefix(&point).unwrap(), 20), row[i]);
            let point = format!("{},{name},{curve},", path.display());
            assert_eq!(micrometres(csv.strip_prefix(&point).unwrap()), row[i]);
        }
    }
}

#[test]
fn elements_and_straights_are_those_of_the_library() {
    for path in sample_files("sheet") {
        let sheet = fs::read(&path).unwrap();
        let (mut row, mut line) = ([0; pokyandi::ROW_NUMBERS], [0; pokyandi::LINE_NUMBERS]);
        let Ok(count) = pokyandi::stations(&sheet, &mut row) else {
            continue;
        };
        pokyandi::read(&sheet, &mut line).unwrap();
        let n = count / 4;
        let text = printed(&["elements"], &path);
        let cells = |line: &str| {
            line.split_whitespace()
                .map(String::from)
                .collect::<Vec<_>>()
        };
        let lines: Vec<Vec<String>> = text.lines().map(cells).collect();
        let (curves, straights) = lines.split_at(if n > 0 { n + 1 } else { 0 });
        for (i, cells) in curves.iter().enumerate().skip(1) {
            let [a, r, l] = [1, 2, 3].map(|k| line[pokyandi::line::curve(i) + k]);
            let mut numbers = [0; pokyandi::ELEMENT_NUMBERS];
            pokyandi::elements(a, r, l, &mut numbers).unwrap();
            let printed: Vec<u64> = cells[1..].iter().map(|cell| micrometres(cell)).collect();
            assert_eq!((&cells[0], &printed[..]), (&i.to_string(), &numbers[..]));
        }
        let mut station = 1_000 * u64::from(line[pokyandi::line::START]);
        for (i, cells) in straights.iter().skip(1).enumerate() {
            station += micrometres(&cells[1]);
            assert_eq!(
                (&cells[0], station),
                (&i.to_string(), row[4 * i]),
                "{path:?}"
            );
            station = row[(4 * i + 3).min(count - 1)];
        }
        assert_eq!(straights.len(), n + 2);
    }
}

#[test]
fn refused_sheets_in_every_form() {
    for form in ["metres", "km", "estaca"] {
        let run = run(&["stations", "--as", form, "stations/case-03.sheet"]);
        assert_eq!(
            (run.text().as_str(), run.status),
            ("REFUSED 15 0\n", Some(1)),
            "{form}"
        );
        assert!(run
            .words
            .starts_with("stations/case-03.sheet: refused 15 at distance 0: "));
    }
    let csv = run(&["stations", "--as=csv", "stations/case-03.sheet"]);
    assert!(csv
        .text()
        .ends_with("\nstations/case-03.sheet,REFUSED 15 0,,\n"));
    let elements = run(&["elements", "stations/case-03.sheet"]);
    assert_eq!(
        (elements.text().as_str(), elements.status),
        ("REFUSED 15 0\n", Some(1))
    );
}

#[test]
fn names_with_spaces_and_commas() {
    let folder = Folder::new();
    let case_9 = fs::read(samples().join("stations/case-09.sheet")).unwrap();
    let path = folder.file("north road, lot 2.sheet", &case_9);
    let name = path.to_str().unwrap();
    let csv = run(&["stations", "--as", "csv", name]).text();
    assert_eq!(
        csv,
        format!("sheet,point,curve,station\n\"{name}\",END,0,500.000000\n")
    );
    let check = run(&["check", name]).text();
    assert_eq!(
        check,
        format!("{name}: fine, 0 curves, end at 0+500.000000 km\n")
    );
    let list = folder.file("a list", format!("{name}\r\n\n{name}\n").as_bytes());
    let listed = run(&["stations".as_ref(), "--list".as_ref(), list.as_os_str()]).text();
    let one = format!("SHEET {name}\nPOINT CURVE STATION\nEND 0 500.000000\n");
    assert_eq!(listed, one.repeat(2));
    let marked = folder.file("a list", format!("\u{feff}{name}").as_bytes());
    let listed = run(&["stations".as_ref(), "--list".as_ref(), marked.as_os_str()]).text();
    assert_eq!(listed, one);
}

#[test]
fn every_sample_is_checked_in_words() {
    let run = run_in_shell(
        &samples().join("stations"),
        "export LC_ALL=C; pokyandi check *.sheet",
    );
    assert_eq!(run.text(), include_str!("checked_samples.txt"));
    assert_eq!((run.status, run.words.as_str()), (Some(1), ""));
}

#[test]
fn one_faulty_sheet_does_not_stop_the_others() {
    let run = run(&[
        "check",
        "stations/case-01.sheet",
        "missing",
        "stations/case-03.sheet",
        "stations/case-09.sheet",
    ]);
    assert_eq!(run.status, Some(2));
    assert_eq!(run.text().lines().count(), 3);
    assert_eq!(run.words, "pokyandi: missing: No such file or directory\n");
}

#[test]
fn ten_thousand_sheets_of_which_one_is_faulty() {
    const COUNT: usize = 10_000;
    const FAULTY: usize = 7_654;
    let folder = Folder::new();
    let [good, faulty] = ["case-01", "case-03"]
        .map(|name| fs::read(samples().join(format!("stations/{name}.sheet"))).unwrap());
    let names = (0..COUNT).map(|i| {
        let sheet = if i == FAULTY { &faulty } else { &good };
        folder.file(&format!("{i}.sheet"), sheet)
    });
    let list: String = names.map(|path| format!("{}\n", path.display())).collect();
    let list = folder.file("list", list.as_bytes());
    let run = run(&[
        "stations".as_ref(),
        "--as".as_ref(),
        "csv".as_ref(),
        "--list".as_ref(),
        list.as_os_str(),
    ]);
    assert_eq!(run.status, Some(1));
    assert_eq!(run.words.lines().count(), 1);
    let text = run.text();
    assert_eq!(text.lines().count(), 1 + 5 * (COUNT - 1) + 1);
    assert_eq!(text.matches(",REFUSED 15 0,,\n").count(), 1);
    assert!(text.contains(&format!("{FAULTY}.sheet,REFUSED 15 0,,\n")));
}

#[test]
fn progress_on_a_terminal_alone() {
    // So many sheets take longer than the first progress line waits for.
    let run =
        "yes stations/mountain-road.sheet | head -n 60000 | pokyandi stations --list - >/dev/null";
    let in_pipe = run_in_shell(&samples(), &format!("{run} 2>&1"));
    assert_eq!((in_pipe.text().as_str(), in_pipe.status), ("", Some(0)));
    // Without the program `script` there is no terminal to be had.
    if run_in_shell(&samples(), "command -v script").status == Some(0) {
        let on_terminal = run_in_shell(&samples(), &format!("script -qec '{run}' /dev/null"));
        let shown = on_terminal.text();
        assert!(shown.contains(" of 60000 sheets"), "{shown}");
        assert_eq!(on_terminal.status, Some(0));
    }
}

#[test]
fn a_list_without_names() {
    let run = run_in_shell(&samples(), "pokyandi check --list /dev/null");
    let words = "pokyandi: /dev/null: it names no sheet\n";
    assert_eq!((run.words.as_str(), run.status), (words, Some(2)));
}

#[test]
fn names_that_a_terminal_would_obey() {
    let folder = Folder::new();
    folder.file("a\x1b[2J\n.sheet", b"");
    let run = run_in_shell(&folder.path(""), "export LC_ALL=C; pokyandi check *.sheet");
    assert!(run.text().starts_with("a\\u{1b}[2J\\n.sheet: refused 1: "));
}
