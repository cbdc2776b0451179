//! Sheets that are converted in their files.

use crate::editions::converted;
use crate::run::{command, run, run_in_shell, run_with_input, samples, Folder, Run};
use std::fs;
use std::os::unix::fs::{MetadataExt, PermissionsExt};
use std::path::{Path, PathBuf};
use std::process::{Command, Stdio};
use std::thread::sleep;
use std::time::Duration;

fn sample(name: &str) -> Vec<u8> {
    fs::read(samples().join(format!("stations/{name}.sheet"))).unwrap()
}

/// Case 1's line with this start, in an edition.
fn with_start(edition: u32, start: u32) -> Vec<u8> {
    let mut line = [0; pokyandi::LINE_NUMBERS];
    let count = pokyandi::read(&sample("case-01"), &mut line).unwrap();
    line[pokyandi::line::START] = start;
    let mut sheet = [0; pokyandi::SHEET_BYTES];
    let size = pokyandi::write(edition, &line[..count], &mut sheet).unwrap();
    sheet[..size].to_vec()
}

/// Converts files; their folder is left out of the words.
fn convert(folder: &Folder, to: &str, paths: &[&Path]) -> Run {
    let mut arguments = vec!["convert".as_ref(), "--to".as_ref(), to.as_ref()];
    arguments.extend(paths.iter().map(|path| path.as_os_str()));
    short(folder, run(&arguments))
}

fn short(folder: &Folder, run: Run) -> Run {
    let words = run
        .words
        .replace(&folder.path("").display().to_string(), "");
    Run { words, ..run }
}

/// What is said, with nothing put out.
fn said(words: &str, status: i32) -> Run {
    Run {
        out: Vec::new(),
        words: words.into(),
        status: Some(status),
    }
}

#[test]
fn there_and_back() {
    for name in ["case-01", "case-09", "mountain-road", "case-03"] {
        let folder = Folder::new();
        let first = sample(name);
        let second = converted(&first, 2).unwrap();
        let sheet = folder.file("a.sheet", &first);
        let size = second.len();
        let words = format!("a.sheet: converted to edition 2, {size} bytes\n");
        assert_eq!(convert(&folder, "2", &[&sheet]), said(&words, 0));
        assert_eq!(fs::read(&sheet).unwrap(), second, "{name}");
        let alone = "a.sheet: left alone: it has edition 2 already\n";
        assert_eq!(convert(&folder, "2", &[&sheet]), said(alone, 0));
        assert_eq!(fs::read(&sheet).unwrap(), second, "{name}");
        assert_eq!(convert(&folder, "1", &[&sheet]).status, Some(0));
        assert_eq!(fs::read(&sheet).unwrap(), first, "{name}");
        assert_eq!(folder.names(), ["a.sheet"]);
    }
}

#[test]
fn starts_at_the_limits() {
    let folder = Folder::new();
    let near = with_start(2, 200_000_000);
    let sheet = folder.file("a.sheet", &near);
    assert_eq!(convert(&folder, "1", &[&sheet]).status, Some(0));
    assert_eq!(fs::read(&sheet).unwrap(), with_start(1, 200_000_000));
    for (start, km) in [
        (200_000_001, "200+000.001"),
        (4_000_000_000, "4000+000.000"),
    ] {
        let far = with_start(2, start);
        let sheet = folder.file("a.sheet", &far);
        let words = format!(
            "a.sheet: left alone: refused 24: the start is {km} km; it may be 0+000.000 km to \
             200+000.000 km in edition 1; the sheet stays in edition 2\n"
        );
        assert_eq!(convert(&folder, "1", &[&sheet]), said(&words, 1));
        assert_eq!(fs::read(&sheet).unwrap(), far);
    }
}

#[test]
fn refused_sheets_are_left_alone_and_the_others_go_on() {
    let folder = Folder::new();
    let good = sample("case-01");
    let second = converted(&good, 2).unwrap();
    let files = [
        ("a.sheet", good.clone()),
        ("b.sheet", good[..20].to_vec()),
        ("c.sheet", second.clone()),
        ("d.sheet", [&[0x30, 0], &good[2..]].concat()),
        ("e.sheet", sample("case-04")),
        ("f.sheet", sample("refusal-06")),
    ];
    let paths = files
        .each_ref()
        .map(|(name, sheet)| folder.file(name, sheet));
    let paths = paths.each_ref().map(PathBuf::as_path);
    let words = "\
b.sheet: left alone: refused 1: the sheet has 20 bytes; with 1 curve it takes 21
c.sheet: left alone: it has edition 2 already
d.sheet: left alone: refused 2: the edition is 3; it may be 1 or 2
f.sheet: left alone: refused 6: the start is 200+000.001 km; it may be 0+000.000 km to 200+000.000 km in edition 1; make the sheet in edition 2, which goes up to 4000+000.000 km
6 sheets: 2 converted to edition 2, 1 had it already, 3 refused, 0 failed
";
    assert_eq!(convert(&folder, "2", &paths), said(words, 1));
    for ((name, old), path) in files.iter().zip(paths) {
        let kept = ["b", "c", "d", "f"].contains(&&name[..1]);
        let expected = if kept {
            old
        } else {
            &converted(old, 2).unwrap()
        };
        assert_eq!(&fs::read(path).unwrap(), expected, "{name}");
    }
    assert_eq!(folder.names().len(), files.len());
}

#[test]
fn files_that_cannot_be_read_or_written() {
    let folder = Folder::new();
    let first = sample("case-01");
    let [good, guarded] = ["good", "guarded"].map(|name| folder.file(name, &first));
    fs::set_permissions(&guarded, PermissionsExt::from_mode(0o444)).unwrap();
    let (missing, here) = (folder.path("missing"), folder.path("."));
    let run = convert(&folder, "2", &[&missing, &guarded, &here, &good]);
    let words = "\
pokyandi: missing: No such file or directory
pokyandi: guarded: permission denied
pokyandi: .: Is a directory
4 sheets: 1 converted to edition 2, 0 had it already, 0 refused, 3 failed
";
    assert_eq!(run, said(words, 2));
    assert_eq!(fs::read(&guarded).unwrap(), first);
    assert_eq!(fs::read(&good).unwrap(), converted(&first, 2).unwrap());
    assert_eq!(folder.names(), ["good", "guarded"]);
}

#[test]
fn permissions_owners_and_links_stay() {
    let folder = Folder::new();
    let sheet = folder.file("a.sheet", &sample("case-01"));
    let link = folder.path("link");
    std::os::unix::fs::symlink(&sheet, &link).unwrap();
    fs::set_permissions(&sheet, PermissionsExt::from_mode(0o640)).unwrap();
    // Only root may give a file away.
    let _ = std::os::unix::fs::chown(&sheet, Some(1), Some(1));
    let owners = || {
        let file = fs::metadata(&sheet).unwrap();
        [file.uid(), file.gid()]
    };
    let before = owners();
    assert_eq!(convert(&folder, "2", &[&link]).status, Some(0));
    assert_eq!(owners(), before);
    assert_eq!(pokyandi::edition(&fs::read(&sheet).unwrap()), Ok(2));
    let mode = fs::metadata(&sheet).unwrap().permissions().mode();
    assert_eq!(mode & 0o777, 0o640);
    assert!(fs::symlink_metadata(&link).unwrap().is_symlink());
}

#[test]
fn only_files_are_rewritten() {
    let folder = Folder::new();
    folder.file("a.sheet", &sample("case-01"));
    let lines = [
        (
            "pokyandi convert --to 2 <(cat a.sheet)",
            "only a file can be rewritten in place",
        ),
        (
            "pokyandi convert --to 2 /dev/stdin <a.sheet",
            "the file is in use",
        ),
        ("pokyandi convert --to 2 /dev/null", "refused 1"),
    ];
    for (line, words) in lines {
        let run = run_in_shell(&folder.path(""), line);
        assert!(run.words.contains(words), "{line}: {}", run.words);
        assert_ne!(run.status, Some(0), "{line}");
    }
    assert_eq!(fs::read(folder.path("a.sheet")).unwrap(), sample("case-01"));
}

#[test]
fn standard_input_to_standard_output() {
    let first = sample("case-01");
    let second = converted(&first, 2).unwrap();
    let convert = |to: &str, sheet: &[u8]| run_with_input(&["convert", "--to", to, "-"], sheet);
    let done = |out: &[u8], words: &str, status| Run {
        out: out.to_vec(),
        words: words.into(),
        status: Some(status),
    };
    assert_eq!(convert("2", &first), done(&second, "", 0));
    assert_eq!(convert("1", &second), done(&first, "", 0));
    let had = "standard input: left alone: it has edition 2 already\n";
    assert_eq!(convert("2", &second), done(&second, had, 0));
    let refused = convert("1", &with_start(2, 200_000_001));
    assert_eq!((refused.out.len(), refused.status), (0, Some(1)));
}

/// A folder of many sheets, the mountain road and case 1 in turn, each with another
/// start, and a list of them.
fn archive(folder: &Folder, count: u32) -> (Vec<PathBuf>, Vec<Vec<u8>>, PathBuf) {
    let mut line = [0; pokyandi::LINE_NUMBERS];
    let sheets: Vec<Vec<u8>> = (0..count)
        .map(|i| {
            let name = ["mountain-road", "case-01"][i as usize % 2];
            let numbers = pokyandi::read(&sample(name), &mut line).unwrap();
            line[pokyandi::line::START] = 200_000_000 / count * i;
            let mut sheet = [0; pokyandi::SHEET_BYTES];
            let size = pokyandi::write(1, &line[..numbers], &mut sheet).unwrap();
            sheet[..size].to_vec()
        })
        .collect();
    let paths = sheets.iter().enumerate();
    let paths: Vec<PathBuf> = paths
        .map(|(i, sheet)| folder.file(&format!("road {i}.sheet"), sheet))
        .collect();
    let list: String = paths
        .iter()
        .map(|path| format!("{}\n", path.display()))
        .collect();
    let list = folder.file("list", list.as_bytes());
    (paths, sheets, list)
}

/// Converts the sheets of a list.
fn convert_list(folder: &Folder, to: &str, list: &Path) -> Run {
    let arguments = ["convert", "--to", to, "--list"].map(AsRef::as_ref);
    short(folder, run(&[&arguments[..], &[list.as_os_str()]].concat()))
}

fn bytes_of(paths: &[PathBuf]) -> Vec<Vec<u8>> {
    paths.iter().map(|path| fs::read(path).unwrap()).collect()
}

#[test]
fn an_archive_there_and_back() {
    const COUNT: u32 = 300;
    let folder = Folder::new();
    let (paths, sheets, list) = archive(&folder, COUNT);
    let counts = |to| {
        format!(
            "300 sheets: 300 converted to edition {to}, 0 had it already, 0 refused, 0 failed\n"
        )
    };
    assert_eq!(convert_list(&folder, "2", &list), said(&counts(2), 0));
    let second: Vec<Vec<u8>> = sheets
        .iter()
        .map(|sheet| converted(sheet, 2).unwrap())
        .collect();
    assert_eq!(bytes_of(&paths), second);
    assert_eq!(convert_list(&folder, "1", &list), said(&counts(1), 0));
    assert_eq!(bytes_of(&paths), sheets);
    assert_eq!(folder.names().len(), COUNT as usize + 1);
}

#[test]
fn an_interrupted_run_is_started_again() {
    const COUNT: u32 = 40;
    const STOP: usize = 25;
    let folder = Folder::new();
    let (paths, sheets, list) = archive(&folder, COUNT);
    let second: Vec<Vec<u8>> = sheets
        .iter()
        .map(|sheet| converted(sheet, 2).unwrap())
        .collect();
    // A pipe that nobody writes to holds the run up in the middle.
    fs::remove_file(&paths[STOP]).unwrap();
    let pipe = Command::new("mkfifo").arg(&paths[STOP]).status().unwrap();
    assert!(pipe.success());
    let mut child = command()
        .args(["convert", "--to", "2", "--list"])
        .arg(&list)
        .stdin(Stdio::null())
        .spawn()
        .unwrap();
    while fs::read(&paths[STOP - 1]).unwrap() != second[STOP - 1] {
        sleep(Duration::from_millis(1));
    }
    assert!(interrupt(child.id()));
    assert_eq!(child.wait().unwrap().code(), None, "the signal ends it");
    fs::remove_file(&paths[STOP]).unwrap();
    fs::write(&paths[STOP], &sheets[STOP]).unwrap();
    assert_eq!(bytes_of(&paths[..STOP]), second[..STOP]);
    assert_eq!(bytes_of(&paths[STOP..]), sheets[STOP..]);
    assert_eq!(folder.names().len(), COUNT as usize + 1);

    let run = convert_list(&folder, "2", &list);
    assert_eq!((run.words.lines().count(), run.status), (STOP + 1, Some(0)));
    let counts = "40 sheets: 15 converted to edition 2, 25 had it already, 0 refused, 0 failed\n";
    assert!(run.words.ends_with(counts), "{}", run.words);
    assert_eq!(bytes_of(&paths), second);
}

/// Sends SIGTERM: where tests run in the background, SIGINT is ignored. Tells whether
/// there was a process.
fn interrupt(process: u32) -> bool {
    let mut kill = Command::new("kill");
    kill.args(["-TERM", &process.to_string()]);
    kill.stderr(Stdio::null()).status().unwrap().success()
}

#[test]
fn an_interruption_at_any_moment_leaves_every_sheet_whole() {
    const COUNT: u32 = 200;
    for delay in 0..12 {
        let folder = Folder::new();
        let (paths, sheets, list) = archive(&folder, COUNT);
        let mut child = command()
            .args(["convert", "--to", "2", "--list"])
            .arg(&list)
            .stdin(Stdio::null())
            .stderr(Stdio::null())
            .spawn()
            .unwrap();
        sleep(Duration::from_millis(2 * delay));
        // It may be done already.
        interrupt(child.id());
        child.wait().unwrap();
        for (bytes, sheet) in bytes_of(&paths).iter().zip(&sheets) {
            assert!(bytes == sheet || *bytes == converted(sheet, 2).unwrap());
        }
        assert_eq!(
            folder.names().len(),
            COUNT as usize + 1,
            "nothing else is left"
        );
        assert_eq!(convert_list(&folder, "2", &list).status, Some(0));
        assert!(bytes_of(&paths)
            .iter()
            .all(|bytes| pokyandi::edition(bytes) == Ok(2)));
    }
}

#[test]
fn progress_on_a_terminal() {
    if run_in_shell(&samples(), "command -v script").status != Some(0) {
        return;
    }
    let folder = Folder::new();
    archive(&folder, 2);
    // Reading the pipe takes longer than the progress line waits for.
    let line = "mkfifo pipe; (sleep 0.4; cat \"road 1.sheet\" >pipe) & \
                pokyandi convert --to 2 \"road 0.sheet\" pipe \"road 1.sheet\"";
    let run = run_in_shell(&folder.path(""), &format!("script -qec '{line}' /dev/null"));
    let text = run.text();
    assert!(text.contains("2 of 3 sheets"), "{text}");
    assert!(
        text.ends_with(" 2 converted to edition 2, 0 had it already, 0 refused, 1 failed\r\n"),
        "{text}"
    );
    assert_eq!(run.status, Some(2));
}
