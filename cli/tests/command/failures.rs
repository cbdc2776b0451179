//! Reading and writing that fails: exit status 2, and words.

use crate::run::{run, run_in_shell, samples, Folder};
use std::fs;

/// A line of the shell that fails, and what its words have.
fn check_failure(line: &str, words: &str) {
    let run = run_in_shell(&samples(), line);
    assert_eq!(run.status, Some(2), "{line}: {}", run.words);
    assert!(run.words.contains(words), "{line}: {}", run.words);
}

#[test]
fn a_full_disk() {
    let full = "No space left on device";
    let lines = [
        "pokyandi stations stations/case-01.sheet >/dev/full",
        "pokyandi stations --as csv stations/*.sheet >/dev/full",
        "pokyandi pegs stations/case-01.sheet >/dev/full",
        "pokyandi pegs --every 12mm stations/mountain-road.sheet >/dev/full",
        "pokyandi profile profile.txt >/dev/full",
        "pokyandi profile --every 20mm profile.txt >/dev/full",
        "pokyandi elements stations/case-01.sheet >/dev/full",
        "pokyandi check stations/case-01.sheet >/dev/full",
        "pokyandi show stations/case-01.sheet >/dev/full",
        "pokyandi table >/dev/full",
        "pokyandi table --as csv 250 80m >/dev/full",
        "pokyandi table 501 80m >/dev/full",
        "pokyandi convert --to 2 - <stations/case-01.sheet >/dev/full",
        "pokyandi make line.txt - >/dev/full",
        "pokyandi make line.txt /dev/full",
        "pokyandi --help >/dev/full",
    ];
    for line in lines {
        check_failure(line, full);
    }
}

#[test]
fn a_closed_output_or_input() {
    check_failure(
        "pokyandi stations stations/case-01.sheet >&-",
        "standard output: Bad file descriptor",
    );
    check_failure(
        "pokyandi make line.txt /dev/stdout >&-",
        "standard output: Bad file descriptor",
    );
    check_failure(
        "pokyandi check stations/case-01.sheet >&-",
        "standard output: Bad file descriptor",
    );
    check_failure("pokyandi table >&-", "standard output: Bad file descriptor");
    check_failure(
        "pokyandi stations <&-",
        "standard input: Bad file descriptor",
    );
    check_failure(
        "pokyandi profile <&-",
        "standard input: Bad file descriptor",
    );
    check_failure(
        "pokyandi convert --to 2 - <stations/case-01.sheet >&-",
        "standard output: Bad file descriptor",
    );
    check_failure(
        "pokyandi convert --to 2 - <&-",
        "standard input: Bad file descriptor",
    );
    check_failure(
        "pokyandi make - /tmp/no-such.sheet <&-",
        "standard input: Bad file descriptor",
    );
    // A reader that is gone before the pipe's room is filled.
    let many = "mapfile -t names < <(yes stations/mountain-road.sheet | head -n 100)";
    let line =
        format!("{many}; pokyandi stations \"${{names[@]}}\" | true; exit ${{PIPESTATUS[0]}}");
    check_failure(&line, "standard output: Broken pipe");
}

#[test]
fn folders_and_missing_files() {
    let folder = Folder::new();
    let [no_file, in_no_folder] = ["missing", "missing/line.sheet"].map(|name| folder.path(name));
    let here = folder.path("");
    for subcommand in ["stations", "pegs", "profile", "elements", "check", "show"] {
        for (path, words) in [(&no_file, "No such file"), (&here, "Is a directory")] {
            let run = run(&[subcommand.as_ref(), path.as_os_str()]);
            assert_eq!((run.status, run.out.len()), (Some(2), 0), "{subcommand}");
            assert!(run.words.contains(words), "{subcommand}: {}", run.words);
        }
    }
    let arguments = [
        [
            "make".as_ref(),
            no_file.as_os_str(),
            in_no_folder.as_os_str(),
        ],
        ["make".as_ref(), here.as_os_str(), in_no_folder.as_os_str()],
        [
            "make".as_ref(),
            "line.txt".as_ref(),
            in_no_folder.as_os_str(),
        ],
        ["make".as_ref(), "line.txt".as_ref(), here.as_os_str()],
        ["stations".as_ref(), "--list".as_ref(), no_file.as_os_str()],
    ];
    for arguments in arguments {
        assert_eq!(run(&arguments).status, Some(2), "{arguments:?}");
    }
    assert_eq!(folder.names(), [""; 0]);
}

#[test]
fn descriptors_that_are_open_the_wrong_way() {
    let output = "standard output: Bad file descriptor";
    check_failure(
        "pokyandi stations stations/case-01.sheet 1</dev/null",
        output,
    );
    check_failure("pokyandi make line.txt - 1<line.txt", output);
    check_failure(
        "pokyandi check - 0>/dev/null",
        "standard input: Bad file descriptor",
    );
    check_failure(
        "pokyandi check - - <stations/case-01.sheet",
        "standard input can be read only once",
    );
}

/// A folder with the text `line.txt`, and that text.
fn folder_of_line() -> (Folder, Vec<u8>) {
    let folder = Folder::new();
    let text = fs::read(samples().join("line.txt")).unwrap();
    folder.file("line.txt", &text);
    (folder, text)
}

#[test]
fn a_sheet_does_not_replace_its_text() {
    let (folder, text) = folder_of_line();
    let lines = [
        "pokyandi make line.txt line.txt",
        "pokyandi make - line.txt <line.txt",
        "pokyandi make - /dev/stdin <line.txt",
        "ln -s line.txt link; pokyandi make link line.txt",
    ];
    for line in lines {
        let run = run_in_shell(&folder.path(""), line);
        assert_eq!(run.status, Some(2), "{line}: {}", run.words);
        assert_eq!(fs::read(folder.path("line.txt")).unwrap(), text, "{line}");
    }
}

#[test]
fn what_is_not_a_sheet_s_own_file_is_kept() {
    let (folder, _) = folder_of_line();
    let log = "seq 1000 >log; ln -sf /proc/self/fd/1 descriptor; pokyandi make line.txt";
    let [output, third, link, dots] = [
        "/proc/self/fd/1 >>log",
        "/dev/fd/3 3>>log",
        "descriptor >>log",
        "./../${PWD##*/}/descriptor >>log",
    ]
    .map(|sheet| format!("{log} {sheet}"));
    let lines = [
        (&*output, "log", 3_893),
        (&*third, "log", 3_893),
        (&*link, "log", 3_893),
        (&*dots, "log", 3_893),
        (
            "ln -sf missing link; pokyandi make line.txt link",
            "missing",
            0,
        ),
        ("ln -sf loop loop; pokyandi make line.txt loop", "loop", 0),
        (
            "echo old >old; chmod 444 old; pokyandi make line.txt old",
            "old",
            4,
        ),
    ];
    for (line, name, size) in lines {
        let run = run_in_shell(&folder.path(""), line);
        assert_eq!(run.status, Some(2), "{line}: {}", run.words);
        let kept = fs::metadata(folder.path(name)).map_or(0, |file| file.len());
        assert_eq!(kept, size, "{line}");
    }
    let added = "seq 1000 >log; pokyandi make line.txt /dev/stdout >>log";
    assert_eq!(run_in_shell(&folder.path(""), added).status, Some(0));
    assert_eq!(fs::metadata(folder.path("log")).unwrap().len(), 3_893 + 21);
    let piped = "pokyandi make line.txt /proc/self/fd/1 | cat >piped";
    assert_eq!(run_in_shell(&folder.path(""), piped).status, Some(0));
    assert_eq!(fs::metadata(folder.path("piped")).unwrap().len(), 21);
    let left = folder
        .names()
        .into_iter()
        .filter(|name| name.starts_with('.'));
    assert_eq!(left.count(), 0);
}
