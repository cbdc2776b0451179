//! The help: every example in it prints what it says.

use crate::run::{run, run_in_shell, top};

const SUBCOMMANDS: [&str; 9] = [
    "stations", "pegs", "profile", "elements", "check", "convert", "make", "show", "table",
];

/// The commands of a help text's examples, each with what it prints.
fn examples(help: &str) -> Vec<(String, String)> {
    let mut examples: Vec<(String, String)> = Vec::new();
    let mut inside = false;
    for line in help.lines() {
        let Some(line) = line.strip_prefix("    ") else {
            inside = false;
            continue;
        };
        if let Some(command) = line.strip_prefix("$ ") {
            examples.push((command.to_string(), String::new()));
            inside = true;
        } else if inside {
            let (_, printed) = examples.last_mut().unwrap();
            *printed += &format!("{line}\n");
        }
    }
    examples
}

#[test]
fn the_examples_print_what_the_help_says() {
    let general = run(&["--help"]);
    let others = SUBCOMMANDS.map(|subcommand| run(&[subcommand, "--help"]));
    for help in [general].into_iter().chain(others) {
        assert_eq!((help.status, help.words.as_str()), (Some(0), ""));
        let examples = examples(&help.text());
        assert!(!examples.is_empty(), "{}", help.text());
        for (command, printed) in examples {
            let run = run_in_shell(&top(), &format!("{command} 2>&1"));
            assert_eq!(run.text(), printed, "{command}");
        }
    }
}

#[test]
fn the_help_lists_the_subcommands() {
    let help = run(&["--help"]).text();
    for subcommand in SUBCOMMANDS {
        assert!(
            help.contains(&format!("pokyandi {subcommand} ")),
            "{subcommand}"
        );
    }
}

#[test]
fn wrong_usage_has_status_2_and_no_results() {
    let lines: [&[&str]; 52] = [
        &[],
        &["station"],
        &["--verbose"],
        &["stations", "--as"],
        &["stations", "--as", "feet"],
        &["stations", "--as", "km", "--as", "km", "a.sheet"],
        &["help", "station"],
        &["stations", "--list"],
        &["stations", "--list", "a", "b.sheet"],
        &["stations", "--list", "a", "--list", "b"],
        &["check", "--=a", "stations/case-01.sheet"],
        &["check", "--help=a"],
        &["pegs", "--every"],
        &["pegs", "--every", "0", "stations/case-01.sheet"],
        &["pegs", "--every", "20.0005m", "stations/case-01.sheet"],
        &["pegs", "--every", "20ft", "stations/case-01.sheet"],
        &["pegs", "--every", "20m", "--every", "20m"],
        &["pegs", "--as", "feet", "stations/case-01.sheet"],
        &["stations", "--every", "20m", "stations/case-01.sheet"],
        &["profile", "--every", "0", "profile.txt"],
        &["profile", "--from"],
        &["profile", "--to", "13+000", "profile.txt"],
        &["profile", "--to", "-5m", "profile.txt"],
        &["profile", "--to", "13km", "--to", "13km", "profile.txt"],
        &["profile", "--list", "a", "profile.txt"],
        &["pegs", "--to", "500m", "stations/case-01.sheet"],
        &["elements"],
        &["elements", "--as", "km", "a.sheet"],
        &["check"],
        &["convert", "stations/case-01.sheet"],
        &["convert", "--to", "2"],
        &["convert", "--to"],
        &["convert", "--to", "3", "stations/case-01.sheet"],
        &["convert", "--to", "two", "stations/case-01.sheet"],
        &["convert", "--to", "2", "--to", "2", "missing"],
        &["convert", "--edition", "2", "missing"],
        &["make", "--edition", "3", "line.txt", "-"],
        &["make", "--to", "2", "line.txt", "-"],
        &["make"],
        &["make", "a.txt"],
        &["make", "a.txt", "b.sheet", "c.sheet"],
        &["show", "a.sheet", "b.sheet"],
        &["table", "--as"],
        &["table", "--as", "km"],
        &["table", "--as", "csv", "--as", "csv"],
        &["table", "--every", "20m"],
        &["table", "--list", "a"],
        &["table", "250"],
        &["table", "250", "80m", "90m"],
        &["table", "0.25", "80m"],
        &["table", "-1", "80m"],
        &["table", "250", "80.0005m"],
    ];
    for line in lines {
        let run = run(line);
        assert_eq!((run.status, run.out.len()), (Some(2), 0), "{line:?}");
        assert!(
            run.words.starts_with("pokyandi: "),
            "{line:?}: {}",
            run.words
        );
    }
}

#[test]
fn versions() {
    let version = env!("CARGO_PKG_VERSION");
    let text = run(&["--version"]).text();
    assert_eq!(text, format!("pokyandi {version}, library {version}\n"));
}
