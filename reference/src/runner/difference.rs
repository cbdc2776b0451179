//! What a run of the station program has other than expected.

use super::program::{Outcome, Printed};

/// After so many differences the program is not started again.
pub const MOST_DIFFERENCES: usize = 10;

/// Describes how a run differs from the report that is expected; nothing when
/// the program printed just that, nothing on standard error, and ended with
/// status 0.
pub fn difference(outcome: &Outcome, expected: &str) -> Option<String> {
    match outcome {
        Outcome::Ended(printed) if is_expected(printed, expected) => None,
        Outcome::Ended(printed) => Some(describe(printed, expected)),
        Outcome::TooLong => Some(format!(
            "expected:\n{expected}but the program did not end in time, and was stopped\n"
        )),
    }
}

fn is_expected(printed: &Printed, expected: &str) -> bool {
    printed.stdout == expected.as_bytes() && printed.stderr.is_empty() && printed.status.success()
}

fn describe(printed: &Printed, expected: &str) -> String {
    let mut text = format!("expected:\n{expected}printed:\n");
    text += &whole_lines(&printed.stdout);
    if !printed.stderr.is_empty() {
        text += "on standard error:\n";
        text += &whole_lines(&printed.stderr);
    }
    if !printed.status.success() {
        text += &format!("{}\n", printed.status);
    }
    text
}

/// The text, with a mark where its last line has no newline.
fn whole_lines(bytes: &[u8]) -> String {
    let text = String::from_utf8_lossy(bytes);
    if text.is_empty() || text.ends_with('\n') {
        text.into_owned()
    } else {
        format!("{text}\n(no newline at the end)\n")
    }
}

#[cfg(test)]
mod tests {
    use super::super::program::run;
    use super::super::ways::through_pipe;
    use super::*;
    use std::path::Path;
    use std::time::Duration;

    const EXPECTED: &str = "REFUSED 1 0\n";

    /// The difference of a shell with this script as its standard input.
    fn of_script(script: &str) -> Option<String> {
        let input = through_pipe(script.as_bytes()).unwrap();
        let outcome = run(Path::new("sh"), input, Duration::from_secs(10)).unwrap();
        difference(&outcome, EXPECTED)
    }

    #[test]
    fn expected_run() {
        assert_eq!(of_script("echo REFUSED 1 0"), None);
    }

    #[test]
    fn other_runs() {
        let both = |printed: &str| Some(format!("expected:\n{EXPECTED}printed:\n{printed}"));
        assert_eq!(of_script("echo REFUSED 1 1"), both("REFUSED 1 1\n"));
        assert_eq!(of_script(""), both(""));
        assert_eq!(
            of_script("printf 'REFUSED 1 0'"),
            both("REFUSED 1 0\n(no newline at the end)\n")
        );
        assert_eq!(
            of_script("echo REFUSED 1 0; echo; echo b >&2; exit 1"),
            both("REFUSED 1 0\n\non standard error:\nb\nexit status: 1\n")
        );
        let late = difference(&Outcome::TooLong, EXPECTED).unwrap();
        assert!(late.contains("did not end in time"));
    }
}
