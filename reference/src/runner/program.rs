//! One run of a program, within a time limit.

use super::ways::{Feed, Input};
use std::io::{self, Read};
use std::path::Path;
use std::process::{Child, Command, ExitStatus, Stdio};
use std::sync::mpsc;
use std::thread;
use std::time::{Duration, Instant};

/// Most bytes that are kept of what a program prints.
const MOST_PRINTED: u64 = 1 << 20;

/// Pause between two looks at whether a program has ended.
const PAUSE: Duration = Duration::from_micros(20);

/// What came of a run.
#[derive(Debug)]
pub enum Outcome {
    Ended(Printed),
    /// The program did not end in time, and was stopped.
    TooLong,
}

/// What a program printed, and its exit status.
#[derive(Debug)]
pub struct Printed {
    pub stdout: Vec<u8>,
    pub stderr: Vec<u8>,
    pub status: ExitStatus,
}

/// Runs the program with this input, at most as long as the limit. Fails when
/// it cannot be started.
pub fn run(program: &Path, input: Input, limit: Duration) -> io::Result<Outcome> {
    let deadline = Instant::now() + limit;
    let mut child = Command::new(program)
        .stdin(input.stdin)
        .stdout(Stdio::piped())
        .stderr(Stdio::piped())
        .spawn()
        .map_err(|error| cannot_run(program, &error))?;
    let talk = talk(&mut child, input.feed);
    let texts = talk.recv_timeout(limit).ok();
    let status = wait_until(&mut child, deadline)?;
    match (texts, status) {
        (Some(texts), Some(status)) => {
            let [stdout, stderr] = texts?;
            Ok(Outcome::Ended(Printed {
                stdout,
                stderr,
                status,
            }))
        }
        _ => {
            child.kill()?;
            child.wait()?;
            Ok(Outcome::TooLong)
        }
    }
}

fn cannot_run(program: &Path, error: &io::Error) -> io::Error {
    io::Error::other(format!("cannot run {}: {error}", program.display()))
}

/// Standard output and standard error.
type Texts = [Vec<u8>; 2];

/// Writes the program's input and reads its texts, aside.
fn talk(child: &mut Child, feed: Feed) -> mpsc::Receiver<io::Result<Texts>> {
    let stdout = child.stdout.take().expect("it is piped");
    let stderr = child.stderr.take().expect("it is piped");
    let (sender, receiver) = mpsc::channel();
    thread::spawn(move || {
        let texts = feed
            .write()
            .and_then(|()| Ok([read_all(stdout)?, read_all(stderr)?]));
        // Nobody waits any more after the time limit.
        let _ = sender.send(texts);
    });
    receiver
}

fn read_all(text: impl Read) -> io::Result<Vec<u8>> {
    let mut bytes = Vec::new();
    text.take(MOST_PRINTED).read_to_end(&mut bytes)?;
    Ok(bytes)
}

/// The exit status; nothing when the program still runs at the deadline.
fn wait_until(child: &mut Child, deadline: Instant) -> io::Result<Option<ExitStatus>> {
    loop {
        let status = child.try_wait()?;
        if status.is_some() || Instant::now() >= deadline {
            return Ok(status);
        }
        thread::sleep(PAUSE);
    }
}

#[cfg(test)]
mod tests {
    use super::super::ways::{in_pieces, through_pipe};
    use super::*;

    const LIMIT: Duration = Duration::from_secs(10);

    /// Runs a shell with this script as its standard input.
    fn run_script(script: &str, limit: Duration) -> Outcome {
        let input = through_pipe(script.as_bytes()).unwrap();
        run(Path::new("sh"), input, limit).unwrap()
    }

    fn printed(outcome: Outcome) -> Printed {
        match outcome {
            Outcome::Ended(printed) => printed,
            Outcome::TooLong => panic!("the program did not end"),
        }
    }

    #[test]
    fn texts_and_status() {
        let found = printed(run_script("echo a; echo b >&2; exit 3", LIMIT));
        assert_eq!(found.stdout, b"a\n");
        assert_eq!(found.stderr, b"b\n");
        assert_eq!(found.status.code(), Some(3));
    }

    #[test]
    fn program_gets_all_pieces() {
        let bytes: Vec<u8> = (0..=255).cycle().take(720).collect();
        for sizes in [&[1][..], &[3, 1, 7, 300]] {
            let input = in_pieces(&bytes, sizes, LIMIT).unwrap();
            let found = printed(run(Path::new("cat"), input, LIMIT).unwrap());
            assert!(found.status.success() && found.stderr.is_empty());
            assert_eq!(found.stdout, bytes);
        }
    }

    #[test]
    fn program_that_does_not_end() {
        let limit = Duration::from_millis(50);
        for script in ["exec sleep 60", "exec sleep 60 >&- 2>&-"] {
            let outcome = run_script(script, limit);
            assert!(matches!(outcome, Outcome::TooLong), "{script}");
        }
    }

    #[test]
    fn program_that_does_not_read() {
        let input = in_pieces(&[7; 5_000], &[1], LIMIT).unwrap();
        let found = printed(run(Path::new("true"), input, LIMIT).unwrap());
        assert!(found.status.success());
    }

    #[test]
    fn missing_program() {
        let input = through_pipe(b"").unwrap();
        let error = run(Path::new("./no-such-program"), input, LIMIT).unwrap_err();
        assert!(error
            .to_string()
            .starts_with("cannot run ./no-such-program:"));
    }
}
