//! The command line.

use std::path::{Path, PathBuf};

pub const USAGE: &str = "\
usage: bench [--rounds N] [--quick] [--program PATH] [--command PATH]
             [--reference-program PATH]

Times the proved library against the reference, and some calls against plain C, in
alternate rounds of the same calls, and prints the medians. Fails when an answer
differs; never by time.

  --rounds N                rounds of each call, 201 unless given
  --quick                   a few short rounds, in a second or two
  --program PATH            the station program, else target/bin/stations
  --command PATH            the command pokyandi, else target/bin/pokyandi
  --reference-program PATH  the reference's program, else
                            reference/target/release/reference
  --help                    print this text
";

/// What the arguments ask for.
#[derive(Debug, PartialEq, Eq)]
pub enum Request {
    Help,
    Measure(Options),
    /// For `bench/instructions`: the names of the jobs.
    Jobs,
    /// For `bench/instructions`: one side's calls of a job with each input,
    /// `times` times, and nothing else.
    Once {
        job: String,
        side: String,
        times: usize,
    },
}

#[derive(Debug, Default, PartialEq, Eq)]
pub struct Options {
    pub rounds: Option<usize>,
    pub quick: bool,
    pub program: Option<PathBuf>,
    pub command: Option<PathBuf>,
    pub reference_program: Option<PathBuf>,
}

/// The request, or what is wrong with the arguments.
pub fn read(words: &[String]) -> Result<Request, String> {
    let plain: Vec<&str> = words.iter().map(String::as_str).collect();
    match plain[..] {
        ["--help"] => Ok(Request::Help),
        ["jobs"] => Ok(Request::Jobs),
        ["once", job, side, times] => Ok(Request::Once {
            job: job.to_string(),
            side: side.to_string(),
            times: number(times)?,
        }),
        _ => read_options(&plain).map(Request::Measure),
    }
}

fn read_options(words: &[&str]) -> Result<Options, String> {
    let mut options = Options::default();
    let mut rest = words.iter();
    while let Some(&word) = rest.next() {
        let mut value = || rest.next().ok_or(format!("{word} lacks its value"));
        match word {
            "--quick" => options.quick = true,
            "--rounds" => options.rounds = Some(number(value()?)?),
            "--program" => options.program = Some(PathBuf::from(value()?)),
            "--command" => options.command = Some(PathBuf::from(value()?)),
            "--reference-program" => options.reference_program = Some(PathBuf::from(value()?)),
            _ => return Err(format!("{word} is no option")),
        }
    }
    Ok(options)
}

/// A number above zero.
fn number(word: &str) -> Result<usize, String> {
    match word.parse() {
        Ok(number) if number > 0 => Ok(number),
        _ => Err(format!("{word} is not a number above 0")),
    }
}

impl Options {
    pub fn rounds(&self) -> usize {
        self.rounds.unwrap_or(if self.quick { 21 } else { 201 })
    }
}

/// A path from the repository's top.
pub fn from_top(path: &str) -> PathBuf {
    let bench = Path::new(env!("CARGO_MANIFEST_DIR"));
    bench.with_file_name("").join(path)
}

/// A program of the product and the reference's, by their paths.
pub struct Programs {
    pub own: PathBuf,
    pub reference: PathBuf,
}

impl Options {
    /// The station program and the reference's; nothing where one that no option
    /// names is missing.
    pub fn station_programs(&self) -> Result<Option<Programs>, String> {
        self.programs(&self.program, "target/bin/stations")
    }

    /// The command and the reference's program; the same.
    pub fn command_programs(&self) -> Result<Option<Programs>, String> {
        self.programs(&self.command, "target/bin/pokyandi")
    }

    fn programs(&self, named: &Option<PathBuf>, usual: &str) -> Result<Option<Programs>, String> {
        let own = find(named, usual)?;
        let usual = "reference/target/release/reference";
        let reference = find(&self.reference_program, usual)?;
        let both = own.zip(reference);
        Ok(both.map(|(own, reference)| Programs { own, reference }))
    }
}

/// The program that an option names, which must be there, or the one at its usual
/// place; nothing, with a note, where that one is missing.
fn find(named: &Option<PathBuf>, usual: &str) -> Result<Option<PathBuf>, String> {
    let path = named.clone().unwrap_or(from_top(usual));
    if path.is_file() {
        return Ok(Some(path));
    }
    let missing = told(&path, &"it is missing");
    if named.is_some() {
        return Err(missing);
    }
    eprintln!("bench: {missing}: it is not timed");
    Ok(None)
}

/// What is wrong with a file or program.
pub fn told(path: &Path, problem: &dyn std::fmt::Display) -> String {
    format!("{}: {problem}", path.display())
}

#[cfg(test)]
mod tests {
    use super::*;

    fn read_line(line: &str) -> Result<Request, String> {
        let words: Vec<String> = line.split_whitespace().map(String::from).collect();
        read(&words)
    }

    #[test]
    fn options() {
        let Ok(Request::Measure(options)) = read_line("--quick --rounds 7 --program p") else {
            panic!("the options are read");
        };
        assert!(options.quick);
        assert_eq!(options.rounds(), 7);
        assert_eq!(options.program, Some(PathBuf::from("p")));
        assert_eq!(options.command, None);
        assert_eq!(options.reference_program, None);
    }

    #[test]
    fn rounds_without_the_option() {
        let rounds = |line| match read_line(line) {
            Ok(Request::Measure(options)) => options.rounds(),
            other => panic!("{other:?}"),
        };
        assert_eq!(rounds(""), 201);
        assert_eq!(rounds("--quick"), 21);
    }

    #[test]
    fn wrong_arguments() {
        for line in ["--rounds", "--rounds 0", "--rounds x", "--fast", "once a b"] {
            assert!(read_line(line).is_err(), "{line}");
        }
    }

    #[test]
    fn other_requests() {
        assert_eq!(read_line("--help"), Ok(Request::Help));
        assert_eq!(read_line("jobs"), Ok(Request::Jobs));
        let once = Request::Once {
            job: "read-64".into(),
            side: "library".into(),
            times: 2,
        };
        assert_eq!(read_line("once read-64 library 2"), Ok(once));
    }
}
