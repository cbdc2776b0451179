//! The command line.

pub const USAGE: &str = "\
usage: differential run [--seed S] [--count N]
       differential replay --index I [--seed S]
       differential accuracy [--seed S] [--lines N]
       differential published
       differential --help

run       calls the static library and the reference with the same N inputs
          and compares the answers and every byte or number of the memory,
          lent or not. An input is one of the calls stations, check, rewrite,
          elements, text, read, write, peg, points, height, edition, convert,
          look-up and table with one sheet, curve, line, list of points, profile
          or row and length, and one lent buffer. The first inputs have a name.
          Prints how often each call gave each answer. With 20000 inputs or more,
          every refusal that a call can give must occur.
          Without options: seed 1, 80000 inputs.
replay    compares one input of a run again, and prints it.
accuracy  holds the library's stations, elements and offsets on spirals of N
          lines against document 01's sums in fractions. Prints the largest
          differences, the shortest exact lengths that are accepted and the
          longest that are refused.
          Without options: seed 1, 3000 lines.
published holds the library's elements against source document 002's worked
          example, those of curves without spiral against document 01's case
          11, its lines from coordinates against source document 000's, and its
          heights against those of source documents 000 and 003.

The same seed gives the same inputs. Exit status: 0 where all agree and every
bound holds, 1 where not, 2 for arguments that are not understood.
";

/// What the arguments ask for.
#[derive(Debug, PartialEq, Eq)]
pub enum Command {
    Run { seed: u64, count: u64 },
    Replay { seed: u64, index: u64 },
    Accuracy { seed: u64, lines: u64 },
    Published,
    Help,
}

/// Reads the arguments, or says what is wrong with them.
pub fn command_of(arguments: &[String]) -> Result<Command, String> {
    let Some((name, options)) = arguments.split_first() else {
        return Err("a command is missing".to_string());
    };
    if arguments.iter().any(|argument| argument == "--help") {
        return Ok(Command::Help);
    }
    match name.as_str() {
        "run" => {
            let [seed, count] = numbers(options, [("--seed", Some(1)), ("--count", Some(80_000))])?;
            let count = not_zero("--count", count)?;
            Ok(Command::Run { seed, count })
        }
        "replay" => {
            let [seed, index] = numbers(options, [("--seed", Some(1)), ("--index", None)])?;
            Ok(Command::Replay { seed, index })
        }
        "accuracy" => {
            let [seed, lines] = numbers(options, [("--seed", Some(1)), ("--lines", Some(3_000))])?;
            let lines = not_zero("--lines", lines)?;
            Ok(Command::Accuracy { seed, lines })
        }
        "published" => {
            let [] = numbers(options, [])?;
            Ok(Command::Published)
        }
        other => Err(format!("there is no command '{other}'")),
    }
}

/// The numbers of the named options; where one is not given, its default.
fn numbers<const N: usize>(
    options: &[String],
    named: [(&str, Option<u64>); N],
) -> Result<[u64; N], String> {
    let mut given = named.map(|(_, default)| default);
    for pair in options.chunks(2) {
        let name = pair[0].as_str();
        let Some(place) = named.iter().position(|(known, _)| *known == name) else {
            return Err(format!("there is no option '{name}' here"));
        };
        let Some(text) = pair.get(1) else {
            return Err(format!("{name} lacks its number"));
        };
        given[place] = Some(number(name, text)?);
    }
    for ((name, _), given) in named.iter().zip(given) {
        if given.is_none() {
            return Err(format!("{name} is missing"));
        }
    }
    Ok(given.map(Option::unwrap_or_default))
}

fn number(name: &str, text: &str) -> Result<u64, String> {
    text.parse().map_err(|_| {
        format!(
            "{name} takes a whole number from 0 to {}, not '{text}'",
            u64::MAX
        )
    })
}

fn not_zero(name: &str, number: u64) -> Result<u64, String> {
    match number {
        0 => Err(format!("{name} must be 1 or more")),
        _ => Ok(number),
    }
}

#[cfg(test)]
mod tests {
    use super::*;

    fn read(text: &str) -> Result<Command, String> {
        let arguments: Vec<String> = text.split_whitespace().map(str::to_string).collect();
        command_of(&arguments)
    }

    fn wrong(text: &str) -> String {
        read(text).unwrap_err()
    }

    #[test]
    fn commands() {
        assert_eq!(
            read("run"),
            Ok(Command::Run {
                seed: 1,
                count: 80_000
            })
        );
        let given = Command::Run { seed: 5, count: 7 };
        assert_eq!(read("run --count 7 --seed 5"), Ok(given));
        let replay = Command::Replay { seed: 1, index: 0 };
        assert_eq!(read("replay --index 0"), Ok(replay));
        let accuracy = Command::Accuracy { seed: 1, lines: 60 };
        assert_eq!(read("accuracy --lines 60"), Ok(accuracy));
        assert_eq!(read("published"), Ok(Command::Published));
        for text in ["--help", "run --help", "walk --help"] {
            assert_eq!(read(text), Ok(Command::Help));
        }
    }

    #[test]
    fn what_is_wrong() {
        assert_eq!(wrong(""), "a command is missing");
        assert_eq!(wrong("walk"), "there is no command 'walk'");
        assert_eq!(wrong("run --lines 5"), "there is no option '--lines' here");
        assert_eq!(
            wrong("published --seed 1"),
            "there is no option '--seed' here"
        );
        assert_eq!(wrong("run --seed"), "--seed lacks its number");
        assert_eq!(wrong("replay"), "--index is missing");
        assert_eq!(wrong("run --count 0"), "--count must be 1 or more");
        for number in ["x", "-1", "1.5", "18446744073709551616"] {
            let message = wrong(&format!("run --count {number}"));
            let expected = "--count takes a whole number from 0 to 18446744073709551615, not";
            assert_eq!(message, format!("{expected} '{number}'"));
        }
    }
}
