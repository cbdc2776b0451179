//! The command `pokyandi` on many sheets in one process, against the reference's
//! reports on as many lines.

use crate::arguments::{told, Options, Programs};
use crate::inputs::{Inputs, Road};
use crate::measure::{alternate, Times, Work};
use crate::table::print_row;
use reference::hexadecimal::digits_of;
use reference::report::report;
use std::fmt::Write;
use std::fs::{self, File};
use std::path::{Path, PathBuf};
use std::process::{Command, Stdio};

/// How many sheets a run has, and in how many rounds each is timed.
const SHEETS: usize = 100_000;
const ROUNDS: usize = 3;
const QUICK_SHEETS: usize = 1_000;
const QUICK_ROUNDS: usize = 1;

/// A folder of sheets with a list of their names, and the same sheets in
/// hexadecimal, a line each; it is removed in the end.
struct Folder {
    path: PathBuf,
    count: usize,
}

/// How many sheets stand in one folder.
const IN_FOLDER: usize = 1_000;

impl Folder {
    fn new(roads: &[Road], count: usize) -> Result<Folder, String> {
        let name = format!("pokyandi-bench-{}", std::process::id());
        let path = std::env::temp_dir().join(name);
        let folder = Folder { path, count };
        folder.fill(roads)?;
        Ok(folder)
    }

    /// The path of sheet i.
    fn sheet(&self, i: usize) -> PathBuf {
        self.part(i).join(format!("{i}.sheet"))
    }

    fn part(&self, i: usize) -> PathBuf {
        self.path.join((i / IN_FOLDER).to_string())
    }

    fn list(&self) -> PathBuf {
        self.path.join("list")
    }

    fn digits(&self) -> PathBuf {
        self.path.join("digits")
    }

    fn fill(&self, roads: &[Road]) -> Result<(), String> {
        let (mut list, mut digits) = (String::new(), String::new());
        for (i, road) in (0..self.count).zip(roads.iter().cycle()) {
            if i % IN_FOLDER == 0 {
                let part = self.part(i);
                fs::create_dir_all(&part).map_err(|error| told(&part, &error))?;
            }
            let sheet = self.sheet(i);
            write(&sheet, &road.sheet)?;
            // A text takes all that is written to it.
            let _ = writeln!(list, "{}", sheet.display());
            let _ = writeln!(digits, "{}", digits_of(&road.sheet));
        }
        write(&self.list(), list.as_bytes())?;
        write(&self.digits(), digits.as_bytes())
    }
}

impl Drop for Folder {
    fn drop(&mut self) {
        // What is left in the folder for temporary files does no harm.
        let _ = fs::remove_dir_all(&self.path);
    }
}

fn write(path: &Path, bytes: &[u8]) -> Result<(), String> {
    fs::write(path, bytes).map_err(|error| told(path, &error))
}

/// Compares what the command prints for one sheet each of these roads, times both
/// programs on many and prints the times of one sheet. Gives a note on the rates.
pub fn measure(programs: &Programs, options: &Options, inputs: &Inputs) -> Result<String, String> {
    let (count, rounds) = match options.quick {
        true => (QUICK_SHEETS, QUICK_ROUNDS),
        false => (SHEETS, ROUNDS),
    };
    let mut rates = Vec::new();
    let sizes = [(&inputs.full, "64 curves"), (&inputs.single, "1 curve")];
    for (roads, size) in sizes {
        compare(programs, roads)?;
        let times = measure_many(programs, &Folder::new(roads, count)?, rounds)?;
        print_row(
            &format!("command, {size} (***)"),
            &times[0],
            &[Some(&times[1])],
        );
        rates.push(format!("{:.0} a second of {size}", 1e9 / times[0].median()));
    }
    Ok(format!(
        "{count} sheets in one process: {}.",
        rates.join(", ")
    ))
}

fn compare(programs: &Programs, roads: &[Road]) -> Result<(), String> {
    let folder = Folder::new(roads, roads.len())?;
    let output = command(programs, &folder).output();
    let output = output.map_err(|error| told(&programs.own, &error))?;
    let mut expected = String::new();
    for (i, road) in roads.iter().enumerate() {
        let name = folder.sheet(i);
        expected += &format!("SHEET {}\n{}", name.display(), report(&road.sheet));
    }
    match output.status.success() && output.stdout == expected.as_bytes() {
        true => Ok(()),
        false => Err(told(
            &programs.own,
            &"prints other than the reference's reports",
        )),
    }
}

fn command(programs: &Programs, folder: &Folder) -> Command {
    let mut command = Command::new(&programs.own);
    command.args(["stations", "--list"]).arg(folder.list());
    command
}

fn measure_many(programs: &Programs, folder: &Folder, rounds: usize) -> Result<Vec<Times>, String> {
    let mut works: Vec<Work> = vec![
        Box::new(|| run(&mut command(programs, folder))),
        Box::new(|| {
            let digits = folder.digits();
            let input = File::open(&digits).map_err(|error| told(&digits, &error))?;
            run(Command::new(&programs.reference)
                .arg("reports")
                .stdin(input))
        }),
    ];
    alternate(rounds, folder.count, &mut works)
}

fn run(command: &mut Command) -> Result<(), String> {
    let name = PathBuf::from(command.get_program());
    let status = command.stdout(Stdio::null()).status();
    match status {
        Ok(status) if status.success() => Ok(()),
        Ok(status) => Err(told(&name, &status)),
        Err(error) => Err(told(&name, &error)),
    }
}
