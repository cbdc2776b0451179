//! The station program and the reference's, run with a sheet on standard input;
//! the reference takes it in hexadecimal digits.

use crate::arguments::{told, Programs};
use crate::inputs::mountain_road;
use crate::measure::{alternate, Work};
use crate::table::print_row;
use reference::hexadecimal::digits_of;
use reference::report::report;
use std::fs::{self, File};
use std::path::{Path, PathBuf};
use std::process::{Command, Stdio};

/// A program's input, which is removed in the end.
struct InputFile(PathBuf);

impl InputFile {
    fn new(ending: &str, bytes: &[u8]) -> Result<InputFile, String> {
        let name = format!("pokyandi-bench-{}.{ending}", std::process::id());
        let path = std::env::temp_dir().join(name);
        fs::write(&path, bytes).map_err(|error| told(&path, &error))?;
        Ok(InputFile(path))
    }
}

impl Drop for InputFile {
    fn drop(&mut self) {
        // What is left in the folder for temporary files does no harm.
        let _ = fs::remove_file(&self.0);
    }
}

/// Runs both alternately and prints their times; every run must print the
/// mountain road's stations. Gives the time of `true`, a process that does
/// nothing, in ns.
pub fn measure(programs: &Programs, rounds: usize) -> Result<f64, String> {
    let sheet = mountain_road();
    let InputFile(bytes) = &InputFile::new("sheet", &sheet)?;
    let InputFile(digits) = &InputFile::new("digits", digits_of(&sheet).as_bytes())?;
    let expected = report(&sheet);
    let mut works: Vec<Work> = vec![
        Box::new(|| run_program(&programs.own, &[], bytes, &expected)),
        Box::new(|| run_program(&programs.reference, &["reports"], digits, &expected)),
        Box::new(|| run_program(Path::new("true"), &[], bytes, "")),
    ];
    alternate(1, 1, &mut works)?;
    let times = alternate(rounds, 1, &mut works)?;
    print_row("program, 64 curves (**)", &times[0], &[Some(&times[1])]);
    Ok(times[2].median())
}

/// Runs a program, whose standard input is the file.
fn run_program(path: &Path, arguments: &[&str], file: &Path, expected: &str) -> Result<(), String> {
    let input = File::open(file).map_err(|error| told(file, &error))?;
    let output = Command::new(path)
        .args(arguments)
        .stdin(input)
        .stderr(Stdio::inherit())
        .output()
        .map_err(|error| told(path, &error))?;
    if !output.status.success() {
        return Err(told(path, &output.status));
    }
    if output.stdout != expected.as_bytes() {
        return Err(told(path, &"prints other than the reference's report"));
    }
    Ok(())
}
