//! Runs the command, and gives it folders of its own.

use std::ffi::OsStr;
use std::fs;
use std::io::Write;
use std::path::{Path, PathBuf};
use std::process::{Command, Output, Stdio};
use std::sync::atomic::{AtomicUsize, Ordering};

/// What a run printed, and its exit status.
#[derive(Debug, PartialEq, Eq)]
pub struct Run {
    pub out: Vec<u8>,
    pub words: String,
    pub status: Option<i32>,
}

impl From<Output> for Run {
    fn from(output: Output) -> Run {
        Run {
            out: output.stdout,
            words: String::from_utf8_lossy(&output.stderr).into_owned(),
            status: output.status.code(),
        }
    }
}

impl Run {
    /// What was printed, as text.
    pub fn text(&self) -> String {
        String::from_utf8_lossy(&self.out).into_owned()
    }
}

/// The command, to be run in the folder of the samples.
pub fn command() -> Command {
    let mut command = Command::new(env!("CARGO_BIN_EXE_pokyandi"));
    command.current_dir(samples());
    command
}

/// Runs the command without input.
pub fn run<A: AsRef<OsStr>>(arguments: &[A]) -> Run {
    let output = command().args(arguments).stdin(Stdio::null()).output();
    output.expect("the command starts").into()
}

/// Runs the command with this standard input.
pub fn run_with_input<A: AsRef<OsStr>>(arguments: &[A], input: &[u8]) -> Run {
    let mut child = command()
        .args(arguments)
        .stdin(Stdio::piped())
        .stdout(Stdio::piped())
        .stderr(Stdio::piped())
        .spawn()
        .expect("the command starts");
    let written = child.stdin.take().unwrap().write_all(input);
    written.expect("the command reads its input");
    child.wait_with_output().expect("the command ends").into()
}

/// Runs a line of the shell in a folder; `pokyandi` is the command.
pub fn run_in_shell(folder: &Path, line: &str) -> Run {
    let program = Path::new(env!("CARGO_BIN_EXE_pokyandi"));
    let paths = std::env::var("PATH").unwrap_or_default();
    let path = format!("{}:{paths}", program.parent().unwrap().display());
    let output = Command::new("bash")
        .args(["-c", line])
        .current_dir(folder)
        .env("PATH", path)
        .stdin(Stdio::null())
        .output();
    output.expect("the shell starts").into()
}

/// The repository's top.
pub fn top() -> PathBuf {
    Path::new(env!("CARGO_MANIFEST_DIR")).join("..")
}

/// The folder of the samples.
pub fn samples() -> PathBuf {
    top().join("samples")
}

/// The files of `samples/stations` with this ending, in order.
pub fn sample_files(ending: &str) -> Vec<PathBuf> {
    let entries = fs::read_dir(samples().join("stations")).expect("the samples are there");
    let paths = entries.map(|entry| entry.expect("the samples can be read").path());
    let mut paths: Vec<PathBuf> = paths
        .filter(|path| path.extension() == Some(OsStr::new(ending)))
        .collect();
    paths.sort();
    paths
}

/// A new folder, which is removed in the end.
pub struct Folder(PathBuf);

impl Folder {
    pub fn new() -> Folder {
        static COUNT: AtomicUsize = AtomicUsize::new(0);
        let count = COUNT.fetch_add(1, Ordering::Relaxed);
        let name = format!("pokyandi test {} {count}", std::process::id());
        let path = std::env::temp_dir().join(name);
        fs::create_dir(&path).expect("a folder can be made");
        Folder(path)
    }

    pub fn path(&self, name: &str) -> PathBuf {
        self.0.join(name)
    }

    /// Writes a file, and gives its path.
    pub fn file(&self, name: &str, bytes: &[u8]) -> PathBuf {
        let path = self.path(name);
        fs::write(&path, bytes).expect("the file can be written");
        path
    }

    /// The names of the files in it, in order.
    pub fn names(&self) -> Vec<String> {
        let entries = fs::read_dir(&self.0).expect("the folder can be read");
        let mut names: Vec<String> = entries
            .map(|entry| entry.unwrap().file_name().into_string().unwrap())
            .collect();
        names.sort();
        names
    }
}

impl Drop for Folder {
    fn drop(&mut self) {
        // What is left in the folder for temporary files does no harm.
        let _ = fs::remove_dir_all(&self.0);
    }
}
