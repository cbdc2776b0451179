//! Standard output for results, standard error for words and progress, and the
//! exit status.

use std::fmt::Display;
use std::io::{self, BufWriter, IsTerminal, Stdout, Write};
use std::process::ExitCode;
use std::sync::atomic::{AtomicBool, Ordering};
use std::time::{Duration, Instant};

/// How a run ended; of several sheets the worst counts.
#[derive(Clone, Copy, Debug, PartialEq, Eq, PartialOrd, Ord)]
pub enum Status {
    Done = 0,
    /// A sheet or a line is refused, or a text is faulty.
    Refused = 1,
    /// Wrong usage, or reading or writing failed.
    Failed = 2,
}

impl From<Status> for ExitCode {
    fn from(status: Status) -> ExitCode {
        ExitCode::from(status as u8)
    }
}

/// How often the progress line changes.
const PROGRESS_EVERY: Duration = Duration::from_millis(200);

pub struct Console {
    out: BufWriter<Stdout>,
    /// Why results could not be written, where that is not told yet.
    failure: Option<io::Error>,
    /// Whether progress is shown: standard error is a terminal, and results go
    /// elsewhere.
    shows_progress: bool,
    /// When the progress line was last drawn, and whether it is there.
    drawn: Instant,
    is_drawn: bool,
}

impl Console {
    pub fn new() -> Console {
        Console {
            out: BufWriter::with_capacity(1 << 16, io::stdout()),
            failure: None,
            shows_progress: io::stderr().is_terminal() && !io::stdout().is_terminal(),
            drawn: Instant::now(),
            is_drawn: false,
        }
    }

    /// Says that hardly any results go to standard output, so that they do not hide
    /// the progress line where both are one terminal.
    pub fn expect_no_results(&mut self) {
        self.shows_progress = io::stderr().is_terminal();
    }

    /// Puts out results.
    pub fn print(&mut self, text: &[u8]) -> io::Result<()> {
        if OUTPUT_UNUSABLE.load(Ordering::Relaxed) {
            return Err(bad_descriptor());
        }
        self.failure.take().map_or(Ok(()), Err)?;
        self.out.write_all(text)
    }

    /// Puts out what is left of the results.
    pub fn finish(&mut self) -> io::Result<()> {
        self.clear_progress();
        self.failure.take().map_or(Ok(()), Err)?;
        self.out.flush()
    }

    /// Puts out words for a person, after the results so far. That they cannot be
    /// written can be told nobody.
    pub fn say(&mut self, words: &str) {
        self.clear_progress();
        if let Err(error) = self.out.flush() {
            self.failure.get_or_insert(error);
        }
        let _ = writeln!(io::stderr(), "{words}");
    }

    /// Says which reading or writing failed.
    pub fn fail(&mut self, name: &dyn Display, error: &io::Error) {
        let error = error.to_string();
        let words = error.split(" (os error").next().unwrap_or(&error);
        self.say(&format!("pokyandi: {name}: {words}"));
    }

    /// Shows how many of how many are done.
    pub fn progress(&mut self, done: usize, all: usize, things: &str) {
        if self.shows_progress && self.drawn.elapsed() >= PROGRESS_EVERY {
            self.clear_progress();
            let _ = write!(io::stderr(), "{done} of {all} {things}");
            self.drawn = Instant::now();
            self.is_drawn = true;
        }
    }

    fn clear_progress(&mut self) {
        if self.is_drawn {
            let _ = write!(io::stderr(), "\r\x1b[K");
            self.is_drawn = false;
        }
    }
}

// Where standard input or output is closed, Rust's own start puts /dev/null in
// its place, and it takes a descriptor that is open the wrong way for an empty
// one: results would be lost without a word. So the descriptors are looked at
// before that start.

static INPUT_UNUSABLE: AtomicBool = AtomicBool::new(false);
static OUTPUT_UNUSABLE: AtomicBool = AtomicBool::new(false);

#[used]
#[link_section = ".init_array"]
static BEFORE_START: extern "C" fn() = look_at_descriptors;

extern "C" fn look_at_descriptors() {
    extern "C" {
        fn fcntl(descriptor: i32, command: i32, ...) -> i32;
    }
    const F_GETFL: i32 = 3;
    const O_ACCMODE: i32 = 3;
    const O_RDONLY: i32 = 0;
    const O_WRONLY: i32 = 1;
    let looks = [
        (0, O_WRONLY, &INPUT_UNUSABLE),
        (1, O_RDONLY, &OUTPUT_UNUSABLE),
    ];
    for (descriptor, wrong_way, is_unusable) in looks {
        // SAFETY: F_GETFL takes no further argument and changes nothing.
        let flags = unsafe { fcntl(descriptor, F_GETFL) };
        let is_wrong = flags == -1 || flags & O_ACCMODE == wrong_way;
        is_unusable.store(is_wrong, Ordering::Relaxed);
    }
}

fn bad_descriptor() -> io::Error {
    const EBADF: i32 = 9;
    io::Error::from_raw_os_error(EBADF)
}

/// Standard input, which is an error where it cannot be read.
pub fn input() -> io::Result<io::Stdin> {
    match INPUT_UNUSABLE.load(Ordering::Relaxed) {
        true => Err(bad_descriptor()),
        false => Ok(io::stdin()),
    }
}
