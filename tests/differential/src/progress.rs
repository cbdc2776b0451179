//! How far a run is, on standard error, about once a second.

use std::io::{self, IsTerminal, Write};
use std::time::{Duration, Instant};

const PERIOD: Duration = Duration::from_secs(1);

/// A run's progress: rewritten in place on a terminal, else one line each time.
pub struct Progress {
    what: &'static str,
    total: u64,
    last: Instant,
    in_place: bool,
}

impl Progress {
    pub fn new(what: &'static str, total: u64) -> Progress {
        Progress {
            what,
            total,
            last: Instant::now(),
            in_place: io::stderr().is_terminal(),
        }
    }

    /// Prints how many are done, if the last time is long enough ago.
    pub fn show(&mut self, done: u64) {
        if self.last.elapsed() < PERIOD {
            return;
        }
        self.last = Instant::now();
        let text = format!("{done} of {} {}", self.total, self.what);
        if self.in_place {
            eprint!("\r{text}");
        } else {
            eprintln!("{text}");
        }
    }

    /// Clears a line that is rewritten in place.
    pub fn end(&self) {
        if self.in_place {
            eprint!("\r{:60}\r", "");
            // Nothing is lost where this fails.
            let _ = io::stderr().flush();
        }
    }
}
