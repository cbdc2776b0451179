//! Signals that end the command wait while a file is replaced, so that a run that is
//! interrupted leaves no half-written file beside the others.

/// A set of signals, as large as C's on Linux.
type Set = [u64; 16];

extern "C" {
    fn sigemptyset(set: *mut Set) -> i32;
    fn sigaddset(set: *mut Set, signal: i32) -> i32;
    fn sigprocmask(how: i32, set: *const Set, old: *mut Set) -> i32;
}

const SIG_BLOCK: i32 = 0;
const SIG_SETMASK: i32 = 2;
/// SIGHUP, SIGINT, SIGTERM.
const ENDING: [i32; 3] = [1, 2, 15];

/// Does something before any of these signals ends the command.
pub fn held_back<T>(work: impl FnOnce() -> T) -> T {
    let mut ending: Set = [0; 16];
    let mut before: Set = [0; 16];
    // SAFETY: the calls write to these sets alone, which are large enough.
    unsafe {
        sigemptyset(&mut ending);
        for signal in ENDING {
            sigaddset(&mut ending, signal);
        }
        sigprocmask(SIG_BLOCK, &ending, &mut before);
    }
    let done = work();
    // SAFETY: the set is only read. A signal that came meanwhile ends the command here.
    unsafe { sigprocmask(SIG_SETMASK, &before, std::ptr::null_mut()) };
    done
}
