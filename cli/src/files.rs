//! Files: sheets and texts read, sheets written so that a failure keeps the old
//! one. The name `-` stands for standard input or output.

use crate::console::input;
use crate::signals::held_back;
use std::ffi::OsStr;
use std::fmt;
use std::fs::{self, File, Metadata, OpenOptions};
use std::io::{self, IsTerminal, Read, Write};
use std::os::unix::fs::{fchown, MetadataExt};
use std::path::{Path, PathBuf};

/// One byte more than the longest sheet, so that a longer one is seen.
const MOST_OF_SHEET: u64 = pokyandi::SHEET_BYTES as u64 + 1;
/// What is larger is taken for another file.
const MOST_OF_TEXT: u64 = 1 << 20;

/// A file's name for people.
pub struct Name<'a>(pub &'a OsStr);

impl fmt::Display for Name<'_> {
    fn fmt(&self, f: &mut fmt::Formatter) -> fmt::Result {
        let name = self.0.to_string_lossy();
        match &*name {
            "-" => write!(f, "standard input"),
            "" => write!(f, "\"\""),
            name => write!(f, "{}", visible(name)),
        }
    }
}

/// A text with letters that a terminal would obey, or that nobody sees, as codes.
pub fn visible(text: &str) -> String {
    let shown = |letter: char| match letter {
        '\'' | '"' | '\\' => letter.to_string(),
        // It leaves what is printed, and writes the others as codes.
        _ => letter.escape_debug().to_string(),
    };
    text.chars().map(shown).collect()
}

/// Whether a name stands for standard input or output.
pub fn is_standard(name: &OsStr) -> bool {
    name == "-"
}

/// Whether a sheet of this name is written to standard output. The file behind it
/// is never opened anew, which would write over what is there.
pub fn is_output(name: &OsStr) -> bool {
    is_standard(name) || name == "/dev/stdout"
}

/// The bytes of a sheet, of which no more are read than tell that it is too long.
pub fn read_sheet(name: &OsStr) -> io::Result<Vec<u8>> {
    read(name, MOST_OF_SHEET)
}

/// The bytes of a text.
pub fn read_text(name: &OsStr) -> io::Result<Vec<u8>> {
    let text = read(name, MOST_OF_TEXT)?;
    match text.len() as u64 == MOST_OF_TEXT {
        true => Err(io::Error::other(
            "too long for the text of a line or a profile",
        )),
        false => Ok(text),
    }
}

/// All bytes of a file.
pub fn read_all(name: &OsStr) -> io::Result<Vec<u8>> {
    read(name, u64::MAX)
}

fn read(name: &OsStr, most: u64) -> io::Result<Vec<u8>> {
    let mut bytes = Vec::new();
    if is_standard(name) {
        let input = input()?;
        if input.is_terminal() {
            let _ = writeln!(io::stderr(), "pokyandi: reading standard input");
        }
        input.lock().take(most).read_to_end(&mut bytes)?;
    } else {
        File::open(name)?.take(most).read_to_end(&mut bytes)?;
    }
    Ok(bytes)
}

/// Whether both names lead to one file.
pub fn are_same(text: &OsStr, sheet: &OsStr) -> bool {
    match (fs::metadata(text), fs::metadata(sheet)) {
        (Ok(text), Ok(sheet)) => text.is_file() && is_same(&text, &sheet),
        _ => false,
    }
}

fn is_same(one: &Metadata, other: &Metadata) -> bool {
    (one.dev(), one.ino()) == (other.dev(), other.ino())
}

/// Whether this process has the file open: it is a text on standard input, or a
/// name such as /dev/fd/3 leads to it.
fn is_open(file: &Metadata) -> bool {
    let descriptors = fs::read_dir("/proc/self/fd")
        .into_iter()
        .flatten()
        .flatten();
    let mut open = descriptors.filter_map(|entry| fs::metadata(entry.path()).ok());
    open.any(|open| is_same(&open, file))
}

/// Puts the bytes into a file that is there, as `replace` does. What is no file, but a
/// device or a pipe, has no bytes of its own to be replaced.
pub fn rewrite(name: &OsStr, bytes: &[u8]) -> io::Result<()> {
    match fs::metadata(name)?.is_file() {
        true => replace(name, bytes),
        false => Err(io::Error::other("only a file can be rewritten in place")),
    }
}

/// Puts the bytes into a file: written beside it, read back, compared and renamed,
/// so that a failure keeps the old file. A device or pipe is written to itself.
pub fn replace(name: &OsStr, bytes: &[u8]) -> io::Result<()> {
    match fs::metadata(name) {
        Ok(old) if old.is_dir() => Err(io::ErrorKind::IsADirectory.into()),
        Ok(old) if !old.is_file() => OpenOptions::new().write(true).open(name)?.write_all(bytes),
        Ok(old) if old.permissions().readonly() => Err(io::ErrorKind::PermissionDenied.into()),
        Ok(old) if is_open(&old) => Err(io::Error::other("the file is in use, as text or output")),
        Ok(old) => {
            let path = fs::canonicalize(name)?;
            held_back(|| replace_file(&path, Some(&old), bytes))
        }
        Err(_) if fs::symlink_metadata(name).is_err() => {
            held_back(|| replace_file(name.as_ref(), None, bytes))
        }
        // A link that leads nowhere.
        Err(error) => Err(error),
    }
}

fn replace_file(path: &Path, old: Option<&Metadata>, bytes: &[u8]) -> io::Result<()> {
    let (beside, file) = new_beside(path)?;
    let written = write_checked(file, &beside, old, bytes);
    let replaced = written.and_then(|()| fs::rename(&beside, path));
    if replaced.is_err() {
        let _ = fs::remove_file(&beside);
    }
    replaced
}

/// A new file in the folder of another, and its path.
fn new_beside(path: &Path) -> io::Result<(PathBuf, File)> {
    let mut count = 0;
    loop {
        let name = format!(".pokyandi-{}-{count}", std::process::id());
        let beside = path.with_file_name(name);
        match OpenOptions::new()
            .write(true)
            .create_new(true)
            .open(&beside)
        {
            Err(error) if error.kind() == io::ErrorKind::AlreadyExists => count += 1,
            opened => return opened.map(|file| (beside, file)),
        }
    }
}

/// Writes a file and reads it back. It gets permissions and owner of an old one.
fn write_checked(
    mut file: File,
    path: &Path,
    old: Option<&Metadata>,
    bytes: &[u8],
) -> io::Result<()> {
    file.write_all(bytes)?;
    file.sync_all()?;
    if fs::read(path)? != bytes {
        return Err(io::Error::other("the file does not hold what was written"));
    }
    let Some(old) = old else {
        return Ok(());
    };
    // Only root may give a file away: else it belongs to whoever wrote it.
    let _ = fchown(&file, Some(old.uid()), Some(old.gid()));
    file.set_permissions(old.permissions())
}
