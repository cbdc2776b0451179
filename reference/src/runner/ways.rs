//! The ways in which a program gets its standard input.

use std::fs::File;
use std::io::{self, ErrorKind, PipeWriter, Write};
use std::os::fd::OwnedFd;
use std::os::unix::net::UnixDatagram;
use std::path::Path;
use std::process::Stdio;
use std::time::Duration;

/// The program's standard input, and what is still to be written to it.
pub struct Input {
    pub stdin: Stdio,
    pub feed: Feed,
}

/// What is still to be written to a program's standard input.
pub enum Feed {
    Nothing,
    Pipe(PipeWriter, Vec<u8>),
    Pieces(UnixDatagram, Vec<Vec<u8>>),
}

/// All bytes through a pipe.
pub fn through_pipe(bytes: &[u8]) -> io::Result<Input> {
    let (reader, writer) = io::pipe()?;
    Ok(Input {
        stdin: reader.into(),
        feed: Feed::Pipe(writer, bytes.to_vec()),
    })
}

/// The file itself.
pub fn from_file(path: &Path) -> io::Result<Input> {
    Ok(Input {
        stdin: File::open(path)?.into(),
        feed: Feed::Nothing,
    })
}

/// Piece by piece, with these sizes in turn. Every piece is one read of the
/// program; one that asks for fewer bytes than the piece has loses the rest.
/// Waits at most `limit` for each piece to be taken.
pub fn in_pieces(bytes: &[u8], sizes: &[usize], limit: Duration) -> io::Result<Input> {
    let (ours, theirs) = UnixDatagram::pair()?;
    ours.set_write_timeout(Some(limit))?;
    Ok(Input {
        stdin: OwnedFd::from(theirs).into(),
        feed: Feed::Pieces(ours, pieces(bytes, sizes)),
    })
}

/// The bytes in pieces with these sizes in turn.
fn pieces(mut bytes: &[u8], sizes: &[usize]) -> Vec<Vec<u8>> {
    let mut pieces = Vec::new();
    let mut sizes = sizes.iter().cycle();
    while !bytes.is_empty() {
        let size = *sizes.next().expect("there are sizes");
        let (piece, rest) = bytes.split_at(size.min(bytes.len()));
        pieces.push(piece.to_vec());
        bytes = rest;
    }
    pieces
}

/// Ends of input that are sent after the last piece; an empty piece is one.
/// Further reads of the program get the end again, as from a pipe.
const ENDS: usize = 4;

impl Feed {
    /// Writes all there is, as long as the program takes it, and ends the input.
    pub fn write(self) -> io::Result<()> {
        match self {
            Feed::Nothing => Ok(()),
            Feed::Pipe(mut pipe, bytes) => unless_closed(pipe.write_all(&bytes)),
            Feed::Pieces(socket, mut pieces) => {
                pieces.extend([const { Vec::new() }; ENDS]);
                unless_closed(send_each(&socket, &pieces))
            }
        }
    }
}

fn send_each(socket: &UnixDatagram, pieces: &[Vec<u8>]) -> io::Result<()> {
    pieces
        .iter()
        .try_for_each(|piece| socket.send(piece).map(|_| ()))
}

/// The result, but a program that no longer reads is no error.
fn unless_closed(result: io::Result<()>) -> io::Result<()> {
    match result {
        Err(error) if is_closed(error.kind()) => Ok(()),
        result => result,
    }
}

/// Whether the program has closed its standard input, or takes no more of it.
fn is_closed(kind: ErrorKind) -> bool {
    use ErrorKind::*;
    matches!(
        kind,
        BrokenPipe | ConnectionRefused | ConnectionReset | NotConnected | WouldBlock | TimedOut
    )
}

#[cfg(test)]
mod tests {
    use super::*;

    #[test]
    fn sizes_of_the_pieces() {
        let sizes = |count: usize, sizes: &[usize]| -> Vec<usize> {
            let bytes = vec![7; count];
            pieces(&bytes, sizes).iter().map(Vec::len).collect()
        };
        assert_eq!(sizes(3, &[1]), [1, 1, 1]);
        assert_eq!(sizes(10, &[3, 1]), [3, 1, 3, 1, 2]);
        assert_eq!(sizes(0, &[3, 1]), []);
        assert_eq!(pieces(b"abc", &[2]), [b"ab".to_vec(), b"c".to_vec()]);
    }

    #[test]
    fn every_piece_is_one_read() {
        let (ours, theirs) = UnixDatagram::pair().unwrap();
        let feed = Feed::Pieces(ours, pieces(b"abcdef", &[1, 3, 2]));
        feed.write().unwrap();
        let mut buffer = [0; 10];
        let mut read = || theirs.recv(&mut buffer).unwrap();
        assert_eq!([read(), read(), read()], [1, 3, 2]);
        assert_eq!([read(), read()], [0, 0]);
    }

    #[test]
    fn program_that_no_longer_reads() {
        let (reader, writer) = io::pipe().unwrap();
        drop(reader);
        assert!(Feed::Pipe(writer, vec![7; 100_000]).write().is_ok());

        let (ours, theirs) = UnixDatagram::pair().unwrap();
        drop(theirs);
        let pieces = vec![vec![7]; 1_000];
        assert!(Feed::Pieces(ours, pieces).write().is_ok());

        let (ours, _theirs) = UnixDatagram::pair().unwrap();
        let limit = Duration::from_millis(10);
        ours.set_write_timeout(Some(limit)).unwrap();
        let pieces = vec![vec![7]; 100_000];
        assert!(Feed::Pieces(ours, pieces).write().is_ok());
    }
}
