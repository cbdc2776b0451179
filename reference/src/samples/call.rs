//! A call of the calculator or of the writer.

use crate::edition::Edition;
use crate::hexadecimal::MOST_BYTES;
use crate::line::{Line, GREATEST_START};
use crate::refusal::Refusal;
use crate::sheet::{self, sheet_length};
use crate::stations::stations;

/// Who is called with a line and lent memory.
#[derive(Clone, Copy, Debug, PartialEq, Eq)]
pub enum Callee {
    /// It is lent a row of numbers for the stations.
    Calculator,
    /// It is lent bytes for the sheet, and told this edition.
    Writer(Edition),
}

impl Callee {
    /// More numbers or bytes than any line needs.
    pub fn most_room(self) -> usize {
        match self {
            Callee::Calculator => 300,
            Callee::Writer(_) => MOST_BYTES,
        }
    }

    /// The room that a line of `n` curves needs.
    pub fn room_for(self, n: usize) -> usize {
        match self {
            Callee::Calculator => 4 * n + 1,
            Callee::Writer(edition) => sheet_length(edition, n),
        }
    }

    /// The greatest start that it takes.
    pub fn greatest_start(self) -> u32 {
        match self {
            Callee::Calculator => GREATEST_START,
            Callee::Writer(edition) => edition.greatest_start,
        }
    }

    /// The refusals that it can give; not the writer's 2, its edition being known.
    pub fn refusals(self) -> &'static [u8] {
        match self {
            Callee::Calculator => &[3, 4, 5, 6, 8, 9, 10, 11, 12, 13, 14, 15, 16],
            Callee::Writer(_) => &[3, 4, 5, 6, 8, 9, 10, 11, 16],
        }
    }
}

/// A line, and the room that is lent: entries of a row, or bytes.
#[derive(Clone, Debug, PartialEq, Eq)]
pub struct Call {
    pub room: usize,
    pub line: Line,
}

impl Call {
    /// The callee's answer.
    pub fn answer(&self, callee: Callee) -> Result<usize, Refusal> {
        match callee {
            Callee::Calculator => stations(&self.line, &mut vec![0; self.room]),
            Callee::Writer(edition) => {
                sheet::write(edition.number, &self.line, &mut vec![0; self.room])
            }
        }
    }
}

#[cfg(test)]
mod tests {
    use super::*;
    use crate::edition::{FIRST, SECOND};
    use crate::refusal::refuse;

    #[test]
    fn room_is_just_enough() {
        for callee in [
            Callee::Calculator,
            Callee::Writer(FIRST),
            Callee::Writer(SECOND),
        ] {
            for line in [Line::case_1(), Line::case_9()] {
                let room = callee.room_for(line.curve_count());
                let exact = Call { room, line };
                assert_eq!(exact.answer(callee), Ok(room));
                let short = Call {
                    room: room - 1,
                    ..exact
                };
                assert_eq!(short.answer(callee), refuse(16, 0));
            }
        }
    }
}
