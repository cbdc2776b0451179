//! A line as numbers: n, V, e, start, distance 0, then side, A, R, L and the
//! distance after it for each curve; and the calls that read a sheet into such
//! numbers and write the sheet of them.

use crate::curve::Curve;
use crate::edition::Edition;
use crate::lent::fill;
use crate::line::{Line, MOST_CURVES};
use crate::refusal::{refuse, Refusal};
use crate::sheet;
use std::fmt;

/// Numbers before the curves, and of each curve with its distance.
const OF_THE_HEADING: usize = 5;
const OF_A_CURVE: usize = 5;

/// How many numbers a line of `n` curves has.
pub const fn number_count(n: usize) -> usize {
    OF_THE_HEADING + OF_A_CURVE * n
}

/// Reads a sheet: writes the numbers of its line at the front of the lent ones
/// and returns their count. Refusals of the reader, then 16.
pub fn read(sheet: &[u8], numbers: &mut [u32]) -> Result<usize, Refusal> {
    fill(numbers, &sheet::line_of(sheet)?.numbers())
}

/// Writes the sheet of the edition told and of the line with these numbers at the
/// front of the bytes and returns its length. The writer's refusals in their order,
/// 3 also where the numbers are not as many as n asks for.
pub fn write(edition: u32, numbers: &[u32], bytes: &mut [u8]) -> Result<usize, Refusal> {
    Edition::of(edition)?;
    sheet::write(edition, &Line::of_numbers(numbers)?, bytes)
}

impl Line {
    /// Its numbers; unused entries have none, nor have curves beyond the 64th.
    pub fn numbers(&self) -> Vec<u32> {
        let mut numbers = vec![self.n, self.v, self.e, self.start, self.distances[0]];
        for i in 0..self.curve_count().min(MOST_CURVES) {
            let Curve { a, r, l } = self.curves[i];
            numbers.extend([self.sides[i], a, r, l, self.distances[i + 1]]);
        }
        numbers
    }

    /// The line with these numbers, in range or not; refusal 3 where n is over
    /// 64, or they are more or fewer than n asks for.
    pub fn of_numbers(numbers: &[u32]) -> Result<Line, Refusal> {
        let &[n, v, e, start, first_distance, ref curves @ ..] = numbers else {
            return refuse(3, 0);
        };
        let mut line = Line {
            n,
            v,
            e,
            start,
            ..Line::blank()
        };
        let count = line.curve_count();
        if count > MOST_CURVES || numbers.len() != number_count(count) {
            return refuse(3, 0);
        }
        line.distances[0] = first_distance;
        for (i, curve) in curves.chunks_exact(OF_A_CURVE).enumerate() {
            line.sides[i] = curve[0];
            line.curves[i] = Curve::new(curve[1], curve[2], curve[3]);
            line.distances[i + 1] = curve[4];
        }
        Ok(line)
    }
}

impl fmt::Display for Line {
    fn fmt(&self, f: &mut fmt::Formatter) -> fmt::Result {
        let numbers: Vec<String> = self.numbers().iter().map(u32::to_string).collect();
        write!(f, "{}", numbers.join(" "))
    }
}

#[cfg(test)]
mod tests {
    use super::*;
    use crate::edition::{EDITIONS, FIRST};
    use crate::samples::dice::Dice;
    use crate::samples::ranges::line_in_range;
    use crate::samples::sheet_fields::sheet_of;

    const MOST: u32 = u32::MAX;
    const CASE_1: [u32; 10] = [1, 70, 8, 0, 500_000, 0, 177_764, 350_000, 40_000, 400_000];

    /// The answer of the call that reads, and `room` numbers after it; before
    /// it, each is 7.
    fn read_into(sheet: &[u8], room: usize) -> (Result<usize, Refusal>, Vec<u32>) {
        let mut numbers = vec![7; room];
        (read(sheet, &mut numbers), numbers)
    }

    /// The same of the call that writes edition 1, and bytes.
    fn write_into(numbers: &[u32], room: usize) -> (Result<usize, Refusal>, Vec<u8>) {
        write_in(1, numbers, room)
    }

    fn write_in(edition: u32, numbers: &[u32], room: usize) -> (Result<usize, Refusal>, Vec<u8>) {
        let mut bytes = vec![7; room];
        (write(edition, numbers, &mut bytes), bytes)
    }

    fn check_refused(numbers: &[u32], number: u8, place: usize) {
        for room in [0, 720] {
            let expected = (refuse(number, place), vec![7; room]);
            assert_eq!(write_into(numbers, room), expected, "{numbers:?}");
        }
    }

    /// Case 1's numbers with another one at an index.
    fn with(index: usize, number: u32) -> [u32; 10] {
        let mut numbers = CASE_1;
        numbers[index] = number;
        numbers
    }

    #[test]
    fn cases_1_and_9() {
        assert_eq!(Line::case_1().numbers(), CASE_1);
        assert_eq!(Line::of_numbers(&CASE_1), Ok(Line::case_1()));
        assert_eq!(Line::case_9().numbers(), [0, 70, 8, 0, 500_000]);
        assert_eq!(Line::case_9().to_string(), "0 70 8 0 500000");
        let sheet = sheet_of(&Line::case_1());
        assert_eq!(read_into(&sheet, 10), (Ok(10), CASE_1.to_vec()));
        assert_eq!(write_into(&CASE_1, 21), (Ok(21), sheet));
    }

    #[test]
    fn left_curve() {
        let sheet = sheet_of(&Line::of_numbers(&with(5, 1)).unwrap());
        assert_eq!(read_into(&sheet, 10), (Ok(10), with(5, 1).to_vec()));
    }

    #[test]
    fn rooms() {
        let sheet = sheet_of(&Line::case_1());
        for room in 0..10 {
            assert_eq!(read_into(&sheet, room), (refuse(16, 0), vec![7; room]));
        }
        let (count, numbers) = read_into(&sheet, 12);
        assert_eq!((count, &numbers[10..]), (Ok(10), &[7, 7][..]));
        for room in [0, 20] {
            assert_eq!(write_into(&CASE_1, room), (refuse(16, 0), vec![7; room]));
        }
        let (count, bytes) = write_into(&CASE_1, 23);
        assert_eq!((count, &bytes[21..]), (Ok(21), &[7, 7][..]));
    }

    #[test]
    fn refused_sheets_leave_the_numbers() {
        let sheet = sheet_of(&Line::case_1());
        for room in [0, 9, 10, 325] {
            assert_eq!(read_into(&sheet[..20], room), (refuse(1, 0), vec![7; room]));
        }
    }

    #[test]
    fn too_few_or_too_many_numbers() {
        let mut dice = Dice::new(1);
        for n in [0, 1, 2, 63, 64] {
            let numbers = line_in_range(&mut dice, FIRST, n).numbers();
            assert_eq!(numbers.len(), number_count(n));
            for count in (0..numbers.len()).rev().take(12) {
                check_refused(&numbers[..count], 3, 0);
            }
            let mut longer = numbers.clone();
            for _ in 0..12 {
                longer.push(1);
                check_refused(&longer, 3, 0);
            }
            assert!(write_into(&numbers, 720).0.is_ok());
        }
        check_refused(&[], 3, 0);
    }

    #[test]
    fn counts_over_64() {
        for n in [65, 66, 127, 128, 129] {
            let mut numbers = vec![1; number_count(n)];
            numbers[0] = n as u32;
            check_refused(&numbers, 3, 0);
        }
        for n in [65, 128 + 1, 256 + 1, 1 << 31, MOST] {
            check_refused(&with(0, n), 3, 0);
        }
    }

    #[test]
    fn numbers_are_checked_in_order() {
        let mut numbers = [2, 45, 1, MOST, 0, 2, 0, 19_999, 500_001, 0];
        check_refused(&numbers, 3, 0);
        numbers[0] = 1;
        check_refused(&numbers, 4, 0);
        numbers[1] = 40;
        check_refused(&numbers, 5, 0);
        numbers[2] = 12;
        check_refused(&numbers, 6, 0);
        numbers[3] = 200_000_000;
        check_refused(&numbers, 8, 0);
        numbers[4] = 1;
        check_refused(&numbers, 9, 1);
        numbers[6] = 1;
        check_refused(&numbers, 9, 1);
        numbers[5] = 1;
        check_refused(&numbers, 10, 1);
        numbers[7] = 20_000;
        check_refused(&numbers, 11, 1);
        numbers[8] = 20_000;
        check_refused(&numbers, 8, 1);
        numbers[9] = 1;
        assert_eq!(write_into(&numbers, 20).0, refuse(16, 0));
        assert_eq!(write_into(&numbers, 21).0, Ok(21));
    }

    #[test]
    fn sides_other_than_two() {
        for side in [2, 3, 1 << 31, MOST] {
            check_refused(&with(5, side), 9, 1);
        }
    }

    /// Cut to the bits of their fields, these are case 1's own numbers.
    #[test]
    fn numbers_too_wide_for_their_fields() {
        check_refused(&with(1, (1 << 7) + 70), 4, 0);
        check_refused(&with(2, (1 << 4) + 8), 5, 0);
        check_refused(&with(3, 1 << 28), 6, 0);
        check_refused(&with(4, (1 << 25) + 500_000), 8, 0);
        check_refused(&with(5, 2), 9, 1);
        check_refused(&with(6, (1 << 19) + 177_764), 9, 1);
        check_refused(&with(7, (1 << 23) + 350_000), 10, 1);
        check_refused(&with(8, (1 << 19) + 40_000), 11, 1);
        check_refused(&with(9, (1 << 25) + 400_000), 8, 1);
    }

    #[test]
    fn numbers_come_back() {
        let mut dice = Dice::new(1);
        for edition in EDITIONS {
            for n in 0..=64 {
                let numbers = line_in_range(&mut dice, edition, n).numbers();
                let (length, bytes) = write_in(edition.number, &numbers, 706);
                let sheet = &bytes[..length.unwrap()];
                assert_eq!(read_into(sheet, numbers.len()).1, numbers);
                assert_eq!(sheet::edition_of(sheet), Ok(edition));
            }
        }
    }

    /// Before the count of numbers, and before all else.
    #[test]
    fn edition_is_checked_first() {
        for edition in [0, 3, 17, 1 << 31, MOST] {
            for numbers in [&[][..], &CASE_1[..9], &with(0, MOST), &CASE_1] {
                for room in [0, 720] {
                    let expected = (refuse(2, 0), vec![7; room]);
                    assert_eq!(write_in(edition, numbers, room), expected);
                }
            }
        }
    }

    #[test]
    fn starts_of_each_edition() {
        for (edition, start, answer) in [
            (1, 200_000_000, Ok(21)),
            (1, 200_000_001, refuse(6, 0)),
            (2, 200_000_001, Ok(21)),
            (2, 4_000_000_000, Ok(21)),
            (2, 4_000_000_001, refuse(6, 0)),
        ] {
            assert_eq!(write_in(edition, &with(3, start), 21).0, answer);
        }
    }
}
