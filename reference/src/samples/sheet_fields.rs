//! Where the fields of a sheet stand (document 01, Packed sheet), to put any
//! value into any of them.

use super::dice::Dice;
use crate::curve::Curve;
use crate::edition::{Edition, EDITIONS, FIRST, SECOND};
use crate::line::{Line, MOST_CURVES};
use crate::sheet::{sheet_length, write};

/// A field: its first bit, from 0, and its width in bits.
#[derive(Clone, Copy)]
pub struct Field {
    pub first: usize,
    pub width: u32,
}

pub const EDITION: Field = field(0, 4);
pub const COUNT: Field = field(4, 7);
pub const SPEED: Field = field(11, 7);
pub const CROSSFALL: Field = field(18, 4);

const fn field(first: usize, width: u32) -> Field {
    Field { first, width }
}

/// The start.
pub const fn start(edition: Edition) -> Field {
    field(22, edition.start_bits)
}

/// Distance i, from 0.
pub const fn distance(edition: Edition, i: usize) -> Field {
    let start = start(edition);
    field(start.first + start.width as usize + 87 * i, 25)
}

/// The side of curve i, from 1; the curve stands before distance i.
pub const fn side(edition: Edition, i: usize) -> Field {
    field(distance(edition, i).first - 62, 1)
}

/// A of curve i, from 1.
pub const fn deflection(edition: Edition, i: usize) -> Field {
    field(distance(edition, i).first - 61, 19)
}

/// R of curve i, from 1.
pub const fn radius(edition: Edition, i: usize) -> Field {
    field(distance(edition, i).first - 42, 23)
}

/// L of curve i, from 1.
pub const fn spiral(edition: Edition, i: usize) -> Field {
    field(distance(edition, i).first - 19, 19)
}

/// The fill of a sheet of `n` curves; its width may be 0.
pub const fn fill(edition: Edition, n: usize) -> Field {
    let last = distance(edition, n);
    let first = last.first + last.width as usize;
    field(first, (8 * sheet_length(edition, n) - first) as u32)
}

/// The edition that a sheet says it has; the first where it says none of the two.
pub fn edition_said(sheet: &[u8]) -> Edition {
    let number = sheet.first().map_or(0, |byte| u32::from(byte >> 4));
    Edition::of(number).unwrap_or(FIRST)
}

impl Field {
    /// The greatest value that fits the field.
    pub fn most(self) -> u32 {
        ((1_u64 << self.width) - 1) as u32
    }

    /// Puts a value that fits into the field of the sheet.
    pub fn put(self, sheet: &mut [u8], value: u32) {
        assert!(value <= self.most());
        for (shift, bit) in self.bits() {
            let mask = bit_mask(bit);
            if value >> shift & 1 == 1 {
                sheet[bit / 8] |= mask;
            } else {
                sheet[bit / 8] &= !mask;
            }
        }
    }

    /// The sheet with this value, which fits, in the field.
    pub fn with(self, sheet: &[u8], value: u32) -> Vec<u8> {
        let mut sheet = sheet.to_vec();
        self.put(&mut sheet, value);
        sheet
    }

    /// The value in the field of the sheet.
    pub fn value(self, sheet: &[u8]) -> u32 {
        self.bits()
            .filter(|(_, bit)| sheet[bit / 8] & bit_mask(*bit) != 0)
            .map(|(shift, _)| 1 << shift)
            .sum()
    }

    /// The field's bits: shift in the value, and bit of the sheet.
    fn bits(self) -> impl Iterator<Item = (u32, usize)> {
        (0..self.width).rev().zip(self.first..)
    }
}

/// Changes a bit of the sheet.
pub fn flip(sheet: &mut [u8], bit: usize) {
    sheet[bit / 8] ^= bit_mask(bit);
}

/// The bit's place in its byte.
fn bit_mask(bit: usize) -> u8 {
    0x80 >> (bit % 8)
}

/// The values of a line in their fields, edition to last distance, for at most
/// 64 curves.
fn values(edition: Edition, line: &Line) -> Vec<(Field, u32)> {
    let mut values = vec![
        (EDITION, edition.number),
        (COUNT, line.n),
        (SPEED, line.v),
        (CROSSFALL, line.e),
        (start(edition), line.start),
        (distance(edition, 0), line.distances[0]),
    ];
    for i in 1..=line.curve_count() {
        let Curve { a, r, l } = line.curve(i);
        values.extend([
            (side(edition, i), line.sides[i - 1]),
            (deflection(edition, i), a),
            (radius(edition, i), r),
            (spiral(edition, i), l),
            (distance(edition, i), line.distances[i]),
        ]);
    }
    values
}

/// The sheet of a line, its fields in range or not; nothing when there are more
/// than 64 curves or a value does not fit its field.
pub fn sheet_of_any(edition: Edition, line: &Line) -> Option<Vec<u8>> {
    if line.curve_count() > MOST_CURVES {
        return None;
    }
    let values = values(edition, line);
    if values.iter().any(|(field, value)| *value > field.most()) {
        return None;
    }
    let mut sheet = vec![0; sheet_length(edition, line.curve_count())];
    for (field, value) in values {
        field.put(&mut sheet, value);
    }
    Some(sheet)
}

/// The editions that take a line's start; the second where none does.
pub fn editions_for(line: &Line) -> &'static [Edition] {
    if line.start <= FIRST.greatest_start {
        &EDITIONS
    } else {
        &[SECOND]
    }
}

/// One of them, by turns.
pub fn edition_in_turn(turn: usize, line: &Line) -> Edition {
    let editions = editions_for(line);
    editions[turn % editions.len()]
}

/// The sheet of a line that the writer takes, in the first edition that takes its
/// start.
pub fn sheet_of(line: &Line) -> Vec<u8> {
    sheet_in(editions_for(line)[0], line)
}

/// The sheet of a line that the writer takes, in any edition that takes its start.
pub fn sheet_of_either(dice: &mut Dice, line: &Line) -> Vec<u8> {
    sheet_in(dice.one_of(editions_for(line)), line)
}

/// The sheet of a line that the writer takes in this edition.
pub fn sheet_in(edition: Edition, line: &Line) -> Vec<u8> {
    let mut sheet = vec![0; sheet_length(edition, line.curve_count())];
    write(edition.number, line, &mut sheet).expect("the line is in range");
    sheet
}

#[cfg(test)]
mod tests {
    use super::super::ranges::line_in_range;
    use super::*;

    #[test]
    fn fields_follow_each_other() {
        for edition in EDITIONS {
            let mut fields = vec![EDITION, COUNT, SPEED, CROSSFALL, start(edition)];
            fields.push(distance(edition, 0));
            for i in 1..=64 {
                let of_a_curve = [side, deflection, radius, spiral, distance];
                fields.extend(of_a_curve.map(|field| field(edition, i)));
            }
            fields.push(fill(edition, 64));
            let mut end = 0;
            for field in fields {
                assert_eq!(field.first, end);
                end += field.width as usize;
            }
            assert_eq!(end, 8 * 706);
        }
    }

    #[test]
    fn only_the_field_changes() {
        for (byte, value) in [(0x00, 0x1F_FFFF), (0xFF, 0)] {
            let mut sheet = [byte; 5];
            let field = field(7, 21);
            field.put(&mut sheet, value);
            assert_eq!(field.value(&sheet), value);
            let ends = [byte ^ 0x01, !byte, !byte, byte ^ 0xF0, byte];
            assert_eq!(sheet, ends);
        }
    }

    #[test]
    fn values_of_case_1() {
        for edition in EDITIONS {
            let sheet = sheet_in(edition, &Line::case_1());
            assert_eq!(edition_said(&sheet), edition);
            let heading = [EDITION, COUNT, SPEED, CROSSFALL, start(edition)];
            let values = heading.map(|field| field.value(&sheet));
            assert_eq!(values, [edition.number, 1, 70, 8, 0]);
            let curve = [side, deflection, radius, spiral];
            let values = curve.map(|field| field(edition, 1).value(&sheet));
            assert_eq!(values, [0, 177_764, 350_000, 40_000]);
            let distances = [0, 1].map(|i| distance(edition, i).value(&sheet));
            assert_eq!(distances, [500_000, 400_000]);
        }
        assert_eq!([&[0x30][..], &[]].map(edition_said), [FIRST; 2]);
    }

    #[test]
    fn sheets_of_any_lines() {
        let mut dice = Dice::new(1);
        for edition in EDITIONS {
            for n in 0..=64 {
                let line = line_in_range(&mut dice, edition, n);
                let sheet = sheet_in(edition, &line);
                assert_eq!(sheet_of_any(edition, &line), Some(sheet));
            }
            let case_1 = sheet_in(edition, &Line::case_1());
            let radius = radius(edition, 1);
            let mut line = Line::case_1();
            line.curves[0].r = radius.most();
            let sheet = radius.with(&case_1, radius.most());
            assert_eq!(sheet_of_any(edition, &line), Some(sheet));
            line.curves[0].r += 1;
            assert_eq!(sheet_of_any(edition, &line), None);
            line.n = 65;
            assert_eq!(sheet_of_any(edition, &line), None);
        }
    }

    #[test]
    fn widest_starts_fit_edition_2() {
        let mut line = Line::case_1();
        for (start, fits) in [(1 << 28, false), (u32::MAX, false), ((1 << 28) - 1, true)] {
            line.start = start;
            assert_eq!(sheet_of_any(FIRST, &line).is_some(), fits);
            assert!(sheet_of_any(SECOND, &line).is_some());
        }
    }

    #[test]
    fn editions_follow_the_start() {
        let with_start = |start| Line {
            start,
            ..Line::case_1()
        };
        for (start, number) in [(200_000_000, 1), (200_000_001, 2), (4_000_000_000, 2)] {
            let sheet = sheet_of(&with_start(start));
            assert_eq!(EDITION.value(&sheet), number);
        }
        assert_eq!(editions_for(&with_start(0)), EDITIONS);
        assert_eq!(editions_for(&with_start(u32::MAX)), [SECOND]);
        let in_turn = |start| [0, 1, 2].map(|turn| edition_in_turn(turn, &with_start(start)));
        assert_eq!(in_turn(0), [FIRST, SECOND, FIRST]);
        assert_eq!(in_turn(u32::MAX), [SECOND; 3]);
        let mut dice = Dice::new(1);
        let mut either = || EDITION.value(&sheet_of_either(&mut dice, &Line::case_1()));
        let numbers: Vec<u32> = (0..20).map(|_| either()).collect();
        assert!(numbers.contains(&1) && numbers.contains(&2));
    }

    #[test]
    fn flipped_bit() {
        let mut sheet = [0; 2];
        flip(&mut sheet, 0);
        flip(&mut sheet, 15);
        assert_eq!(sheet, [0x80, 0x01]);
        flip(&mut sheet, 0);
        assert_eq!(sheet, [0x00, 0x01]);
    }
}
