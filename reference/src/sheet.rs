//! The packed sheet: its reader, its writer and its converter (document 01, Packed
//! sheet; document 02, Roads past kilometre 200).

use crate::bits::{BitReader, BitWriter};
use crate::curve::Curve;
use crate::edition::Edition;
use crate::lent::front;
use crate::line::Line;
use crate::refusal::{refuse, Refusal};

/// Widths of the fields but the start's, bits.
const EDITION_BITS: u32 = 4;
const COUNT_BITS: u32 = 7;
const SPEED_BITS: u32 = 7;
const CROSSFALL_BITS: u32 = 4;
const DISTANCE_BITS: u32 = 25;
const SIDE_BITS: u32 = 1;
const DEFLECTION_BITS: u32 = 19;
const RADIUS_BITS: u32 = 23;
const SPIRAL_BITS: u32 = 19;

/// The bytes in which the heading of either edition stands, edition to start.
const HEADING_LENGTH: usize = 7;

/// Bits of a sheet of `n` curves, without the fill: 75 + 87 × n in edition 1, 79 +
/// 87 × n in edition 2.
const fn bit_count(edition: Edition, n: usize) -> usize {
    47 + edition.start_bits as usize + 87 * n
}

/// Length in bytes of a sheet of `n` curves.
pub const fn sheet_length(edition: Edition, n: usize) -> usize {
    bit_count(edition, n).div_ceil(8)
}

/// The reader: the edition and the line of a sheet, its unused entries zero.
pub fn read(sheet: &[u8]) -> Result<(Edition, Line), Refusal> {
    if sheet.len() < HEADING_LENGTH {
        return refuse(1, 0);
    }
    let mut bits = BitReader::new(sheet);
    let edition = Edition::of(bits.take(EDITION_BITS))?;
    let mut line = Line::blank();
    read_heading(&mut bits, edition, &mut line)?;
    check_end(sheet, edition, line.curve_count())?;
    read_entries(&mut bits, &mut line);
    line.check_entries()?;
    Ok((edition, line))
}

/// The line of a sheet of either edition.
pub fn line_of(sheet: &[u8]) -> Result<Line, Refusal> {
    Ok(read(sheet)?.1)
}

/// The edition of a sheet that passes all of the reader's checks.
pub fn edition_of(sheet: &[u8]) -> Result<Edition, Refusal> {
    Ok(read(sheet)?.0)
}

/// Takes n, V, e and start. Checks 3 to 6.
fn read_heading(bits: &mut BitReader, edition: Edition, line: &mut Line) -> Result<(), Refusal> {
    line.n = bits.take(COUNT_BITS);
    line.v = bits.take(SPEED_BITS);
    line.e = bits.take(CROSSFALL_BITS);
    line.start = bits.take(edition.start_bits);
    line.check_heading(edition.greatest_start)
}

/// Checks 1 (full length) and 7 of a sheet of `n` curves.
fn check_end(sheet: &[u8], edition: Edition, n: usize) -> Result<(), Refusal> {
    let length = sheet_length(edition, n);
    if sheet.len() < length {
        return refuse(1, 0);
    }
    let fill_bits = 8 * length - bit_count(edition, n);
    let fill = sheet[length - 1] & ((1 << fill_bits) - 1);
    if sheet.len() > length || fill != 0 {
        return refuse(7, 0);
    }
    Ok(())
}

/// Takes the distances and curves.
fn read_entries(bits: &mut BitReader, line: &mut Line) {
    line.distances[0] = bits.take(DISTANCE_BITS);
    for i in 0..line.curve_count() {
        line.sides[i] = bits.take(SIDE_BITS);
        line.curves[i] = Curve {
            a: bits.take(DEFLECTION_BITS),
            r: bits.take(RADIUS_BITS),
            l: bits.take(SPIRAL_BITS),
        };
        line.distances[i + 1] = bits.take(DISTANCE_BITS);
    }
}

/// The writer, told the edition: writes the sheet of a line at the front of the
/// bytes, and returns its length. A refusal leaves the bytes as they are.
pub fn write(edition: u32, line: &Line, bytes: &mut [u8]) -> Result<usize, Refusal> {
    let edition = Edition::of(edition)?;
    line.check_ranges(edition.greatest_start)?;
    let length = sheet_length(edition, line.curve_count());
    let front = front(bytes, length)?;
    let mut bits = BitWriter::new(front);
    write_heading(&mut bits, edition, line);
    write_entries(&mut bits, line);
    bits.fill();
    Ok(length)
}

/// Reads a sheet and writes it again, in its own edition. The reader's refusals,
/// then 16.
pub fn rewrite(sheet: &[u8], bytes: &mut [u8]) -> Result<usize, Refusal> {
    let (edition, line) = read(sheet)?;
    write(edition.number, &line, bytes)
}

/// The converter: writes the sheet of the same line in the edition asked for at the
/// front of the bytes, and returns its length. After the reader's refusals 2 for any
/// edition but the other one, 24 the way back for a start over edition 1's greatest,
/// then 16 (document 02, Roads past kilometre 200).
pub fn convert(sheet: &[u8], asked: u32, bytes: &mut [u8]) -> Result<usize, Refusal> {
    let (edition, line) = read(sheet)?;
    let other = edition.other();
    if asked != other.number {
        return refuse(2, 0);
    }
    if line.start > other.greatest_start {
        return refuse(24, 0);
    }
    write(asked, &line, bytes)
}

/// Puts edition, n, V, e and start.
fn write_heading(bits: &mut BitWriter, edition: Edition, line: &Line) {
    bits.put(EDITION_BITS, edition.number);
    bits.put(COUNT_BITS, line.n);
    bits.put(SPEED_BITS, line.v);
    bits.put(CROSSFALL_BITS, line.e);
    bits.put(edition.start_bits, line.start);
}

/// Puts the distances and curves.
fn write_entries(bits: &mut BitWriter, line: &Line) {
    bits.put(DISTANCE_BITS, line.distances[0]);
    for i in 0..line.curve_count() {
        let Curve { a, r, l } = line.curves[i];
        bits.put(SIDE_BITS, line.sides[i]);
        bits.put(DEFLECTION_BITS, a);
        bits.put(RADIUS_BITS, r);
        bits.put(SPIRAL_BITS, l);
        bits.put(DISTANCE_BITS, line.distances[i + 1]);
    }
}

#[cfg(test)]
mod tests {
    use super::*;
    use crate::edition::{EDITIONS, FIRST, SECOND};
    use crate::samples::dice::Dice;
    use crate::samples::ranges::{line_in_range, sheet_in_range};
    use crate::samples::roads::fill_unused;
    use crate::samples::sheet_fields::{
        deflection, distance, fill, radius, sheet_in, side, spiral, start, Field, COUNT, CROSSFALL,
        EDITION, SPEED,
    };

    const MOST: u32 = u32::MAX;
    /// Case 9 in edition 1, as document 01 prints it, and in edition 2.
    const CASE_9: [[u8; 10]; 2] = [
        [0x10, 0x11, 0xA0, 0, 0, 0, 0, 0xF4, 0x24, 0],
        [0x20, 0x11, 0xA0, 0, 0, 0, 0, 0x0F, 0x42, 0x40],
    ];

    /// A call that is lent bytes: its answer, and `room` bytes after it; before it,
    /// each is 7.
    fn lending(
        room: usize,
        call: impl FnOnce(&mut [u8]) -> Result<usize, Refusal>,
    ) -> (Result<usize, Refusal>, Vec<u8>) {
        let mut bytes = vec![7; room];
        (call(&mut bytes), bytes)
    }

    /// The writer's.
    fn call(edition: Edition, line: &Line, room: usize) -> (Result<usize, Refusal>, Vec<u8>) {
        lending(room, |bytes| write(edition.number, line, bytes))
    }

    /// The sheet in the edition asked for, or the refusal.
    fn converted(sheet: &[u8], asked: u32) -> Result<Vec<u8>, Refusal> {
        let (answer, bytes) = lending(706, |bytes| convert(sheet, asked, bytes));
        answer.map(|length| bytes[..length].to_vec())
    }

    fn check_read_refused(sheet: &[u8], number: u8, place: usize) {
        assert_eq!(read(sheet), refuse(number, place));
    }

    fn check_write_refused(edition: Edition, line: &Line, number: u8, place: usize) {
        for room in [0, 720] {
            let expected = (refuse(number, place), vec![7; room]);
            assert_eq!(call(edition, line, room), expected);
        }
    }

    /// Case 1's sheet with this value in a field.
    fn with(edition: Edition, field: Field, value: u32) -> Vec<u8> {
        field.with(&sheet_in(edition, &Line::case_1()), value)
    }

    /// Case 1 from this start.
    fn from(start: u32) -> Line {
        Line {
            start,
            ..Line::case_1()
        }
    }

    fn random_line(dice: &mut Dice, edition: Edition) -> Line {
        let n = dice.index(0, 64);
        line_in_range(dice, edition, n)
    }

    #[test]
    fn case_9() {
        for (edition, sheet) in EDITIONS.into_iter().zip(CASE_9) {
            assert_eq!(read(&sheet), Ok((edition, Line::case_9())));
            let written = call(edition, &Line::case_9(), 10);
            assert_eq!(written, (Ok(10), sheet.to_vec()));
        }
    }

    #[test]
    fn case_10() {
        for case_9 in CASE_9 {
            let mut filled = case_9;
            filled[9] |= 0x01;
            check_read_refused(&filled, 7, 0);
            check_read_refused(&case_9[..9], 1, 0);
        }
    }

    #[test]
    fn lengths() {
        for edition in EDITIONS {
            assert_eq!([0, 1, 64].map(|n| sheet_length(edition, n)), [10, 21, 706]);
        }
        let mut dice = Dice::new(1);
        for n in 0..=64 {
            let counts = EDITIONS.map(|edition| bit_count(edition, n));
            assert_eq!(counts, [75 + 87 * n, 79 + 87 * n]);
            for edition in EDITIONS {
                let line = line_in_range(&mut dice, edition, n);
                let length = sheet_length(edition, n);
                assert_eq!(call(edition, &line, 720).0, Ok(length));
            }
        }
        // Where less than four bits of the first edition's are fill.
        let longer = [3, 4, 5, 6].map(|n| EDITIONS.map(|edition| sheet_length(edition, n)));
        assert_eq!(longer, [[42, 43], [53, 54], [64, 65], [75, 76]]);
    }

    #[test]
    fn every_field_stands_in_its_place() {
        let mut dice = Dice::new(1);
        for edition in EDITIONS {
            for n in 0..=64 {
                let line = line_in_range(&mut dice, edition, n);
                let mut sheet = vec![0; sheet_length(edition, n)];
                EDITION.put(&mut sheet, edition.number);
                COUNT.put(&mut sheet, line.n);
                SPEED.put(&mut sheet, line.v);
                CROSSFALL.put(&mut sheet, line.e);
                start(edition).put(&mut sheet, line.start);
                distance(edition, 0).put(&mut sheet, line.distances[0]);
                for i in 1..=n {
                    let Curve { a, r, l } = line.curve(i);
                    side(edition, i).put(&mut sheet, line.sides[i - 1]);
                    deflection(edition, i).put(&mut sheet, a);
                    radius(edition, i).put(&mut sheet, r);
                    spiral(edition, i).put(&mut sheet, l);
                    distance(edition, i).put(&mut sheet, line.distances[i]);
                }
                let written = call(edition, &line, sheet.len());
                assert_eq!(written, (Ok(sheet.len()), sheet.clone()));
                assert_eq!(read(&sheet), Ok((edition, line)));
            }
        }
    }

    #[test]
    fn cut_sheets() {
        let mut dice = Dice::new(1);
        for edition in EDITIONS {
            for n in [0, 1, 2, 3, 64] {
                let sheet = sheet_in_range(&mut dice, edition, n);
                for length in 0..sheet.len() {
                    check_read_refused(&sheet[..length], 1, 0);
                }
            }
        }
    }

    #[test]
    fn overlong_sheets() {
        let mut dice = Dice::new(1);
        for edition in EDITIONS {
            for n in [0, 1, 2, 3, 64] {
                for byte in [0x00, 0xFF] {
                    let mut sheet = sheet_in_range(&mut dice, edition, n);
                    for _ in 0..20 {
                        sheet.push(byte);
                        check_read_refused(&sheet, 7, 0);
                    }
                }
            }
        }
    }

    #[test]
    fn every_fill_bit() {
        let mut dice = Dice::new(1);
        for edition in EDITIONS {
            for n in 0..=64 {
                let sheet = sheet_in_range(&mut dice, edition, n);
                assert!(read(&sheet).is_ok());
                for bit in 0..fill(edition, n).width {
                    let mut filled = sheet.clone();
                    *filled.last_mut().unwrap() |= 1 << bit;
                    check_read_refused(&filled, 7, 0);
                }
            }
        }
        let widths = |edition| [0, 1, 2, 3, 4, 7, 64].map(|n| fill(edition, n).width);
        assert_eq!(widths(FIRST), [5, 6, 7, 0, 1, 4, 5]);
        assert_eq!(widths(SECOND), [1, 2, 3, 4, 5, 0, 1]);
    }

    #[test]
    fn heading_of_a_sheet() {
        for edition in EDITIONS {
            for other in (0..16).filter(|number| ![1, 2].contains(number)) {
                check_read_refused(&with(edition, EDITION, other), 2, 0);
            }
            for n in 65..128 {
                check_read_refused(&with(edition, COUNT, n), 3, 0);
            }
            for v in 0..128 {
                let known = v % 10 == 0 && (40..=120).contains(&v);
                let answer = line_of(&with(edition, SPEED, v)).map(|line| line.v);
                assert_eq!(answer, if known { Ok(v) } else { refuse(4, 0) });
            }
            for e in 0..16 {
                let answer = line_of(&with(edition, CROSSFALL, e)).map(|line| line.e);
                let known = (2..=12).contains(&e);
                assert_eq!(answer, if known { Ok(e) } else { refuse(5, 0) });
            }
        }
    }

    #[test]
    fn starts_of_each_edition() {
        let accepted = |edition, from| {
            let sheet = with(edition, start(edition), from);
            assert_eq!(line_of(&sheet).map(|line| line.start), Ok(from));
        };
        for from in [0, 1, 200_000_000] {
            accepted(FIRST, from);
            accepted(SECOND, from);
        }
        for from in [200_000_001, 1 << 28, 4_000_000_000] {
            accepted(SECOND, from);
        }
        for from in [200_000_001, (1 << 28) - 1] {
            check_read_refused(&with(FIRST, start(FIRST), from), 6, 0);
        }
        for from in [4_000_000_001, MOST] {
            check_read_refused(&with(SECOND, start(SECOND), from), 6, 0);
        }
    }

    /// The fields behind the start stand four bits off. Case 9 is then another line.
    #[test]
    fn number_of_the_other_edition() {
        let as_other = |edition: Edition, line: &Line| {
            let sheet = sheet_in(edition, line);
            read(&EDITION.with(&sheet, edition.other().number))
        };
        let case_9_of = |distance| {
            let mut line = Line::case_9();
            line.distances[0] = distance;
            line
        };
        let case_9 = Line::case_9();
        assert_eq!(as_other(FIRST, &case_9), Ok((SECOND, case_9_of(8_000_000))));
        assert_eq!(as_other(SECOND, &case_9), Ok((FIRST, case_9_of(31_250))));
        assert_eq!(as_other(SECOND, &case_9_of(500_001)), refuse(7, 0));
        assert_eq!(as_other(FIRST, &case_9_of(1_250_001)), refuse(8, 0));
        assert_eq!(as_other(SECOND, &from(4_000_000_000)), refuse(6, 0));
    }

    #[test]
    fn entries_of_a_sheet() {
        for edition in EDITIONS {
            check_entries_of(edition);
        }
    }

    fn check_entries_of(edition: Edition) {
        let with = |field, value| with(edition, field, value);
        let accepted = |field: Field, value: u32| {
            let line = line_of(&with(field, value)).unwrap();
            assert_eq!(sheet_in(edition, &line), with(field, value));
        };
        for i in [0, 1] {
            let distance = distance(edition, i);
            accepted(distance, 1);
            accepted(distance, 20_000_000);
            for value in [0, 20_000_001, (1 << 25) - 1] {
                check_read_refused(&with(distance, value), 8, i);
            }
        }
        let [side, deflection, radius, spiral] =
            [side, deflection, radius, spiral].map(|field| field(edition, 1));
        for a in [1, 432_000] {
            accepted(deflection, a);
        }
        for a in [0, 432_001, (1 << 19) - 1] {
            check_read_refused(&with(deflection, a), 9, 1);
        }
        for r in [40_000, 5_000_000] {
            accepted(radius, r);
        }
        for r in [0, 19_999, 5_000_001, (1 << 23) - 1] {
            check_read_refused(&with(radius, r), 10, 1);
        }
        for l in [0, 1, 350_000] {
            accepted(spiral, l);
        }
        for l in [350_001, 500_000, 500_001, (1 << 19) - 1] {
            check_read_refused(&with(spiral, l), 11, 1);
        }
        check_read_refused(&with(radius, 39_999), 11, 1);
        for number in [0, 1] {
            accepted(side, number);
        }
    }

    #[test]
    fn sheet_is_checked_in_order() {
        for edition in EDITIONS {
            check_order_of(edition);
        }
    }

    fn check_order_of(edition: Edition) {
        let mut sheet = sheet_in(edition, &Line::case_1());
        let distances = [0, 1].map(|i| distance(edition, i));
        let [deflection, radius, spiral] =
            [deflection, radius, spiral].map(|field| field(edition, 1));
        let (start, fill) = (start(edition), fill(edition, 1));
        let values = [
            (EDITION, 3),
            (COUNT, 65),
            (SPEED, 45),
            (CROSSFALL, 1),
            (start, edition.greatest_start + 1),
            (distances[0], 0),
            (deflection, 0),
            (radius, 19_999),
            (spiral, 500_001),
            (distances[1], 0),
            (fill, 1),
        ];
        for (field, value) in values {
            field.put(&mut sheet, value);
        }
        let mut mend = |field: Field, value: u32| {
            field.put(&mut sheet, value);
            sheet.clone()
        };

        let faulty = mend(EDITION, 3);
        check_read_refused(&faulty[..6], 1, 0);
        check_read_refused(&faulty[..7], 2, 0);
        check_read_refused(&faulty, 2, 0);
        check_read_refused(&mend(EDITION, edition.number), 3, 0);
        check_read_refused(&mend(COUNT, 1), 4, 0);
        check_read_refused(&mend(SPEED, 40), 5, 0);
        let late = mend(CROSSFALL, 2);
        check_read_refused(&late[..6], 1, 0);
        check_read_refused(&late[..7], 6, 0);
        check_read_refused(&late, 6, 0);
        let filled = mend(start, 0);
        check_read_refused(&filled[..20], 1, 0);
        check_read_refused(&filled, 7, 0);
        let ranges = mend(fill, 0);
        check_read_refused(&[&ranges[..], &[0]].concat(), 7, 0);
        check_read_refused(&ranges[..20], 1, 0);
        check_read_refused(&ranges, 8, 0);
        check_read_refused(&mend(distances[0], 1), 9, 1);
        check_read_refused(&mend(deflection, 1), 10, 1);
        check_read_refused(&mend(radius, 20_000), 11, 1);
        check_read_refused(&mend(spiral, 20_000), 8, 1);
        assert!(read(&mend(distances[1], 1)).is_ok());
    }

    #[test]
    fn sixty_fifth_distance_of_a_full_sheet() {
        for edition in EDITIONS {
            let mut line = line_in_range(&mut Dice::new(1), edition, 64);
            for last in [1, 12_345_678, 20_000_000] {
                line.distances[64] = last;
                let mut sheet = sheet_in(edition, &line);
                assert_eq!(line_of(&sheet), Ok(line.clone()));
                assert_eq!(distance(edition, 64).value(&sheet), last);
                distance(edition, 64).put(&mut sheet, 0);
                check_read_refused(&sheet, 8, 64);
                spiral(edition, 64).put(&mut sheet, 500_001);
                check_read_refused(&sheet, 11, 64);
            }
            line.distances[64] = 20_000_001;
            check_write_refused(edition, &line, 8, 64);
            line.curves[63].a = 0;
            check_write_refused(edition, &line, 9, 64);
        }
    }

    #[test]
    fn line_is_checked_in_order() {
        for edition in EDITIONS {
            let mut line = Line {
                v: 45,
                e: 1,
                start: MOST,
                n: MOST,
                ..Line::blank()
            };
            line.curves[0].l = 500_001;
            for number in [0, 3, 17, 18, MOST] {
                assert_eq!(write(number, &line, &mut []), refuse(2, 0));
            }
            let refused = |line: &Line, number, place| {
                check_write_refused(edition, line, number, place);
            };
            refused(&line, 3, 0);
            line.n = 1;
            refused(&line, 4, 0);
            line.v = 40;
            refused(&line, 5, 0);
            line.e = 12;
            refused(&line, 6, 0);
            line.start = edition.greatest_start + 1;
            refused(&line, 6, 0);
            line.start = edition.greatest_start;
            refused(&line, 8, 0);
            line.distances[0] = 1;
            refused(&line, 9, 1);
            line.curves[0].a = 1;
            refused(&line, 10, 1);
            line.curves[0].r = 20_000;
            refused(&line, 11, 1);
            line.curves[0].l = 20_000;
            refused(&line, 8, 1);
            line.distances[1] = 1;
            assert_eq!(call(edition, &line, 20), (refuse(16, 0), vec![7; 20]));
            assert_eq!(call(edition, &line, 21).0, Ok(21));
        }
    }

    #[test]
    fn values_too_wide_for_their_fields() {
        for edition in EDITIONS {
            for number in [1 << 7, 1 << 19, 1 << 23, 1 << 25, 1 << 28, MOST] {
                let edited = |edit: fn(&mut Line, u32)| {
                    let mut line = Line::case_1();
                    edit(&mut line, number);
                    line
                };
                let refused = |edit, number| {
                    check_write_refused(edition, &edited(edit), number, 0);
                };
                refused(|line, number| line.n = number, 3);
                refused(|line, number| line.v = number, 4);
                refused(|line, number| line.e = number, 5);
            }
            let mut line = Line::case_1();
            line.distances[1] = (1 << 25) + 1;
            check_write_refused(edition, &line, 8, 1);
            line.curves[0].l = 1 << 19;
            check_write_refused(edition, &line, 11, 1);
            line.curves[0].r = (1 << 23) + 350_000;
            check_write_refused(edition, &line, 10, 1);
            line.curves[0].a = (1 << 19) + 1;
            check_write_refused(edition, &line, 9, 1);
        }
        check_write_refused(FIRST, &from(1 << 28), 6, 0);
        assert_eq!(call(SECOND, &from(1 << 28), 21).0, Ok(21));
    }

    #[test]
    fn rooms_of_the_writer() {
        let mut dice = Dice::new(1);
        for edition in EDITIONS {
            for n in (0..=8).chain([63, 64]) {
                let line = line_in_range(&mut dice, edition, n);
                let length = sheet_length(edition, n);
                for room in [0, 7, length - 1] {
                    let expected = (refuse(16, 0), vec![7; room]);
                    assert_eq!(call(edition, &line, room), expected);
                }
                for room in [length, length + 1, length + 3, length + 4, 1_000] {
                    let (answer, bytes) = call(edition, &line, room);
                    assert_eq!(answer, Ok(length));
                    assert_eq!(bytes[..length], sheet_in(edition, &line));
                    assert!(bytes[length..].iter().all(|byte| *byte == 7));
                }
            }
        }
    }

    #[test]
    fn lines_come_back_with_unused_entries_zero() {
        let mut dice = Dice::new(1);
        for edition in EDITIONS {
            for _ in 0..1_000 {
                let line = random_line(&mut dice, edition);
                let mut filled = line.clone();
                fill_unused(&mut dice, &mut filled);
                let (answer, bytes) = call(edition, &filled, 720);
                assert_eq!(read(&bytes[..answer.unwrap()]), Ok((edition, line)));
            }
        }
    }

    #[test]
    fn sheets_come_back() {
        let mut dice = Dice::new(1);
        for edition in EDITIONS {
            let mut accepted = 0;
            for _ in 0..1_000 {
                let mut sheet = sheet_in(edition, &random_line(&mut dice, edition));
                // One bit changed: another line, or none.
                let bit = dice.index(0, 8 * sheet.len() - 1);
                sheet[bit / 8] ^= 0x80 >> (bit % 8);
                let Ok((edition, line)) = read(&sheet) else {
                    continue;
                };
                let written = call(edition, &line, sheet.len());
                assert_eq!(written, (Ok(sheet.len()), sheet.clone()));
                let again = lending(sheet.len(), |bytes| rewrite(&sheet, bytes));
                assert_eq!(again, (Ok(sheet.len()), sheet));
                accepted += 1;
            }
            assert!((500..1_000).contains(&accepted), "{accepted} accepted");
        }
    }

    #[test]
    fn conversions_of_case_9() {
        let [first, second] = CASE_9.map(|sheet| sheet.to_vec());
        assert_eq!(converted(&first, 2), Ok(second.clone()));
        assert_eq!(converted(&second, 1), Ok(first));
    }

    #[test]
    fn starts_that_go_back() {
        for (start, answer) in [
            (200_000_000, Ok(sheet_in(FIRST, &from(200_000_000)))),
            (200_000_001, refuse(24, 0)),
            (4_000_000_000, refuse(24, 0)),
        ] {
            assert_eq!(converted(&sheet_in(SECOND, &from(start)), 1), answer);
        }
    }

    /// The reader's refusals, then 2 for the own edition and those that are none,
    /// then 24, then 16.
    #[test]
    fn converter_is_checked_in_order() {
        let refused = |sheet: &[u8], asked, number| {
            for room in [0, 20] {
                let answer = lending(room, |bytes| convert(sheet, asked, bytes));
                assert_eq!(answer, (refuse(number, 0), vec![7; room]));
            }
        };
        for edition in EDITIONS {
            let sheet = sheet_in(edition, &Line::case_1());
            let [own, other] = [edition, edition.other()].map(|edition| edition.number);
            for asked in [0, 3, 15, 16, 16 + other, 1 << 31, MOST, own, other] {
                refused(&sheet[..20], asked, 1);
                refused(&EDITION.with(&sheet, 3), asked, 2);
                refused(&distance(edition, 0).with(&sheet, 0), asked, 8);
                refused(&sheet, asked, if asked == other { 16 } else { 2 });
            }
            let (answer, bytes) = lending(23, |bytes| convert(&sheet, other, bytes));
            assert_eq!((answer, &bytes[21..]), (Ok(21), &[7, 7][..]));
        }
        let far = sheet_in(SECOND, &from(200_000_001));
        refused(&far, 1, 24);
        refused(&far, 2, 2);
        refused(&far[..20], 1, 1);
    }

    /// Same line and edition asked for; there and back, the same bytes.
    #[test]
    fn conversions_there_and_back() {
        let mut dice = Dice::new(1);
        for round in 0..2_000 {
            let line = line_in_range(&mut dice, FIRST, round % 65);
            let [first, second] = EDITIONS.map(|edition| sheet_in(edition, &line));
            assert_eq!(converted(&first, 2), Ok(second.clone()));
            assert_eq!(converted(&second, 1), Ok(first.clone()));
            assert_eq!(edition_of(&first), Ok(FIRST));
            assert_eq!(edition_of(&second), Ok(SECOND));
        }
    }
}
