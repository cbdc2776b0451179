//! Random numbers of lines for the call that writes a sheet, and editions that it is
//! told: lines in range, at the ends of every range, damaged, of more or fewer numbers
//! than there should be, and any.

use super::sheets::{any_count, any_road, line_at_ends};
use crate::input::Request;
use reference::edition::{Edition, EDITIONS};
use reference::elements::{GREATEST_DEFLECTION, GREATEST_RADIUS, GREATEST_SPIRAL, SMALLEST_RADIUS};
use reference::line::{CROSSFALLS, GREATEST_DISTANCE, LEFT, MOST_CURVES, RIGHT};
use reference::line_numbers::number_count;
use reference::road_tables::SPEEDS;
use reference::samples::dice::Dice;
use reference::samples::ranges::line_in_range;
use reference::samples::roads::any_number;
use reference::samples::sheet_fields::{
    deflection, distance, radius, side, spiral, COUNT, CROSSFALL, SPEED,
};

/// Most curves of a line that is tried.
const MOST_TRIED: usize = 70;

/// The numbers of any line, and an edition; mostly that for which it was made.
pub fn any_write(dice: &mut Dice) -> Request {
    let edition = dice.one_of(&EDITIONS);
    let line = any_line(dice, edition);
    let told = match dice.between(0, 9) {
        0..=7 => edition.number,
        8 => edition.other().number,
        _ => no_edition(dice),
    };
    Request::Write(told, line)
}

/// An edition that is none, often one whose lower bits are.
pub fn no_edition(dice: &mut Dice) -> u32 {
    let any = dice.between(3, u32::MAX);
    let one_more_bit = 1 << dice.between(2, u32::BITS - 1) | dice.between(1, 2);
    dice.one_of(&[0, 3, 4, 15, 16, one_more_bit, one_more_bit, any])
}

fn any_line(dice: &mut Dice, edition: Edition) -> Vec<u32> {
    match dice.between(0, 19) {
        0..=4 => in_range(dice, edition),
        5..=6 => any_road(dice).numbers(),
        7..=9 => line_at_ends(dice).numbers(),
        10..=16 => damaged(dice, edition),
        17 => miscounted(dice, edition),
        18 => any_numbers(dice),
        _ => any_curves(dice, edition),
    }
}

fn in_range(dice: &mut Dice, edition: Edition) -> Vec<u32> {
    let n = any_count(dice);
    line_in_range(dice, edition, n).numbers()
}

/// A line in range or at the ends, with one to five numbers damaged.
fn damaged(dice: &mut Dice, edition: Edition) -> Vec<u32> {
    let mut line = match dice.between(0, 2) {
        0 => line_at_ends(dice).numbers(),
        _ => in_range(dice, edition),
    };
    for _ in 0..dice.one_of(&[1, 1, 2, 3, 4, 5]) {
        let index = any_index(dice, line.len());
        line[index] = damaged_number(dice, edition, index, line[index]);
    }
    line
}

/// Any number of the line, those of the heading in one case of three.
fn any_index(dice: &mut Dice, count: usize) -> usize {
    let last = if dice.once_in(3) { 4 } else { count - 1 };
    dice.index(0, last)
}

/// The ends of the field's range, the numbers next to them, one that is cut to
/// the sheet's bits its own, or any.
fn damaged_number(dice: &mut Dice, edition: Edition, index: usize, number: u32) -> u32 {
    let (least, most, bits) = range_of(dice, edition, index);
    let any = any_number(dice);
    let mut numbers = vec![
        least.saturating_sub(1),
        least,
        most,
        most + 1,
        u32::MAX,
        any,
    ];
    if bits < u32::BITS {
        let bit = 1_u32 << dice.between(bits, u32::BITS - 1);
        numbers.extend([number | 1 << bits, number | bit]);
    }
    dice.one_of(&numbers)
}

/// The range of the number with this index, and the bits of its field in a
/// sheet.
fn range_of(dice: &mut Dice, edition: Edition, index: usize) -> (u32, u32, u32) {
    // Every design speed is a range of its own.
    let v = dice.one_of(&SPEEDS).v;
    match index {
        0 => (0, MOST_CURVES as u32, COUNT.width),
        1 => (v, v, SPEED.width),
        2 => (*CROSSFALLS.start(), *CROSSFALLS.end(), CROSSFALL.width),
        3 => (0, edition.greatest_start, edition.start_bits),
        _ => match index % 5 {
            0 => (RIGHT, LEFT, side(edition, 1).width),
            1 => (1, GREATEST_DEFLECTION, deflection(edition, 1).width),
            2 => (SMALLEST_RADIUS, GREATEST_RADIUS, radius(edition, 1).width),
            3 => (0, GREATEST_SPIRAL, spiral(edition, 1).width),
            _ => (1, GREATEST_DISTANCE, distance(edition, 1).width),
        },
    }
}

/// A line in range that is cut, or has more numbers than it should; often one.
fn miscounted(dice: &mut Dice, edition: Edition) -> Vec<u32> {
    let mut line = in_range(dice, edition);
    let any = dice.index(0, number_count(MOST_TRIED));
    let count = line.len();
    let counts = [0, count - 5, count - 1, count + 1, count + 5, any];
    line.resize(dice.one_of(&counts), any_number(dice));
    line
}

/// Any numbers, as many as the first of them asks for.
fn any_numbers(dice: &mut Dice) -> Vec<u32> {
    let n = dice.index(0, MOST_TRIED);
    let mut line: Vec<u32> = (0..number_count(n)).map(|_| any_number(dice)).collect();
    line[0] = n as u32;
    line
}

/// A heading in range, and any numbers behind it.
fn any_curves(dice: &mut Dice, edition: Edition) -> Vec<u32> {
    let mut line = in_range(dice, edition);
    for number in &mut line[4..] {
        if dice.once_in(3) {
            *number = any_number(dice);
        }
    }
    line
}

#[cfg(test)]
mod tests {
    use super::*;
    use crate::input::Call;
    use crate::side::{Reference, Side};
    use std::collections::{BTreeMap, BTreeSet};

    #[test]
    fn every_refusal_and_many_accepted() {
        let mut dice = Dice::new(1);
        let mut times = BTreeMap::new();
        let mut accepted = BTreeSet::new();
        for _ in 0..5_000 {
            let request = any_write(&mut dice);
            let Request::Write(edition, line) = &request else {
                panic!("no line");
            };
            let answer = Reference.write(*edition, line, &mut [0; 706]);
            let number = answer.map_or_else(|refusal| refusal.number, |_| 0);
            *times.entry(number).or_insert(0) += 1;
            if number == 0 {
                accepted.insert((*edition, request.curves()));
            }
        }
        let refusals = Call::Write.refusals();
        let mut expected = refusals.iter().filter(|number| **number != 16);
        assert!(expected.all(|number| times[number] >= 80), "{times:?}");
        assert!(times[&0] >= 2_000, "{times:?}");
        for edition in [1, 2] {
            let counts = accepted.iter().filter(|(told, _)| *told == edition);
            assert!(counts.count() >= 50, "{accepted:?}");
        }
    }

    /// Of every field: both ends and the numbers next to them, and numbers too
    /// wide for its bits.
    #[test]
    fn damaged_numbers_of_every_field() {
        let mut dice = Dice::new(1);
        for (edition, index) in EDITIONS
            .into_iter()
            .flat_map(|edition| [0, 2, 3, 4, 5, 6, 7, 8, 9].map(|index| (edition, index)))
        {
            let (least, most, bits) = range_of(&mut dice, edition, index);
            let mut numbers = BTreeSet::new();
            for _ in 0..2_000 {
                numbers.insert(damaged_number(&mut dice, edition, index, least));
            }
            for number in [least.saturating_sub(1), least, most, most + 1, u32::MAX] {
                assert!(numbers.contains(&number), "{index} {number}");
            }
            let wide = (bits..32).filter(|bit| numbers.contains(&(least | 1 << bit)));
            assert!(wide.count() == (32 - bits) as usize, "{index}");
        }
    }

    #[test]
    fn no_edition_is_known() {
        let mut dice = Dice::new(1);
        for _ in 0..1_000 {
            assert!(Edition::of(no_edition(&mut dice)).is_err());
        }
    }

    #[test]
    fn counts_of_numbers() {
        let mut dice = Dice::new(1);
        let refused = |line: &[u32]| Reference.write(2, line, &mut [0; 706]).is_err();
        let lines: Vec<Vec<u32>> = (0..500)
            .map(|_| miscounted(&mut dice, EDITIONS[1]))
            .collect();
        assert!(lines.iter().any(Vec::is_empty));
        for (less, more) in [(1, 0), (0, 1), (5, 0), (0, 5)] {
            let off = |line: &&Vec<u32>| {
                let n = line.first().map_or(0, |n| *n as usize);
                !line.is_empty() && line.len() + less == number_count(n) + more
            };
            let found: Vec<&Vec<u32>> = lines.iter().filter(off).collect();
            assert!(found.len() >= 20);
            assert!(found.iter().all(|line| refused(line)));
        }
    }
}
