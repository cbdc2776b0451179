//! Random sheets of both editions: of roads, of roads at the limits of the checks, of
//! lines in range, damaged ones, and any bytes.

use super::damage::damage;
use super::near_limits::road_near_limits;
use reference::curve::Curve;
use reference::edition::EDITIONS;
use reference::elements::{GREATEST_DEFLECTION, GREATEST_RADIUS, SMALLEST_RADIUS};
use reference::line::{Line, CROSSFALLS, GREATEST_DISTANCE, MOST_CURVES};
use reference::road_tables::SPEEDS;
use reference::samples::dice::Dice;
use reference::samples::limits::greatest_spiral;
use reference::samples::ranges;
use reference::samples::roads::{any_side, road};
use reference::samples::sheet_fields::sheet_of_either;
use reference::samples::sheets::{any_bytes, any_bytes_of_an_edition, any_entries};

/// Bytes of the longest sheet that is tried.
const MOST_BYTES: usize = 1_500;

/// Any sheet.
pub fn any_sheet(dice: &mut Dice) -> Vec<u8> {
    match dice.between(0, 19) {
        0..=4 => sheet_of_a_road(dice),
        5..=8 => sheet_near_limits(dice),
        9..=10 => sheet_in_range(dice),
        11 => {
            let line = line_at_ends(dice);
            sheet_of_either(dice, &line)
        }
        12..=16 => damaged_sheet(dice),
        17 => any_entries(dice),
        18 => any_length(dice),
        _ => any_bytes_at_all(dice),
    }
}

/// How many curves: few in most cases, once in 20 the most.
pub fn any_count(dice: &mut Dice) -> usize {
    match dice.between(0, 19) {
        0..=1 => 0,
        2..=5 => 1,
        6..=8 => 2,
        9..=14 => dice.index(3, 8),
        15..=17 => dice.index(9, 30),
        18 => dice.index(31, MOST_CURVES - 1),
        _ => MOST_CURVES,
    }
}

/// A line that is accepted.
pub fn any_road(dice: &mut Dice) -> Line {
    let n = any_count(dice);
    road(dice, n)
}

fn sheet_of_a_road(dice: &mut Dice) -> Vec<u8> {
    let road = any_road(dice);
    sheet_of_either(dice, &road)
}

fn sheet_near_limits(dice: &mut Dice) -> Vec<u8> {
    let n = any_count(dice).max(1);
    let road = road_near_limits(dice, n);
    sheet_of_either(dice, &road)
}

/// A sheet that the reader accepts.
fn sheet_in_range(dice: &mut Dice) -> Vec<u8> {
    let n = any_count(dice);
    let edition = dice.one_of(&EDITIONS);
    ranges::sheet_in_range(dice, edition, n)
}

/// A line whose every field is at an end of its range, or next to it; the start's is
/// that of either edition.
pub fn line_at_ends(dice: &mut Dice) -> Line {
    let n = any_count(dice);
    let e = near_end(dice, *CROSSFALLS.start(), *CROSSFALLS.end());
    let greatest_start = dice.one_of(&EDITIONS).greatest_start;
    let start = near_end(dice, 0, greatest_start);
    let curves: Vec<Curve> = (0..n).map(|_| curve_at_ends(dice)).collect();
    let distances: Vec<u32> = (0..=n)
        .map(|_| near_end(dice, 1, GREATEST_DISTANCE))
        .collect();
    let mut line = Line::new(dice.one_of(&SPEEDS).v, e, start, &distances, &curves);
    line.sides[..n].fill_with(|| any_side(dice));
    line
}

/// A curve in range whose every field is at an end, or next to it.
pub fn curve_at_ends(dice: &mut Dice) -> Curve {
    let a = near_end(dice, 1, GREATEST_DEFLECTION);
    let r = near_end(dice, SMALLEST_RADIUS, GREATEST_RADIUS);
    let l = near_end(dice, 0, greatest_spiral(r));
    Curve::new(a, r, l)
}

/// One end of a range, or the number next to it.
fn near_end(dice: &mut Dice, least: u32, most: u32) -> u32 {
    dice.one_of(&[least, least, least + 1, most - 1, most, most])
}

/// A sheet of a road or of a line in range, with one to five damages.
fn damaged_sheet(dice: &mut Dice) -> Vec<u8> {
    let mut sheet = match dice.between(0, 3) {
        0..=1 => sheet_of_a_road(dice),
        2 => sheet_near_limits(dice),
        _ => sheet_in_range(dice),
    };
    for _ in 0..dice.one_of(&[1, 1, 2, 3, 5]) {
        damage(dice, &mut sheet);
    }
    sheet
}

/// A heading that is in range, and any bytes behind it, too few or too many.
fn any_length(dice: &mut Dice) -> Vec<u8> {
    let mut sheet = sheet_in_range(dice);
    let length = dice.index(0, MOST_BYTES);
    let any = dice.byte();
    sheet.resize(length, dice.one_of(&[0, any]));
    sheet
}

fn any_bytes_at_all(dice: &mut Dice) -> Vec<u8> {
    if dice.once_in(2) {
        any_bytes(dice)
    } else {
        any_bytes_of_an_edition(dice)
    }
}

#[cfg(test)]
mod tests {
    use super::*;
    use crate::input::curves_of;
    use crate::side::{Reference, Side};
    use reference::line::GREATEST_START;
    use std::collections::BTreeMap;

    #[test]
    fn every_refusal_and_many_accepted() {
        let mut dice = Dice::new(1);
        let mut times = BTreeMap::new();
        let mut accepted_counts = BTreeMap::new();
        for _ in 0..3_000 {
            let sheet = any_sheet(&mut dice);
            let answer = Reference.check(&sheet);
            let number = answer.map_or_else(|refusal| refusal.number, |_| 0);
            *times.entry(number).or_insert(0) += 1;
            if number == 0 {
                *accepted_counts.entry(curves_of(&sheet)).or_insert(0) += 1;
            }
        }
        assert!((1..=15).all(|number| times[&number] >= 8), "{times:?}");
        assert!(times[&0] >= 900, "{times:?}");
        assert!(accepted_counts[&0] >= 60, "{accepted_counts:?}");
        assert!(accepted_counts[&64] >= 20, "{accepted_counts:?}");
        assert!(accepted_counts.len() >= 45, "{accepted_counts:?}");
    }

    /// How often sheets are refused, and read in which edition.
    #[test]
    fn both_editions() {
        let mut dice = Dice::new(1);
        let mut times = [0; 3];
        for _ in 0..3_000 {
            let sheet = any_sheet(&mut dice);
            let edition = Reference.edition(&sheet).unwrap_or(0);
            times[edition] += 1;
        }
        assert!(times.iter().all(|count| *count >= 700), "{times:?}");
    }

    #[test]
    fn lines_at_ends_are_in_range() {
        let mut dice = Dice::new(1);
        for _ in 0..1_000 {
            let line = line_at_ends(&mut dice);
            assert_eq!(line.check_ranges(GREATEST_START), Ok(()));
        }
    }
}
