//! Sheets of any bits.

use super::dice::Dice;
use super::sheet_fields::{fill, start, COUNT, CROSSFALL, EDITION, SPEED};
use crate::edition::EDITIONS;
use crate::hexadecimal::MOST_BYTES;
use crate::line::{CROSSFALLS, MOST_CURVES};
use crate::road_tables::SPEEDS;
use crate::sheet::sheet_length;

/// Any bytes.
pub fn any_bytes(dice: &mut Dice) -> Vec<u8> {
    let length = dice.index(0, MOST_BYTES);
    bytes(dice, length)
}

/// Any bytes after either edition.
pub fn any_bytes_of_an_edition(dice: &mut Dice) -> Vec<u8> {
    let length = dice.index(1, MOST_BYTES);
    let mut sheet = bytes(dice, length);
    EDITION.put(&mut sheet, dice.one_of(&EDITIONS).number);
    sheet
}

/// A heading in range and the right length, the entries of any bits.
pub fn any_entries(dice: &mut Dice) -> Vec<u8> {
    let n = dice.index(0, MOST_CURVES);
    let edition = dice.one_of(&EDITIONS);
    let mut sheet = bytes(dice, sheet_length(edition, n));
    EDITION.put(&mut sheet, edition.number);
    COUNT.put(&mut sheet, n as u32);
    SPEED.put(&mut sheet, dice.one_of(&SPEEDS).v);
    let e = dice.between(*CROSSFALLS.start(), *CROSSFALLS.end());
    CROSSFALL.put(&mut sheet, e);
    start(edition).put(&mut sheet, dice.between(0, edition.greatest_start));
    fill(edition, n).put(&mut sheet, 0);
    sheet
}

fn bytes(dice: &mut Dice, length: usize) -> Vec<u8> {
    (0..length).map(|_| dice.byte()).collect()
}

#[cfg(test)]
mod tests {
    use super::*;
    use crate::sheet::read;
    use std::collections::BTreeSet;

    /// The refusals of many such sheets.
    fn numbers(sheet: fn(&mut Dice) -> Vec<u8>) -> BTreeSet<u8> {
        let mut dice = Dice::new(1);
        (0..2_000)
            .filter_map(|_| read(&sheet(&mut dice)).err())
            .map(|refusal| refusal.number)
            .collect()
    }

    #[test]
    fn refusals_of_any_bits() {
        assert!(numbers(any_bytes).contains(&2));
        let of_an_edition = numbers(any_bytes_of_an_edition);
        assert!((3..=5).all(|number| of_an_edition.contains(&number)));
        assert!(!of_an_edition.contains(&2));
        assert_eq!(numbers(any_entries), [8, 9, 10, 11].into());
    }
}
