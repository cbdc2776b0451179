//! Faults put into a sheet that the reader accepts.

use super::dice::Dice;
use super::limits::greatest_spiral;
use super::sheet_fields::{
    deflection, distance, edition_said, fill, flip, radius, spiral, start, Field, COUNT, CROSSFALL,
    EDITION, SPEED,
};
use crate::elements::{GREATEST_DEFLECTION, GREATEST_RADIUS, SMALLEST_RADIUS};
use crate::line::{CROSSFALLS, GREATEST_DISTANCE, MOST_CURVES};
use crate::refusal::Refusal;
use crate::road_tables::DesignSpeed;
use crate::sheet::sheet_length;
use std::ops::RangeInclusive;

/// A fault that a sheet of `n` curves could have: any refusal of the reader, at
/// any of its places.
pub fn any_fault(dice: &mut Dice, n: usize) -> Refusal {
    let number = match n {
        0 => dice.one_of(&[1, 2, 3, 4, 5, 6, 7, 8]),
        _ => dice.one_of(&[1, 2, 3, 4, 5, 6, 7, 8, 9, 10, 11]),
    };
    let place = match number {
        8 => dice.index(0, n),
        9..=11 => dice.index(1, n),
        _ => 0,
    };
    Refusal { number, place }
}

/// Puts a fault for each of these refusals into a sheet that is accepted.
pub fn put_faults(dice: &mut Dice, sheet: &mut Vec<u8>, faults: &[Refusal]) {
    let mut faults = faults.to_vec();
    // L before R, which it is held against, and n and the edition after all that ask
    // for them; the sheet is cut last, and only once.
    faults.sort_by_key(|fault| std::cmp::Reverse(fault.number));
    faults.dedup();
    for fault in faults {
        put_fault(dice, sheet, fault);
    }
}

fn put_fault(dice: &mut Dice, sheet: &mut Vec<u8>, fault: Refusal) {
    let i = fault.place;
    let edition = edition_said(sheet);
    match fault.number {
        1 => cut(dice, sheet),
        2 => put_outside(dice, sheet, EDITION, 1..=2),
        3 => put_outside(dice, sheet, COUNT, 0..=MOST_CURVES as u32),
        4 => put_unknown_speed(dice, sheet),
        5 => put_outside(dice, sheet, CROSSFALL, CROSSFALLS),
        6 => put_outside(dice, sheet, start(edition), 0..=edition.greatest_start),
        7 => overrun(dice, sheet),
        8 => put_outside(dice, sheet, distance(edition, i), 1..=GREATEST_DISTANCE),
        9 => put_outside(dice, sheet, deflection(edition, i), 1..=GREATEST_DEFLECTION),
        10 => {
            let radii = SMALLEST_RADIUS..=GREATEST_RADIUS;
            put_outside(dice, sheet, radius(edition, i), radii);
        }
        11 => {
            let most = greatest_spiral(radius(edition, i).value(sheet));
            put_outside(dice, sheet, spiral(edition, i), 0..=most);
        }
        number => unreachable!("{number} is no refusal of the reader"),
    }
}

/// Cuts the sheet: often by one byte, often within the heading.
pub fn cut(dice: &mut Dice, sheet: &mut Vec<u8>) {
    let n = COUNT.value(sheet).min(MOST_CURVES as u32);
    let last = sheet_length(edition_said(sheet), n as usize) - 1;
    let any = dice.index(0, last);
    let within_heading = dice.index(0, 6);
    sheet.truncate(dice.one_of(&[last, any, within_heading]));
}

/// Makes the sheet longer, or sets bits of its fill if it has any.
fn overrun(dice: &mut Dice, sheet: &mut Vec<u8>) {
    if dice.once_in(2) || !set_fill(dice, sheet) {
        lengthen(dice, sheet);
    }
}

/// Sets bits of the fill, often only one. False if the sheet has no fill.
fn set_fill(dice: &mut Dice, sheet: &mut [u8]) -> bool {
    let fill = fill(edition_said(sheet), COUNT.value(sheet) as usize);
    if fill.width == 0 {
        return false;
    }
    let one = 1 << dice.between(0, fill.width - 1);
    let any = dice.between(1, fill.most());
    fill.put(sheet, dice.one_of(&[one, any]));
    true
}

/// Makes the sheet longer, often by one byte, with zeros or other bytes.
pub fn lengthen(dice: &mut Dice, sheet: &mut Vec<u8>) {
    let any = dice.index(1, 14);
    let count = dice.one_of(&[1, any]);
    let any = dice.byte();
    sheet.resize(sheet.len() + count, dice.one_of(&[0, any]));
}

/// Changes any one bit of the sheet.
pub fn flip_any(dice: &mut Dice, sheet: &mut [u8]) {
    let bit = dice.index(0, 8 * sheet.len() - 1);
    flip(sheet, bit);
}

/// Puts a value that fits the field, but is outside the range: often the next
/// to it or the field's last.
fn put_outside(dice: &mut Dice, sheet: &mut [u8], field: Field, range: RangeInclusive<u32>) {
    let (least, most) = range.into_inner();
    let mut values = Vec::new();
    if least > 0 {
        values.extend([0, least - 1, dice.between(0, least - 1)]);
    }
    if most < field.most() {
        let any = dice.between(most + 1, field.most());
        values.extend([most + 1, any, any, field.most()]);
    }
    field.put(sheet, dice.one_of(&values));
}

fn put_unknown_speed(dice: &mut Dice, sheet: &mut [u8]) {
    let unknown: Vec<u32> = (0..=SPEED.most())
        .filter(|v| DesignSpeed::of(*v).is_none())
        .collect();
    SPEED.put(sheet, dice.one_of(&unknown));
}

#[cfg(test)]
mod tests {
    use super::super::ranges::sheet_in_range;
    use super::*;
    use crate::edition::EDITIONS;
    use crate::sheet::read;

    /// A sheet of either edition.
    fn any_sheet(dice: &mut Dice, n: usize) -> Vec<u8> {
        let edition = dice.one_of(&EDITIONS);
        sheet_in_range(dice, edition, n)
    }

    #[test]
    fn one_fault_is_the_refusal() {
        let mut dice = Dice::new(1);
        for n in (0..=10).chain([64]) {
            for _ in 0..200 {
                let mut sheet = any_sheet(&mut dice, n);
                let fault = any_fault(&mut dice, n);
                put_faults(&mut dice, &mut sheet, &[fault]);
                assert_eq!(read(&sheet), Err(fault), "{sheet:02x?}");
            }
        }
    }

    #[test]
    fn one_of_three_faults_is_the_refusal() {
        let mut dice = Dice::new(1);
        for n in (0..=4).chain([64]) {
            for _ in 0..600 {
                let mut sheet = any_sheet(&mut dice, n);
                let faults = [(); 3].map(|_| any_fault(&mut dice, n));
                put_faults(&mut dice, &mut sheet, &faults);
                let refusal = read(&sheet).expect_err("the sheet has faults");
                assert!(faults.contains(&refusal), "{sheet:02x?}");
            }
        }
    }

    #[test]
    fn first_of_two_places_is_the_refusal() {
        let mut dice = Dice::new(1);
        for number in 8..=11 {
            for _ in 0..200 {
                let mut sheet = any_sheet(&mut dice, 3);
                let [first, second] = [1, 2].map(|place| Refusal { number, place });
                put_faults(&mut dice, &mut sheet, &[second, first]);
                assert_eq!(read(&sheet), Err(first), "{sheet:02x?}");
            }
        }
    }
}
