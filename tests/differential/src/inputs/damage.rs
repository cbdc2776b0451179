//! Damage to a sheet: values at or beyond the ends of a field's range, changed
//! bits and bytes, other lengths.

use crate::input::curves_of;
use reference::edition::{Edition, EDITIONS};
use reference::elements::{GREATEST_DEFLECTION, GREATEST_RADIUS, SMALLEST_RADIUS};
use reference::line::{CROSSFALLS, GREATEST_DISTANCE, MOST_CURVES};
use reference::road_tables::SPEEDS;
use reference::samples::dice::Dice;
use reference::samples::limits::greatest_spiral;
use reference::samples::sheet_fields::{
    deflection, distance, edition_said, fill, flip, radius, side, spiral, start, Field, COUNT,
    CROSSFALL, EDITION, SPEED,
};

/// Damages the sheet in one way. Nothing changes where a sheet is too short for
/// it.
pub fn damage(dice: &mut Dice, sheet: &mut Vec<u8>) {
    match dice.between(0, 11) {
        0..=4 => put_edge(dice, sheet),
        5 => put_any_value(dice, sheet),
        6..=7 => flip_bits(dice, sheet),
        8 => overwrite(dice, sheet),
        9 => cut(dice, sheet),
        10 => lengthen(dice, sheet),
        _ => set_fill(dice, sheet),
    }
}

/// A field and the ends of its range.
struct Ranged {
    field: Field,
    least: u32,
    most: u32,
}

impl Ranged {
    fn new(field: Field, least: u32, most: u32) -> Ranged {
        Ranged { field, least, most }
    }

    /// The ends, the numbers next to them, and the field's own ends.
    fn edges(&self) -> Vec<u32> {
        let Ranged { field, least, most } = *self;
        let mut edges = vec![0, least, least + 1, most, most + 1, field.most()];
        edges.extend([least, most].iter().filter_map(|end| end.checked_sub(1)));
        edges.retain(|edge| *edge <= field.most());
        edges
    }
}

/// Any field of the sheet, those of the heading in one case of three.
fn any_field(dice: &mut Dice, sheet: &[u8]) -> Ranged {
    let n = curves_of(sheet);
    let edition = edition_said(sheet);
    if dice.once_in(3) {
        heading_field(dice, edition)
    } else if n == 0 || dice.once_in(4) {
        let i = dice.index(0, n);
        Ranged::new(distance(edition, i), 1, GREATEST_DISTANCE)
    } else {
        let i = dice.index(1, n);
        curve_field(dice, sheet, i)
    }
}

/// A field of the heading; of the start, either edition's range.
fn heading_field(dice: &mut Dice, edition: Edition) -> Ranged {
    let v = dice.one_of(&SPEEDS).v;
    match dice.between(0, 4) {
        0 => Ranged::new(EDITION, 1, 2),
        1 => Ranged::new(COUNT, 0, MOST_CURVES as u32),
        // Every design speed is a range of its own.
        2 => Ranged::new(SPEED, v, v),
        3 => Ranged::new(CROSSFALL, *CROSSFALLS.start(), *CROSSFALLS.end()),
        _ => {
            let greatest_start = dice.one_of(&EDITIONS).greatest_start;
            Ranged::new(start(edition), 0, greatest_start)
        }
    }
}

/// A field of curve i.
fn curve_field(dice: &mut Dice, sheet: &[u8], i: usize) -> Ranged {
    let edition = edition_said(sheet);
    match dice.between(0, 6) {
        0 => Ranged::new(side(edition, i), 0, 1),
        1..=2 => Ranged::new(deflection(edition, i), 1, GREATEST_DEFLECTION),
        3..=4 => Ranged::new(radius(edition, i), SMALLEST_RADIUS, GREATEST_RADIUS),
        _ => Ranged::new(spiral(edition, i), 0, greatest_spiral_of(sheet, i)),
    }
}

/// The greatest L in range for the radius of curve i.
fn greatest_spiral_of(sheet: &[u8], i: usize) -> u32 {
    let radius = radius(edition_said(sheet), i);
    let r = value_in(sheet, radius).unwrap_or(GREATEST_RADIUS);
    greatest_spiral(r)
}

/// The value of a field, if it lies within the sheet.
fn value_in(sheet: &[u8], field: Field) -> Option<u32> {
    holds(sheet, field).then(|| field.value(sheet))
}

/// Whether the field lies within the sheet.
fn holds(sheet: &[u8], field: Field) -> bool {
    field.first + field.width as usize <= 8 * sheet.len()
}

fn put(sheet: &mut [u8], field: Field, value: u32) {
    if holds(sheet, field) {
        field.put(sheet, value);
    }
}

fn put_edge(dice: &mut Dice, sheet: &mut [u8]) {
    let ranged = any_field(dice, sheet);
    put(sheet, ranged.field, dice.one_of(&ranged.edges()));
}

fn put_any_value(dice: &mut Dice, sheet: &mut [u8]) {
    let field = any_field(dice, sheet).field;
    put(sheet, field, dice.between(0, field.most()));
}

/// Changes one to eight bits anywhere.
fn flip_bits(dice: &mut Dice, sheet: &mut [u8]) {
    if sheet.is_empty() {
        return;
    }
    for _ in 0..dice.one_of(&[1, 1, 1, 2, 8]) {
        flip(sheet, dice.index(0, 8 * sheet.len() - 1));
    }
}

/// Puts any bytes over one to twelve bytes.
fn overwrite(dice: &mut Dice, sheet: &mut [u8]) {
    if sheet.is_empty() {
        return;
    }
    let first = dice.index(0, sheet.len() - 1);
    let last = (first + dice.index(0, 11)).min(sheet.len() - 1);
    sheet[first..=last].fill_with(|| dice.byte());
}

/// Cuts the sheet: by one byte, within the heading, or anywhere.
fn cut(dice: &mut Dice, sheet: &mut Vec<u8>) {
    let any = dice.index(0, sheet.len());
    let within_heading = dice.index(0, 10);
    sheet.truncate(dice.one_of(&[sheet.len().saturating_sub(1), within_heading, any]));
}

/// Makes the sheet longer: by one byte, or by more.
fn lengthen(dice: &mut Dice, sheet: &mut Vec<u8>) {
    let more = dice.one_of(&[1, 1, 2, 11, 100, 700]);
    let any = dice.byte();
    sheet.resize(sheet.len() + more, dice.one_of(&[0, any]));
}

/// Sets bits of the fill, often a single one.
fn set_fill(dice: &mut Dice, sheet: &mut [u8]) {
    let fill = fill(edition_said(sheet), curves_of(sheet));
    if fill.width == 0 {
        return;
    }
    let one = 1 << dice.between(0, fill.width - 1);
    let any = dice.between(0, fill.most());
    put(sheet, fill, dice.one_of(&[one, any]));
}

#[cfg(test)]
mod tests {
    use super::*;
    use reference::edition::{FIRST, SECOND};
    use reference::line::Line;
    use reference::samples::sheet_fields::sheet_of_either;

    #[test]
    fn edges_of_fields() {
        let sorted = |field: Field, least, most| {
            let mut edges = Ranged::new(field, least, most).edges();
            edges.sort();
            edges.dedup();
            edges
        };
        assert_eq!(sorted(EDITION, 1, 2), [0, 1, 2, 3, 15]);
        assert_eq!(sorted(COUNT, 0, 64), [0, 1, 63, 64, 65, 127]);
        assert_eq!(sorted(side(FIRST, 1), 0, 1), [0, 1]);
        let greatest = 4_000_000_000;
        assert_eq!(
            sorted(start(SECOND), 0, greatest),
            [0, 1, greatest - 1, greatest, greatest + 1, u32::MAX]
        );
        assert_eq!(sorted(start(FIRST), 0, greatest), [0, 1, (1 << 28) - 1]);
        assert_eq!(
            sorted(radius(FIRST, 1), 20_000, 5_000_000),
            [0, 19_999, 20_000, 20_001, 4_999_999, 5_000_000, 5_000_001, 8_388_607]
        );
    }

    /// Whatever damages came before: short sheets, other counts.
    #[test]
    fn any_sheet_can_be_damaged() {
        let mut dice = Dice::new(1);
        let mut changed = 0;
        for _ in 0..2_000 {
            let mut sheet = sheet_of_either(&mut dice, &Line::case_1());
            for _ in 0..8 {
                let before = sheet.clone();
                damage(&mut dice, &mut sheet);
                changed += usize::from(sheet != before);
            }
        }
        assert!(changed >= 8_000, "{changed}");
    }
}
