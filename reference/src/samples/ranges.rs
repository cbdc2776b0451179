//! Lines whose fields are anywhere in range: the writer takes them in their
//! edition, the calculator may not.

use super::dice::Dice;
use super::limits::greatest_spiral;
use super::roads::any_side;
use super::sheet_fields::sheet_in;
use crate::curve::Curve;
use crate::edition::Edition;
use crate::elements::{GREATEST_DEFLECTION, GREATEST_RADIUS, SMALLEST_RADIUS};
use crate::line::{Line, CROSSFALLS, GREATEST_DISTANCE};
use crate::road_tables::SPEEDS;

/// A line of `n` curves for this edition.
pub fn line_in_range(dice: &mut Dice, edition: Edition, n: usize) -> Line {
    let v = dice.one_of(&SPEEDS).v;
    let e = dice.between(*CROSSFALLS.start(), *CROSSFALLS.end());
    let start = number_in_range(dice, 0, edition.greatest_start);
    let curves: Vec<Curve> = (0..n).map(|_| curve_in_range(dice)).collect();
    let distances: Vec<u32> = (0..=n)
        .map(|_| number_in_range(dice, 1, GREATEST_DISTANCE))
        .collect();
    let mut line = Line::new(v, e, start, &distances, &curves);
    line.sides[..n].fill_with(|| any_side(dice));
    line
}

/// The sheet of such a line.
pub fn sheet_in_range(dice: &mut Dice, edition: Edition, n: usize) -> Vec<u8> {
    sheet_in(edition, &line_in_range(dice, edition, n))
}

fn curve_in_range(dice: &mut Dice) -> Curve {
    let a = number_in_range(dice, 1, GREATEST_DEFLECTION);
    let r = number_in_range(dice, SMALLEST_RADIUS, GREATEST_RADIUS);
    let l = number_in_range(dice, 0, greatest_spiral(r));
    Curve::new(a, r, l)
}

/// A number of a range, its ends and small numbers being frequent.
fn number_in_range(dice: &mut Dice, least: u32, most: u32) -> u32 {
    match dice.between(0, 9) {
        0 => least,
        1 => most,
        2..=4 => dice.spread(least.max(1), most),
        _ => dice.between(least, most),
    }
}

#[cfg(test)]
mod tests {
    use super::*;
    use crate::edition::EDITIONS;

    #[test]
    fn lines_are_in_range() {
        let mut dice = Dice::new(1);
        for edition in EDITIONS {
            for n in 0..=64 {
                for _ in 0..20 {
                    let line = line_in_range(&mut dice, edition, n);
                    assert_eq!(line.curve_count(), n);
                    assert_eq!(line.check_ranges(edition.greatest_start), Ok(()));
                }
            }
        }
    }
}
