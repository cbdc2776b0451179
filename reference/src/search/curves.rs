//! The curves that are worked: the edges of the ranges, random ones, and what
//! climbs reach from the worst of them.

use super::guide::rough_differences;
use super::{changed, highest, random_curve, CLIMBS};
use crate::accuracy::{CurveRecord, NAMES};
use crate::curve::Curve;
use crate::elements::{check_ranges, GREATEST_DEFLECTION};
use crate::samples::dice::Dice;

/// Works `count` curves, then climbs for each difference, below and above.
pub fn search(dice: &mut Dice, count: usize) -> CurveRecord {
    let mut record = CurveRecord::empty();
    for curve in edges().into_iter().take(count) {
        record.see(curve);
    }
    for _ in edges().len()..count {
        record.see(random_curve(dice));
    }
    for item in 0..NAMES.len() {
        climb_below_and_above(dice, &mut record, item, count);
    }
    record
}

/// Climbs to the least and to the greatest of one of the differences, from the
/// worst curve so far and from random ones.
fn climb_below_and_above(dice: &mut Dice, record: &mut CurveRecord, item: usize, steps: usize) {
    let extremes = record.differences[item].clone();
    for (extreme, sign) in [(extremes.least, -1.0), (extremes.greatest, 1.0)] {
        let Some((_, worst)) = extreme else { continue };
        let mut starts = vec![worst];
        starts.extend((1..CLIMBS).map(|_| random_curve(dice)));
        let measure = |curve: &Curve| Some(sign * rough_differences(*curve)[item]);
        record.see(highest(dice, starts, steps, changed, measure));
    }
}

/// Every combination of the values at the edges of the ranges, and at a few
/// values between, that is in range.
fn edges() -> Vec<Curve> {
    let mut curves = Vec::new();
    // 206,265 seconds are the first above one radian, 324,000 a right angle.
    for a in [1, 2, 3, 206_265, 324_000, 431_999, GREATEST_DEFLECTION] {
        for r in [20_000, 20_001, 350_000, 500_000, 4_999_999, 5_000_000] {
            for l in [0, 1, 2, 40_000, 499_999, 500_000, r - 1, r] {
                curves.push(Curve::new(a, r, l));
            }
        }
    }
    curves.retain(|&Curve { a, r, l }| check_ranges(a, r, l).is_ok());
    curves
}

#[cfg(test)]
mod tests {
    use super::*;
    use crate::accuracy::BOUNDS;

    #[test]
    fn edges_have_the_corners_of_the_ranges() {
        let edges = edges();
        for a in [1, 432_000] {
            for (r, l) in [(20_000, 0), (20_000, 20_000), (500_000, 500_000)] {
                assert!(edges.contains(&Curve::new(a, r, l)));
            }
            for l in [0, 500_000] {
                assert!(edges.contains(&Curve::new(a, 5_000_000, l)));
            }
        }
    }

    #[test]
    fn same_findings_for_the_same_seed() {
        let find = |seed| {
            let found = search(&mut Dice::new(seed), 20).differences;
            found.map(|extremes| (extremes.least, extremes.greatest))
        };
        assert_eq!(find(1), find(1));
        assert_ne!(find(1), find(2));
    }

    /// Even few steps reach half of what D can differ.
    #[test]
    fn climbs_find_large_differences_in_bounds() {
        let found = search(&mut Dice::new(1), 50).differences;
        for (extremes, bound) in found.iter().zip(BOUNDS) {
            let [least, greatest] = [&extremes.least, &extremes.greatest];
            assert!(least.unwrap().0 >= -bound && greatest.unwrap().0 <= bound);
        }
        assert!(found[4].least.unwrap().0 < -3.0);
    }
}
