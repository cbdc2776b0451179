//! The search for the largest differences between the working rule and the
//! exact values: many curves and lines, then climbs, which change a curve little
//! by little and keep what differs more. The same seed gives the same findings
//! on every machine.

mod curves;
pub(crate) mod guide;
mod lines;

use crate::accuracy::{CurveRecord, LineRecord};
use crate::curve::Curve;
use crate::elements::{GREATEST_DEFLECTION, GREATEST_RADIUS, GREATEST_SPIRAL, SMALLEST_RADIUS};
use crate::samples::dice::Dice;
use crate::samples::limits::greatest_spiral;

/// Starts of climbs for each thing that is looked for.
const CLIMBS: usize = 20;

/// What was found.
pub struct Findings {
    pub curves: CurveRecord,
    pub lines: LineRecord,
}

/// Works this many curves and this many lines, and climbs for both.
pub fn search(seed: u64, curve_count: usize, line_count: usize) -> Findings {
    Findings {
        curves: curves::search(&mut Dice::new(seed), curve_count),
        lines: lines::search(&mut Dice::new(seed), line_count),
    }
}

/// Climbs from each of these starts, one at least, and gives the highest place.
pub(crate) fn highest<T>(
    dice: &mut Dice,
    starts: Vec<T>,
    steps: usize,
    change: impl Fn(&mut Dice, &T) -> T,
    measure: impl Fn(&T) -> Option<f64>,
) -> T {
    let tops = starts
        .into_iter()
        .map(|start| climb(dice, start, steps, &change, &measure));
    let (top, _) = tops
        .max_by(|(_, a), (_, b)| a.partial_cmp(b).expect("every height is a number"))
        .expect("there is a start");
    top
}

/// Climbs from `start`: makes this many changes one after another, and keeps
/// each that measures no less. What has no measure ranks lowest. Gives the place
/// that is reached, and its height.
fn climb<T>(
    dice: &mut Dice,
    start: T,
    steps: usize,
    change: impl Fn(&mut Dice, &T) -> T,
    measure: impl Fn(&T) -> Option<f64>,
) -> (T, Option<f64>) {
    let mut height = measure(&start);
    let mut place = start;
    for _ in 0..steps {
        let next = change(dice, &place);
        let next_height = measure(&next);
        if next_height >= height {
            (place, height) = (next, next_height);
        }
    }
    (place, height)
}

/// The curve with one of its fields changed, or all three; in range.
pub(crate) fn changed(dice: &mut Dice, curve: &Curve) -> Curve {
    let Curve {
        mut a,
        mut r,
        mut l,
    } = *curve;
    let field = dice.between(0, 3);
    if field == 0 || field == 3 {
        a = moved(dice, a, 1, GREATEST_DEFLECTION);
    }
    if field == 1 || field == 3 {
        r = moved(dice, r, SMALLEST_RADIUS, GREATEST_RADIUS);
    }
    if field == 2 || field == 3 {
        l = moved(dice, l, 0, GREATEST_SPIRAL);
    }
    Curve::new(a, r, l.min(greatest_spiral(r)))
}

/// The number moved up or down, small steps as frequent as large ones, and kept
/// from `least` to `most`.
pub(crate) fn moved(dice: &mut Dice, number: u32, least: u32, most: u32) -> u32 {
    let step = dice.spread(1, most - least);
    if dice.once_in(2) {
        number.saturating_sub(step).max(least)
    } else {
        (number + step).min(most)
    }
}

/// A number from `least` to `most`, those near the top frequent.
fn high(dice: &mut Dice, least: u32, most: u32) -> u32 {
    match dice.between(0, 3) {
        0 => most,
        1 => dice.between(most - (most - least) / 10, most),
        _ => dice.between(least, most),
    }
}

/// A curve in range, large numbers frequent.
pub(crate) fn random_curve(dice: &mut Dice) -> Curve {
    let a = high(dice, 1, GREATEST_DEFLECTION);
    let r = high(dice, SMALLEST_RADIUS, GREATEST_RADIUS);
    let l = high(dice, 0, greatest_spiral(r));
    Curve::new(a, r, l)
}

#[cfg(test)]
mod tests {
    use super::*;
    use crate::elements::check_ranges;

    #[test]
    fn climbs_reach_the_top() {
        let mut dice = Dice::new(1);
        let change = |dice: &mut Dice, number: &u32| moved(dice, *number, 0, 1_000);
        // A hill at 700, its foot at 600 and 800, on a plain without measure.
        let measure = |number: &u32| {
            let off = f64::from(number.abs_diff(700));
            (off <= 100.0).then_some(-off)
        };
        let found = highest(&mut dice, vec![0, 1_000], 1_000, change, measure);
        assert_eq!(found, 700);
    }

    #[test]
    fn curves_stay_in_range() {
        let mut dice = Dice::new(1);
        for _ in 0..1_000 {
            let curve = random_curve(&mut dice);
            for Curve { a, r, l } in [curve, changed(&mut dice, &curve)] {
                assert_eq!(check_ranges(a, r, l), Ok(()));
            }
        }
    }
}
