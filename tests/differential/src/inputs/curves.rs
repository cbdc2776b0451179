//! Random curves for the call of one curve's elements, in range or not.

use super::sheets::curve_at_ends;
use reference::curve::Curve;
use reference::edition::FIRST;
use reference::elements::{GREATEST_DEFLECTION, GREATEST_RADIUS, GREATEST_SPIRAL, SMALLEST_RADIUS};
use reference::samples::curves::random_curve;
use reference::samples::dice::Dice;
use reference::samples::limits::{least_deflection, least_radius_of_arc};
use reference::samples::ranges::line_in_range;
use reference::samples::roads::any_number;

/// Any curve.
pub fn any_curve(dice: &mut Dice) -> Curve {
    match dice.between(0, 9) {
        0..=1 => curve_in_range(dice),
        2..=3 => near_least_arc(dice),
        4 => curve_at_ends(dice),
        5..=6 => curve_of_edges(dice),
        7..=8 => random_curve(dice),
        _ => Curve::new(any_number(dice), any_number(dice), any_number(dice)),
    }
}

fn curve_in_range(dice: &mut Dice) -> Curve {
    line_in_range(dice, FIRST, 1).curve(1)
}

/// A curve in range, or next to it, whose arc is near the least.
fn near_least_arc(dice: &mut Dice) -> Curve {
    let Curve { r, l, .. } = curve_in_range(dice);
    let a = least_deflection(r, l);
    if dice.once_in(2) {
        return Curve::new(a - 1 + dice.between(0, 2), r, l);
    }
    let length = i128::from(dice.between(990, 1_010));
    let r = least_radius_of_arc(SMALLEST_RADIUS.max(l), a, l, length);
    Curve::new(a, r - dice.between(0, 1), l)
}

/// Each field at an end of its range, next to it, or any number.
fn curve_of_edges(dice: &mut Dice) -> Curve {
    let a = edge(dice, 1, GREATEST_DEFLECTION);
    let r = edge(dice, SMALLEST_RADIUS, GREATEST_RADIUS);
    let own = edge(dice, 1, GREATEST_SPIRAL);
    let of_radius = edge(dice, r, r);
    Curve::new(a, r, dice.one_of(&[0, own, of_radius]))
}

fn edge(dice: &mut Dice, least: u32, most: u32) -> u32 {
    let any = any_number(dice);
    let within = dice.between(least, most);
    dice.one_of(&[
        least.saturating_sub(1),
        least,
        most,
        most.saturating_add(1),
        within,
        within,
        any,
    ])
}

#[cfg(test)]
mod tests {
    use super::*;
    use reference::elements::elements;
    use std::collections::BTreeMap;

    #[test]
    fn every_answer_often() {
        let mut dice = Dice::new(1);
        let mut times = BTreeMap::new();
        for _ in 0..5_000 {
            let Curve { a, r, l } = any_curve(&mut dice);
            let number = elements(a, r, l).map_or_else(|refusal| refusal.number, |_| 0);
            *times.entry(number).or_insert(0) += 1;
        }
        assert!(
            [0, 9, 10, 11, 14].iter().all(|number| times[number] >= 100),
            "{times:?}"
        );
        assert_eq!(times.len(), 5);
    }
}
