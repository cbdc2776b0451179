//! Roads with one curve or straight at a limit of checks 12 to 15, or just
//! beyond it.

use super::dice::Dice;
use super::limits::{
    greatest_spiral, least_deflection, least_radius, least_radius_of_arc, least_radius_of_spiral,
    least_spiral,
};
use super::roads::{
    road_deflection, road_radius, road_spiral, road_with_curve, road_with_straight,
};
use crate::curve::Curve;
use crate::line::Line;
use crate::road_tables::DesignSpeed;

/// A road whose straight at some place is 998 to 1,002 µm.
pub fn near_least_straight(dice: &mut Dice) -> Line {
    let n = dice.index(1, 8);
    let i = dice.index(0, n);
    let straight = i128::from(dice.between(998, 1_002));
    road_with_straight(dice, n, i, straight)
}

/// A road with a curve of the least radius, or of 1 mm less.
pub fn near_least_radius(dice: &mut Dice) -> Line {
    near_limit(dice, |dice, speed, e| {
        let r = least_radius(speed, e) - dice.between(0, 1);
        let l = road_spiral(dice, speed, r);
        Curve::new(road_deflection(dice, r, l), r, l)
    })
}

/// A road with a curve of the least spiral, or of 1 mm less.
pub fn near_least_spiral(dice: &mut Dice) -> Line {
    near_limit(dice, |dice, speed, e| {
        let mut r = road_radius(dice, speed, e);
        while least_spiral(speed, r) > greatest_spiral(r) {
            r *= 2;
        }
        let l = least_spiral(speed, r) - dice.between(0, 1);
        Curve::new(road_deflection(dice, r, l), r, l)
    })
}

/// A road with an arc of 995 to 1,005 µm, or as near to it as a radius in whole
/// mm allows: exactly so for a simple curve.
pub fn near_least_arc(dice: &mut Dice) -> Line {
    near_limit(dice, |dice, speed, e| {
        let length = i128::from(dice.between(995, 1_005));
        let r = road_radius(dice, speed, e);
        let l = road_spiral(dice, speed, r);
        let a = least_deflection(r, l);
        let low = lowest_radius(speed, e, l);
        let r = least_radius_of_arc(low, a, l, length);
        let next_below = dice.between(0, 1);
        Curve::new(a, (r - next_below).max(low), l)
    })
}

/// The least radius that passes checks 12 and 13.
fn lowest_radius(speed: DesignSpeed, e: u32, l: u32) -> u32 {
    least_radius(speed, e).max(least_radius_of_spiral(speed, l))
}

/// A road of few curves, this one at any place.
fn near_limit(dice: &mut Dice, curve: impl Fn(&mut Dice, DesignSpeed, u32) -> Curve) -> Line {
    let n = dice.index(1, 6);
    let i = dice.index(1, n);
    road_with_curve(dice, n, i, curve)
}

#[cfg(test)]
mod tests {
    use super::*;
    use crate::elements::arc;
    use crate::stations::stations;
    use std::collections::BTreeSet;

    /// The refusals of many such roads; 0 for an accepted one.
    fn numbers(road: impl Fn(&mut Dice) -> Line) -> BTreeSet<u8> {
        let mut dice = Dice::new(1);
        (0..200)
            .map(|_| stations(&road(&mut dice), &mut [0; 257]))
            .map(|answer| answer.map_or_else(|refusal| refusal.number, |_| 0))
            .collect()
    }

    #[test]
    fn limits_have_both_sides() {
        assert_eq!(numbers(near_least_radius), [0, 12].into());
        assert_eq!(numbers(near_least_spiral), [0, 13].into());
        assert_eq!(numbers(near_least_arc), [0, 14].into());
        assert_eq!(numbers(near_least_straight), [0, 15].into());
    }

    #[test]
    fn arcs_are_near_the_least() {
        let mut dice = Dice::new(1);
        let arcs: BTreeSet<i128> = (0..400)
            .flat_map(|_| {
                let line = near_least_arc(&mut dice);
                (1..=line.curve_count())
                    .map(move |i| line.curve(i))
                    .map(|Curve { a, r, l }| arc(a, r, l))
            })
            .collect();
        assert!(
            (995..=1_005).all(|length| arcs.contains(&length)),
            "{arcs:?}"
        );
    }
}
