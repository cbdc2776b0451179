//! Mountain roads, as an office would lay them out: bends and switchbacks to both
//! sides for 40 km/h.

use super::dice::Dice;
use super::limits::{least_deflection, least_distance, least_spiral};
use crate::curve::Curve;
use crate::line::{Line, MOST_CURVES};
use crate::road_tables::{DesignSpeed, SPEEDS};

/// V is 40 km/h.
const SPEED: DesignSpeed = SPEEDS[0];
/// e, percent.
const CROSSFALL: u32 = 8;
/// The road leaves the valley at station 12 km + 340 m.
const START: u32 = 12_340_000;
/// One degree, seconds.
const DEGREE: u32 = 3_600;

/// The road of 64 curves among the sheets with a name.
pub fn mountain_road() -> Line {
    any_mountain_road(&mut Dice::new(1), MOST_CURVES)
}

/// A road of `n` curves: radii of 60 to 200 m in steps of 5 m, spirals in steps of
/// 10 m, distances in whole cm.
pub fn any_mountain_road(dice: &mut Dice, n: usize) -> Line {
    let curves: Vec<Curve> = (0..n).map(|i| curve(dice, i)).collect();
    let mut line = Line::new(SPEED.v, CROSSFALL, START, &[], &curves);
    put_sides(dice, &mut line.sides[..n]);
    for i in 0..=n {
        line.distances[i] = distance(dice, &line, i);
    }
    line
}

/// Every sixth curve is a switchback.
fn curve(dice: &mut Dice, i: usize) -> Curve {
    if i % 6 == 4 {
        switchback(dice)
    } else {
        bend(dice)
    }
}

/// A small radius and a deflection of 100 to 118 degrees.
fn switchback(dice: &mut Dice) -> Curve {
    let r = 5_000 * dice.between(12, 15);
    let a = dice.between(100 * DEGREE, 118 * DEGREE);
    Curve::new(a, r, spiral(r))
}

/// A middle radius; the arc turns by 5 to 35 degrees beyond the spirals.
fn bend(dice: &mut Dice) -> Curve {
    let r = 5_000 * dice.between(16, 40);
    let l = spiral(r);
    let a = least_deflection(r, l) + dice.between(5 * DEGREE, 35 * DEGREE);
    Curve::new(a, r, l)
}

/// The least spiral, in whole tens of metres.
fn spiral(r: u32) -> u32 {
    least_spiral(SPEED, r).next_multiple_of(10_000)
}

/// The road turns from side to side, and once in four goes on to the same one.
fn put_sides(dice: &mut Dice, sides: &mut [u32]) {
    let mut left = false;
    for side in sides {
        *side = u32::from(left);
        left ^= !dice.once_in(4);
    }
}

/// Distance i, with a straight of 5 to 120 m.
fn distance(dice: &mut Dice, line: &Line, i: usize) -> u32 {
    let straight = dice.between(5_000, 120_000);
    (least_distance(line, i) + straight).next_multiple_of(10)
}

#[cfg(test)]
mod tests {
    use super::*;
    use crate::line::LEFT;
    use crate::stations::stations;

    #[test]
    fn road_is_accepted() {
        let mut row = [0; 257];
        let road = mountain_road();
        assert_eq!(stations(&road, &mut row), Ok(257));
        assert_eq!((road.v, road.n), (40, 64));
        // Between 5 and 20 km long.
        let length = row[256] - 1_000 * u64::from(START);
        assert!((5_000_000_000..20_000_000_000).contains(&length));
    }

    #[test]
    fn roads_are_accepted() {
        let mut dice = Dice::new(1);
        for n in (0..=MOST_CURVES).chain([60; 20]) {
            let road = any_mountain_road(&mut dice, n);
            assert_eq!(stations(&road, &mut [0; 257]), Ok(4 * n + 1));
            assert!(road.distances[n + 1..]
                .iter()
                .all(|distance| *distance == 0));
            assert!(road.sides[n..].iter().all(|side| *side != LEFT));
        }
    }

    #[test]
    fn radii_spirals_and_sides() {
        let road = mountain_road();
        for Curve { a, r, l } in road.curves {
            assert!((60_000..=200_000).contains(&r) && r % 5_000 == 0);
            assert!((30_000..=40_000).contains(&l) && l % 10_000 == 0);
            assert!(a <= 120 * DEGREE);
        }
        let left = road.sides.iter().filter(|side| **side == LEFT);
        assert!((20..=44).contains(&left.count()));
    }
}
