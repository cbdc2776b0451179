//! The lines whose accuracy is watched: most are accepted, with large numbers
//! and many curves; some have an arc or a straight near the least. None is
//! refused otherwise than 14 or 15.

use crate::inputs::near_limits::{bring_near_whole, near_least_arc};
use reference::accuracy::{curve_differences, TURN};
use reference::curve::Curve;
use reference::elements::{GREATEST_DEFLECTION, GREATEST_RADIUS};
use reference::line::{Line, CROSSFALLS, GREATEST_START, MOST_CURVES};
use reference::road_tables::{DesignSpeed, SPEEDS};
use reference::samples::dice::Dice;
use reference::samples::limits::{
    greatest_spiral, least_deflection, least_distance, least_radius, least_spiral,
};
use reference::samples::roads::{fit_distances, road};

/// Curves of which the one that moves the stations behind it most is taken.
const TRIED_CURVES: usize = 30;

/// Any line.
pub fn any_line(dice: &mut Dice) -> Line {
    let n = any_count(dice);
    match dice.between(0, 19) {
        0..=8 => wide_road(dice, n),
        9..=11 => equal_curves(dice, n),
        12..=13 => road(dice, n),
        14..=16 => near_least_straight(dice),
        _ => with_least_arc(dice),
    }
}

/// How many curves: few in most cases, once in five the most.
fn any_count(dice: &mut Dice) -> usize {
    match dice.between(0, 19) {
        0 => 0,
        1..=4 => 1,
        5..=7 => 2,
        8..=13 => dice.index(3, 8),
        14..=15 => dice.index(9, 30),
        _ => MOST_CURVES,
    }
}

/// A line that is accepted, large numbers frequent.
fn wide_road(dice: &mut Dice, n: usize) -> Line {
    let (speed, e) = any_speed(dice);
    let curves: Vec<Curve> = (0..n).map(|_| wide_curve(dice, speed, e)).collect();
    line_of(dice, speed, e, &curves)
}

/// A line of the same curve over and over: its differences add up.
fn equal_curves(dice: &mut Dice, n: usize) -> Line {
    let (speed, e) = any_speed(dice);
    let curve = (0..TRIED_CURVES)
        .map(|_| wide_curve(dice, speed, e))
        .max_by(|a, b| moves(*a).total_cmp(&moves(*b)))
        .expect("some are tried");
    line_of(dice, speed, e, &vec![curve; n])
}

/// How far, by the working rule, a curve moves the stations behind it from the
/// exact ones.
fn moves(curve: Curve) -> f64 {
    curve_differences(curve)[TURN].abs()
}

/// A line with a straight near the least: just above it, or refused 15.
fn near_least_straight(dice: &mut Dice) -> Line {
    let n = dice.index(1, 4);
    let i = dice.index(0, n);
    let mut line = wide_road(dice, n);
    bring_near_whole(&mut line, i);
    fit_distances(dice, &mut line);
    line.distances[i] = least_distance(&line, i) - dice.between(0, 1);
    line
}

/// A line with an arc near the least: just above it, or refused 14.
fn with_least_arc(dice: &mut Dice) -> Line {
    let n = dice.index(1, 4);
    let (speed, e) = any_speed(dice);
    let mut curves: Vec<Curve> = (0..n).map(|_| wide_curve(dice, speed, e)).collect();
    curves[dice.index(0, n - 1)] = near_least_arc(dice, speed, e);
    line_of(dice, speed, e, &curves)
}

fn any_speed(dice: &mut Dice) -> (DesignSpeed, u32) {
    let e = dice.between(*CROSSFALLS.start(), *CROSSFALLS.end());
    (dice.one_of(&SPEEDS), e)
}

/// A line of these curves, its distances a little longer than they need.
fn line_of(dice: &mut Dice, speed: DesignSpeed, e: u32, curves: &[Curve]) -> Line {
    let start = high(dice, 0, GREATEST_START);
    let mut line = Line::new(speed.v, e, start, &[], curves);
    fit_distances(dice, &mut line);
    line
}

/// A curve that passes checks 9 to 14, large numbers frequent.
fn wide_curve(dice: &mut Dice, speed: DesignSpeed, e: u32) -> Curve {
    let r = high(dice, least_radius(speed, e), GREATEST_RADIUS);
    let l = wide_spiral(dice, speed, r);
    let a = high(dice, least_deflection(r, l), GREATEST_DEFLECTION);
    Curve::new(a, r, l)
}

/// A spiral that passes check 13, long ones frequent; 0 where there is none.
fn wide_spiral(dice: &mut Dice, speed: DesignSpeed, r: u32) -> u32 {
    let least = least_spiral(speed, r);
    let most = greatest_spiral(r);
    if least > most || dice.once_in(6) {
        return 0;
    }
    high(dice, least, most)
}

/// A number from `least` to `most`, those near the top frequent.
fn high(dice: &mut Dice, least: u32, most: u32) -> u32 {
    match dice.between(0, 3) {
        0 => most,
        1 => dice.between(most - (most - least) / 10, most),
        _ => dice.between(least, most),
    }
}

#[cfg(test)]
mod tests {
    use super::*;
    use reference::refusal::Refusal;
    use reference::stations::stations;
    use std::collections::BTreeMap;

    #[test]
    fn accepted_or_refused_14_or_15() {
        let mut dice = Dice::new(1);
        let mut times = BTreeMap::new();
        let mut full = 0;
        for _ in 0..600 {
            let line = any_line(&mut dice);
            let answer = stations(&line, &mut [0; 257]);
            full += usize::from(answer == Ok(257));
            let number = answer.map_or_else(|Refusal { number, .. }| number, |_| 0);
            *times.entry(number).or_insert(0) += 1;
        }
        assert_eq!(times.keys().copied().collect::<Vec<u8>>(), [0, 14, 15]);
        assert!(times[&0] >= 450, "{times:?}");
        assert!(times[&14] >= 20 && times[&15] >= 20, "{times:?}");
        assert!(full >= 60, "{full}");
    }
}
