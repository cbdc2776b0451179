//! Lines that pass every check: mountain roads, fast or slow.

use super::dice::Dice;
use super::limits::{
    greatest_spiral, least_deflection, least_distance, least_radius, least_spiral,
};
use crate::curve::Curve;
use crate::edition::FIRST;
use crate::elements::{GREATEST_DEFLECTION, GREATEST_RADIUS};
use crate::line::{Line, CROSSFALLS, GREATEST_START, LEFT, MOST_CURVES, RIGHT};
use crate::road_tables::{DesignSpeed, SPEEDS};
use crate::stations::tangents;

/// A road of `n` curves.
pub fn road(dice: &mut Dice, n: usize) -> Line {
    let mut line = unfitted_road(dice, n);
    fit_distances(dice, &mut line);
    line
}

/// A road of `n` curves (1 or more) whose straight `i` has this length in µm;
/// below 1,000 the line is refused.
pub fn road_with_straight(dice: &mut Dice, n: usize, i: usize, straight: i128) -> Line {
    let mut line = unfitted_road(dice, n);
    let curve = i.max(1) - 1;
    // Over one radian, so that every spiral leaves an arc.
    line.curves[curve].a = dice.between(210_000, 400_000);
    while (tangents(&line, i) + straight) % 1_000 != 0 {
        line.curves[curve].a += 1;
    }
    fit_distances(dice, &mut line);
    line.distances[i] =
        u32::try_from((tangents(&line, i) + straight) / 1_000).expect("the distance is in range");
    line
}

/// A road of `n` curves (1 or more) whose curve `i` is this one, made for the
/// road's design speed and e; its distances fit it.
pub fn road_with_curve(
    dice: &mut Dice,
    n: usize,
    i: usize,
    curve: impl Fn(&mut Dice, DesignSpeed, u32) -> Curve,
) -> Line {
    let mut line = unfitted_road(dice, n);
    let speed = line.speed().expect("the design speed is one of the nine");
    line.curves[i - 1] = curve(dice, speed, line.e);
    fit_distances(dice, &mut line);
    line
}

/// The shortest road of 64 curves.
pub fn shortest_road() -> Line {
    let speed = SPEEDS[0];
    let e = *CROSSFALLS.end();
    let r = least_radius(speed, e);
    let curve = Curve::new(least_deflection(r, 0), r, 0);
    let mut line = Line::new(speed.v, e, 0, &[], &[curve; MOST_CURVES]);
    for i in 0..=MOST_CURVES {
        line.distances[i] = least_distance(&line, i);
    }
    line
}

/// Gives the unused entries of the line any numbers.
#[cfg(test)]
pub fn fill_unused(dice: &mut Dice, line: &mut Line) {
    for i in line.curve_count()..MOST_CURVES {
        line.sides[i] = any_side(dice);
        line.curves[i] = Curve::new(any_number(dice), any_number(dice), any_number(dice));
        line.distances[i + 1] = any_number(dice);
    }
}

/// Any number, in the range of a field or not.
pub fn any_number(dice: &mut Dice) -> u32 {
    match dice.between(0, 3) {
        0 => dice.one_of(&[0, 1, u32::MAX]),
        1 => dice.between(0, u32::MAX),
        _ => dice.spread(1, u32::MAX),
    }
}

/// A road whose distances are still zero.
fn unfitted_road(dice: &mut Dice, n: usize) -> Line {
    let speed = dice.one_of(&SPEEDS);
    let e = dice.between(*CROSSFALLS.start(), *CROSSFALLS.end());
    let start = road_start(dice);
    let curves: Vec<Curve> = (0..n).map(|_| road_curve(dice, speed, e)).collect();
    let mut line = Line::new(speed.v, e, start, &[], &curves);
    line.sides[..n].fill_with(|| any_side(dice));
    line
}

pub fn any_side(dice: &mut Dice) -> u32 {
    dice.one_of(&[RIGHT, LEFT])
}

fn road_start(dice: &mut Dice) -> u32 {
    match dice.between(0, 3) {
        0 => 0,
        1 => dice.between(0, GREATEST_START),
        2 => dice.spread(1, FIRST.greatest_start),
        _ => dice.spread(1, GREATEST_START),
    }
}

/// A curve that passes checks 9 to 14.
fn road_curve(dice: &mut Dice, speed: DesignSpeed, e: u32) -> Curve {
    let r = road_radius(dice, speed, e);
    let l = road_spiral(dice, speed, r);
    let a = road_deflection(dice, r, l);
    Curve::new(a, r, l)
}

/// From the least radius to eight times as much.
pub fn road_radius(dice: &mut Dice, speed: DesignSpeed, e: u32) -> u32 {
    let least = least_radius(speed, e);
    match dice.between(0, 9) {
        0 => least,
        1..=6 => dice.between(least, 2 * least),
        _ => dice.between(least, GREATEST_RADIUS.min(8 * least)),
    }
}

/// No spiral, the least or a longer one.
pub fn road_spiral(dice: &mut Dice, speed: DesignSpeed, r: u32) -> u32 {
    let least = least_spiral(speed, r);
    let most = greatest_spiral(r);
    if least > most {
        return 0;
    }
    match dice.between(0, 4) {
        0 => 0,
        1 => least,
        _ => dice.between(least, most.min(2 * least)),
    }
}

/// The least deflection, a small or a large one.
pub fn road_deflection(dice: &mut Dice, r: u32, l: u32) -> u32 {
    let least = least_deflection(r, l);
    match dice.between(0, 9) {
        0 => least,
        1..=4 => dice.between(least, GREATEST_DEFLECTION.min(least + 36_000)),
        _ => dice.between(least, GREATEST_DEFLECTION),
    }
}

/// Distances a little longer than the tangents need.
pub fn fit_distances(dice: &mut Dice, line: &mut Line) {
    for i in 0..=line.curve_count() {
        line.distances[i] = least_distance(line, i) + spare_length(dice);
    }
}

fn spare_length(dice: &mut Dice) -> u32 {
    match dice.between(0, 4) {
        0 => 0,
        1 => dice.between(0, 3),
        _ => dice.spread(1, 1_000_000),
    }
}

#[cfg(test)]
mod tests {
    use super::*;
    use crate::refusal::{refuse, Refusal};
    use crate::stations::{stations, straight};

    fn answer(line: &Line) -> Result<usize, Refusal> {
        stations(line, &mut [0; 257])
    }

    #[test]
    fn roads_are_accepted() {
        let mut dice = Dice::new(1);
        for n in 0..=64 {
            for _ in 0..20 {
                assert_eq!(answer(&road(&mut dice, n)), Ok(4 * n + 1));
            }
        }
        assert_eq!(answer(&shortest_road()), Ok(257));
    }

    #[test]
    fn straights_have_the_length_asked_for() {
        let mut dice = Dice::new(1);
        for (n, i) in [(1, 0), (1, 1), (3, 0), (3, 2), (3, 3)] {
            let accepted = road_with_straight(&mut dice, n, i, 1_000);
            assert_eq!(straight(&accepted, i), 1_000);
            assert_eq!(answer(&accepted), Ok(4 * n + 1));
            let refused = road_with_straight(&mut dice, n, i, 999);
            assert_eq!(answer(&refused), refuse(15, i));
        }
    }

    #[test]
    fn unused_entries_change_nothing() {
        let mut dice = Dice::new(1);
        for n in [0, 1, 63, 64] {
            let line = road(&mut dice, n);
            let mut filled = line.clone();
            fill_unused(&mut dice, &mut filled);
            assert_eq!(line == filled, n == 64);
            assert_eq!(answer(&line), answer(&filled));
        }
    }
}
