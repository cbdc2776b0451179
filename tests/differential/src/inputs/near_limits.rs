//! Roads with curves and straights at the limits of checks 12 to 15, on either
//! side.

use reference::curve::Curve;
use reference::elements::{GREATEST_DEFLECTION, GREATEST_RADIUS, SMALLEST_RADIUS};
use reference::line::Line;
use reference::road_tables::DesignSpeed;
use reference::samples::dice::Dice;
use reference::samples::limits::{
    greatest_spiral, least_deflection, least_distance, least_radius, least_radius_of_arc,
    least_radius_of_spiral, least_spiral,
};
use reference::samples::roads::{fit_distances, road, road_deflection, road_radius, road_spiral};
use reference::stations::tangents;

/// A road of `n` curves (1 or more) with some curves or straights near a limit;
/// its fields are in range.
pub fn road_near_limits(dice: &mut Dice, n: usize) -> Line {
    let mut line = road(dice, n);
    let speed = line.speed().expect("a road has a design speed");
    let (curves, straights) =
        dice.one_of(&[(1, 0), (1, 0), (2, 0), (0, 1), (0, 2), (1, 1), (2, 2)]);
    for _ in 0..curves {
        line.curves[dice.index(0, n - 1)] = curve_near_limit(dice, speed, line.e);
    }
    let places: Vec<usize> = (0..straights).map(|_| dice.index(0, n)).collect();
    for place in &places {
        bring_near_whole(&mut line, *place);
    }
    fit_distances(dice, &mut line);
    for place in places {
        line.distances[place] = distance_near_least(dice, &line, place);
    }
    line
}

fn curve_near_limit(dice: &mut Dice, speed: DesignSpeed, e: u32) -> Curve {
    match dice.between(0, 5) {
        0..=1 => {
            let r = next_to(dice, least_radius(speed, e));
            let l = road_spiral(dice, speed, r);
            with_deflection(dice, r, l)
        }
        2 => {
            let r = road_radius(dice, speed, e);
            let l = next_to(dice, least_spiral(speed, r));
            with_deflection(dice, r, l)
        }
        3 => {
            let least = 1_000 * speed.least_spiral;
            let l = next_to(dice, least);
            let r = next_to(dice, least_radius_of_spiral(speed, l.max(least)));
            with_deflection(dice, r, l)
        }
        _ => near_least_arc(dice, speed, e),
    }
}

/// The number, one less or one more.
fn next_to(dice: &mut Dice, number: u32) -> u32 {
    number - 1 + dice.between(0, 2)
}

/// A curve of this radius and spiral, brought in range, that has an arc.
fn with_deflection(dice: &mut Dice, r: u32, l: u32) -> Curve {
    let r = r.clamp(SMALLEST_RADIUS, GREATEST_RADIUS);
    let l = l.min(greatest_spiral(r));
    Curve::new(road_deflection(dice, r, l), r, l)
}

/// A curve that passes checks 12 and 13 and whose arc is within some µm of the
/// least, as near as whole mm and seconds allow.
pub fn near_least_arc(dice: &mut Dice, speed: DesignSpeed, e: u32) -> Curve {
    let r = road_radius(dice, speed, e);
    let l = road_spiral(dice, speed, r);
    let a = least_deflection(r, l);
    if dice.once_in(4) {
        return Curve::new((a - dice.between(0, 1)).max(1), r, l);
    }
    let lowest = least_radius(speed, e).max(least_radius_of_spiral(speed, l));
    let length = i128::from(dice.between(995, 1_005));
    let r = least_radius_of_arc(lowest.max(l), a, l, length);
    Curve::new(a, (r - dice.between(0, 1)).max(lowest.max(l)), l)
}

/// Turns a curve at the end of straight i by some seconds more until the
/// tangents there are within 20 µm of whole mm: only then can a straight be
/// near its least.
pub fn bring_near_whole(line: &mut Line, i: usize) {
    let curve = i.max(1) - 1;
    for _ in 0..60 {
        let over = tangents(line, i) % 1_000;
        if (over - 500).abs() >= 480 || line.curves[curve].a == GREATEST_DEFLECTION {
            return;
        }
        line.curves[curve].a += 1;
    }
}

/// The least distance i that is accepted, or the number next to it.
fn distance_near_least(dice: &mut Dice, line: &Line, i: usize) -> u32 {
    let least = least_distance(line, i);
    dice.one_of(&[least - 1, least, least, least + 1]).max(1)
}

#[cfg(test)]
mod tests {
    use super::*;
    use reference::elements::arc;
    use reference::line::GREATEST_START;
    use reference::refusal::Refusal;
    use reference::road_tables::SPEEDS;
    use reference::stations::{stations, straight};
    use std::collections::BTreeMap;

    #[test]
    fn limits_have_both_sides() {
        let mut dice = Dice::new(1);
        let mut times = BTreeMap::new();
        for round in 0..3_000 {
            let line = road_near_limits(&mut dice, 1 + round % 6);
            assert_eq!(line.check_ranges(GREATEST_START), Ok(()));
            let answer = stations(&line, &mut [0; 257]);
            let number = answer.map_or_else(|Refusal { number, .. }| number, |_| 0);
            *times.entry(number).or_insert(0) += 1;
        }
        assert!(times[&0] >= 800, "{times:?}");
        assert!((12..=15).all(|number| times[&number] >= 150), "{times:?}");
    }

    #[test]
    fn arcs_near_the_least() {
        let mut dice = Dice::new(1);
        let mut lengths = BTreeMap::new();
        for _ in 0..3_000 {
            let Curve { a, r, l } = near_least_arc(&mut dice, SPEEDS[3], 8);
            *lengths.entry(arc(a, r, l)).or_insert(0) += 1;
        }
        assert!(
            (990..=1_010).all(|length| lengths.contains_key(&length)),
            "{lengths:?}"
        );
    }

    #[test]
    fn straights_near_the_least() {
        let mut dice = Dice::new(1);
        let mut near = 0;
        for _ in 0..300 {
            let mut line = road(&mut dice, 2);
            bring_near_whole(&mut line, 1);
            line.distances[1] = distance_near_least(&mut dice, &line, 1);
            near += usize::from((980..=1_020).contains(&straight(&line, 1)));
        }
        assert!(near >= 90, "{near}");
    }
}
