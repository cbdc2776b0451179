//! Random points for the call that makes a line of them: roads, turns near a whole
//! second, damaged ones, and any numbers.

use super::sheets::any_count;
use reference::edition::FIRST;
use reference::line::{GREATEST_START, LEFT, RIGHT};
use reference::points::{Heading, GREATEST_COORDINATE, GREATEST_TURN};
use reference::road_tables::SPEEDS;
use reference::samples::dice::Dice;
use reference::samples::point_edges::TIES;
use reference::samples::roads::any_number;
use reference::samples::surveys::{along, any_direction, surveyed_road, turned, Leg, Survey};

/// Any points, those of roads frequent.
pub fn any_survey(dice: &mut Dice) -> Survey {
    match dice.between(0, 9) {
        0..=3 => any_road(dice),
        4..=5 => near_a_second(dice),
        6..=8 => damaged(dice),
        _ => any_numbers(dice),
    }
}

fn any_road(dice: &mut Dice) -> Survey {
    let n = any_count(dice);
    surveyed_road(dice, n)
}

/// One curve whose turn is as near to a whole second as whole mm allow, or next to
/// that; the smallest and the greatest turns are frequent.
fn near_a_second(dice: &mut Dice) -> Survey {
    if dice.once_in(8) {
        return with_equal_products(dice);
    }
    let any = dice.between(1, GREATEST_TURN + 1);
    let small = dice.between(1, 40);
    let great = GREATEST_TURN + 1 - dice.between(0, 3);
    let seconds = dice.one_of(&[any, any, small, great]);
    let length = i128::from(dice.spread(300_000, 6_000_000));
    let into = along(any_direction(dice), length);
    let side = dice.one_of(&[LEFT, RIGHT]);
    let out = leg_after(dice, into, side, seconds);
    one_curve(dice, into, out)
}

/// A leg of a third to twice the length, turned by so many seconds, with up to 1 mm
/// more or less.
fn leg_after(dice: &mut Dice, into: Leg, side: u32, seconds: u32) -> Leg {
    // Fine enough that the turn is exact to far below a mm.
    const FINE: i128 = 1_000_000;
    let direction = (i128::from(into.0) * FINE, i128::from(into.1) * FINE);
    let thousandths = i128::from(dice.between(333, 2_000));
    let (east, north) = along(turned(direction, side, seconds), thousandths);
    let steps = [-1, 0, 0, 1];
    (east + dice.one_of(&steps), north + dice.one_of(&steps))
}

/// A turn at which both products are equal.
fn with_equal_products(dice: &mut Dice) -> Survey {
    let (_, into, out) = dice.one_of(&TIES);
    let long_enough = |(east, north): Leg| 400_000 / east.abs().max(north.abs()) + 1;
    let [into, out] = [into, out].map(|leg| {
        let times = long_enough(leg) + i64::from(dice.between(0, 3) * dice.between(0, 100)) / 100;
        (times * leg.0, times * leg.1)
    });
    let survey = one_curve(dice, into, out);
    dice.one_of(&[Survey::clone, Survey::mirrored])(&survey)
}

fn one_curve(dice: &mut Dice, into: Leg, out: Leg) -> Survey {
    let heading = Heading {
        v: 40,
        e: 8,
        start: dice.between(0, GREATEST_START),
    };
    let r = dice.between(210_000, 400_000);
    Survey::of_legs(heading, &[into, out], &[(r, 0)])
}

/// A road or a single curve with one to four damages.
fn damaged(dice: &mut Dice) -> Survey {
    let mut survey = match dice.between(0, 3) {
        0 => near_a_second(dice),
        _ => any_road(dice),
    };
    for _ in 0..dice.one_of(&[1, 1, 1, 2, 2, 4]) {
        damage(dice, &mut survey);
    }
    survey
}

/// Damages the survey in one way. Nothing changes where it is too short for it.
fn damage(dice: &mut Dice, survey: &mut Survey) {
    match dice.between(0, 19) {
        0..=1 => put_coordinate(dice, survey),
        2..=3 => shift_coordinate(dice, survey),
        4..=9 => put_point(dice, survey),
        10..=13 => put_curve_number(dice, survey),
        14..=16 => put_heading(dice, survey),
        17 => drop_point(dice, survey),
        _ => miscount(dice, survey),
    }
}

/// A coordinate at its limit, beyond it, or anywhere.
fn put_coordinate(dice: &mut Dice, survey: &mut Survey) {
    let number = any_coordinate(dice);
    if let Some(place) = any_index(dice, survey.points.len()) {
        survey.points[place] = number;
    }
}

/// A coordinate some mm away.
fn shift_coordinate(dice: &mut Dice, survey: &mut Survey) {
    let most = dice.one_of(&[1, 3, 1_000, 100_000]);
    let by = i64::from(dice.between(0, 2 * most)) - i64::from(most);
    if let Some(place) = any_index(dice, survey.points.len()) {
        survey.points[place] = survey.points[place].saturating_add(by);
    }
}

/// A point so that the leg to it is a multiple of the one before, a right angle to
/// it, very short or empty.
fn put_point(dice: &mut Dice, survey: &mut Survey) {
    let points = survey.points.len() / 2;
    if points < 3 {
        return;
    }
    let i = 2 * dice.index(2, points - 1);
    let [before, at] = [i - 4, i - 2].map(|i| [survey.points[i], survey.points[i + 1]]);
    let [east, north] = [0, 1].map(|axis| at[axis].wrapping_sub(before[axis]));
    let leg = dice.one_of(&[
        [east, north],
        [east / 2, north / 2],
        [-(east / 2), -(north / 2)],
        [-(north / 2), east / 2],
        [east / 1_000, north / 999],
        [0, 0],
    ]);
    for axis in [0, 1] {
        survey.points[i + axis] = at[axis].wrapping_add(leg[axis]);
    }
}

/// A radius or a spiral at a limit, beyond it, or anywhere.
fn put_curve_number(dice: &mut Dice, survey: &mut Survey) {
    let any = any_number(dice);
    let radii = [0, 19_999, 20_000, 40_000, 60_000, 5_000_000, 5_000_001, any];
    let spirals = [0, 1, 29_999, 30_000, 200_000, 500_000, 500_001, any];
    if let Some(place) = any_index(dice, survey.curves.len()) {
        let numbers = if place % 2 == 0 { radii } else { spirals };
        survey.curves[place] = dice.one_of(&numbers);
    }
}

fn put_heading(dice: &mut Dice, survey: &mut Survey) {
    let any = any_number(dice);
    let speed = dice.one_of(&SPEEDS).v;
    let Heading { v, e, start } = &mut survey.heading;
    match dice.between(0, 2) {
        0 => *v = dice.one_of(&[0, speed - 1, speed, speed + 1, 130, any]),
        1 => *e = dice.one_of(&[0, 1, 2, 12, 13, any]),
        _ => {
            let beyond = [FIRST.greatest_start + 1, GREATEST_START + 1, u32::MAX];
            let any = dice.one_of(&[0, GREATEST_START, any]);
            *start = dice.one_of(&[any, beyond[0], beyond[1], beyond[2]])
        }
    }
}

/// Leaves a PI out, with its curve.
fn drop_point(dice: &mut Dice, survey: &mut Survey) {
    let whole = survey.points.len() == survey.curves.len() + 4;
    if let (true, Some(i)) = (whole, any_index(dice, survey.curve_count())) {
        survey.points.drain(2 * i + 2..2 * i + 4);
        survey.curves.drain(2 * i..2 * i + 2);
    }
}

/// One or two numbers more or fewer.
fn miscount(dice: &mut Dice, survey: &mut Survey) {
    let any = any_coordinate(dice);
    let [points, curves] = [survey.points.len(), survey.curves.len()];
    let count = |dice: &mut Dice, count: usize| {
        let counts = [
            count.saturating_sub(2),
            count.saturating_sub(1),
            count + 1,
            count + 2,
        ];
        dice.one_of(&counts)
    };
    if dice.once_in(2) {
        survey.points.resize(count(dice, points), any);
    } else {
        survey.curves.resize(count(dice, curves), 300_000);
    }
}

/// Any index, if there is one.
fn any_index(dice: &mut Dice, count: usize) -> Option<usize> {
    (count > 0).then(|| dice.index(0, count - 1))
}

/// Any coordinate, those at the limits and within them frequent.
fn any_coordinate(dice: &mut Dice) -> i64 {
    let limit = GREATEST_COORDINATE;
    let any = dice.long(0, u64::MAX) as i64;
    let within = i64::from(any_number(dice)) % limit;
    dice.one_of(&[
        limit,
        -limit,
        limit + 1,
        -limit - 1,
        within,
        -within,
        any % (limit + 1),
        any,
        any >> 32,
        i64::MIN,
        i64::MAX,
    ])
}

/// Any numbers: of up to 70 points, most with two for each PI; in half of all cases
/// all are in range.
fn any_numbers(dice: &mut Dice) -> Survey {
    let points = 2 * dice.index(0, 70);
    let curves = points.saturating_sub(4);
    let in_range = dice.once_in(2);
    let mut survey = Survey {
        heading: Heading {
            v: dice.one_of(&SPEEDS).v,
            e: dice.between(0, 14),
            start: any_number(dice),
        },
        points: (0..points).map(|_| any_coordinate(dice)).collect(),
        curves: (0..curves).map(|_| any_number(dice)).collect(),
    };
    if in_range {
        let within = |at: &mut i64| *at %= GREATEST_COORDINATE + 1;
        survey.points.iter_mut().for_each(within);
    }
    if dice.once_in(8) {
        miscount(dice, &mut survey);
    }
    survey
}

#[cfg(test)]
mod tests {
    use super::*;
    use crate::input::Call;
    use std::collections::{BTreeMap, BTreeSet};

    #[test]
    fn every_refusal_and_many_accepted() {
        let mut dice = Dice::new(1);
        let mut times = BTreeMap::new();
        let mut accepted = BTreeSet::new();
        for _ in 0..6_000 {
            let survey = any_survey(&mut dice);
            let line = survey.line();
            let number = line.as_ref().map_or_else(|refusal| refusal.number, |_| 0);
            *times.entry(number).or_insert(0) += 1;
            if let Ok(line) = line {
                accepted.insert(line.n);
            }
        }
        let refusals = Call::FromPoints.refusals();
        let mut expected = refusals.iter().filter(|number| **number != 16);
        assert!(expected.all(|number| times[number] >= 20), "{times:?}");
        assert!(times[&0] >= 2_500, "{times:?}");
        assert!(accepted.len() >= 60, "{accepted:?}");
    }

    /// Of turns that are meant to be so many seconds, about as many are as are not.
    #[test]
    fn turns_on_both_sides_of_a_second() {
        let mut dice = Dice::new(1);
        let into = (3_000_000, 1_234_567);
        for seconds in [1, 2, 40, 100_000, 215_999, 216_000] {
            let turns: Vec<Option<u32>> = (0..200)
                .map(|_| {
                    let out = leg_after(&mut dice, into, LEFT, seconds);
                    let line = one_curve(&mut dice, into, out).line();
                    line.ok().map(|line| line.curve(1).a)
                })
                .collect();
            let times = |turn: Option<u32>| turns.iter().filter(|found| **found == turn).count();
            assert!(times(Some(seconds)) >= 40, "{seconds}");
            let below = Some(seconds - 1).filter(|below| *below > 0);
            assert!(times(below) >= 40, "{seconds}");
        }
    }
}
