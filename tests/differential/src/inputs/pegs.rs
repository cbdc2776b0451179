//! Random stations for the call that gives the element under one.

use super::sheets::{any_road, any_sheet};
use crate::input::Request;
use crate::side::stretches_of;
use reference::curve::Curve;
use reference::line::Line;
use reference::pegs::{Element, Stretch};
use reference::road_tables::DesignSpeed;
use reference::samples::dice::Dice;
use reference::samples::limits::{greatest_spiral, least_radius, least_spiral};
use reference::samples::peg_edges::BEYOND;
use reference::samples::roads::{road_deflection, road_with_curve};
use reference::samples::sheet_fields::sheet_of_either;

/// The radius up to which sharp curves are sought, mm.
const SHARP: u32 = 600_000;

/// Any sheet, those of roads frequent, with any station.
pub fn any_peg(dice: &mut Dice) -> Request {
    let sheet = match dice.between(0, 4) {
        0..=1 => {
            let road = any_road(dice);
            sheet_of_either(dice, &road)
        }
        2 => {
            let road = sharp_road(dice);
            sheet_of_either(dice, &road)
        }
        _ => any_sheet(dice),
    };
    let station = any_station(dice, &stretches_of(&sheet));
    Request::Peg(sheet, station)
}

/// A road with a curve whose spirals are about as long as they may be: there the
/// roundings of the offsets count most. Some are refused 13: the least spiral of a
/// sharp curve may be longer than its radius.
fn sharp_road(dice: &mut Dice) -> Line {
    let n = dice.index(1, 3);
    let i = dice.index(1, n);
    road_with_curve(dice, n, i, sharp_curve)
}

fn sharp_curve(dice: &mut Dice, speed: DesignSpeed, e: u32) -> Curve {
    let least = least_radius(speed, e);
    let r = dice.between(least, SHARP.max(least));
    let most = greatest_spiral(r);
    let l = dice
        .between(most - most / 10, most)
        .max(least_spiral(speed, r).min(most));
    Curve::new(road_deflection(dice, r, l), r, l)
}

/// A station of the line with these elements, or one outside.
fn any_station(dice: &mut Dice, stretches: &[Stretch]) -> u64 {
    let [first, ..] = stretches else {
        return any_number(dice);
    };
    let last = &stretches[stretches.len() - 1];
    let any = stretches[dice.index(0, stretches.len() - 1)];
    match dice.between(0, 9) {
        0..=1 => dice.long(any.begin, any.end),
        2..=4 => {
            let spiral = any_spiral(dice, stretches).unwrap_or(any);
            dice.long(spiral.begin, spiral.end)
        }
        5..=7 => next_to(dice, any.end),
        8 => {
            let end = dice.one_of(&[first.begin, last.end]);
            next_to(dice, end)
        }
        _ => any_number(dice),
    }
}

/// Any spiral that is not empty, if there is one.
fn any_spiral(dice: &mut Dice, stretches: &[Stretch]) -> Option<Stretch> {
    let is_spiral = |stretch: &Stretch| {
        matches!(
            stretch.element,
            Element::SpiralIn(_) | Element::SpiralOut(_)
        )
    };
    let mut spirals = stretches.to_vec();
    spirals.retain(|stretch| is_spiral(stretch) && stretch.begin < stretch.end);
    (!spirals.is_empty()).then(|| dice.one_of(&spirals))
}

/// The station, 1 µm less or 1 µm more.
fn next_to(dice: &mut Dice, station: u64) -> u64 {
    dice.one_of(&[station.saturating_sub(1), station, station + 1])
}

/// Any number of 64 bits, those that 32 bits hold frequent.
fn any_number(dice: &mut Dice) -> u64 {
    let any = dice.long(0, u64::MAX);
    dice.one_of(&[0, any, any >> 32, any >> 24, BEYOND[0], BEYOND[1]])
}

#[cfg(test)]
mod tests {
    use super::*;
    use crate::side::{Reference, Side};
    use std::collections::BTreeMap;

    /// How often random pegs are refused and with what, or lie in which kind of
    /// element.
    #[test]
    fn every_kind_and_refusal() {
        let mut dice = Dice::new(1);
        let mut refused = BTreeMap::new();
        let mut kinds = BTreeMap::new();
        let mut left = 0;
        for _ in 0..6_000 {
            let Request::Peg(sheet, station) = any_peg(&mut dice) else {
                panic!("no peg");
            };
            let mut numbers = [0; pokyandi::PEG_NUMBERS];
            match Reference.peg(&sheet, station, &mut numbers) {
                Ok(_) => *kinds.entry(numbers[0]).or_insert(0) += 1,
                Err(refusal) => *refused.entry(refusal.number).or_insert(0) += 1,
            }
            left += usize::from(numbers[4] < 0);
        }
        assert!((1..=15).all(|number| refused[&number] >= 8), "{refused:?}");
        assert!(refused[&17] >= 300, "{refused:?}");
        assert!((0..=3).all(|kind| kinds[&kind] >= 400), "{kinds:?}");
        assert!(left >= 300, "{left}");
    }
}
