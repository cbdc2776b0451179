//! Random profiles and stations for the call that gives a height: accepted ones,
//! curves about the length that sight needs, damaged ones, and any numbers.

use crate::input::Request;
use reference::profile::{
    Profile, GREATEST_GRADE, GREATEST_HEIGHT, GREATEST_LENGTH, MOST_VERTICES, STATIONS,
};
use reference::road_tables::SPEEDS;
use reference::samples::dice::Dice;
use reference::samples::profiles::{between, random_profile, twice_factor};
use reference::sight::stopping_distance;

/// Any profile with any station, accepted ones frequent.
pub fn any_height(dice: &mut Dice) -> Request {
    let (profile, station) = any_profile_and_station(dice);
    Request::Height(profile, station)
}

fn any_profile_and_station(dice: &mut Dice) -> (Vec<i64>, u64) {
    match dice.between(0, 19) {
        0..=10 => {
            let profile = any_profile(dice);
            (profile.numbers(), any_station(dice, &profile))
        }
        11..=12 => {
            let profile = near_sight(dice);
            (profile.numbers(), any_station(dice, &profile))
        }
        13..=18 => damaged(dice),
        _ => any_numbers(dice),
    }
}

/// A profile of any count of vertices, few of them frequent.
fn any_profile(dice: &mut Dice) -> Profile {
    let n = match dice.between(0, 7) {
        0 => 0,
        1..=2 => 1,
        3..=5 => dice.index(2, 6),
        6 => dice.index(7, MOST_VERTICES),
        _ => MOST_VERTICES,
    };
    random_profile(dice, n)
}

/// One curve of exactly the length that sight needs in the first case, or of 2 mm less
/// or more.
fn near_sight(dice: &mut Dice) -> Profile {
    let v = i64::from(dice.one_of(&SPEEDS).v);
    let sign = dice.one_of(&[1, -1]);
    let d = stopping_distance(v).expect("a design speed");
    let factor = 5 * twice_factor(d, sign);
    // Every so many millionths the length is an even number of mm.
    let step = 2 * factor / common_divisor(d * d, 2 * factor);
    let longest = i128::from(GREATEST_LENGTH) * factor / (d * d);
    let most = longest.min(2 * i128::from(GREATEST_GRADE)) / step;
    let least = (1_000 * factor / d / step + 1).min(most);
    let times = between(dice, least as i64, most as i64);
    let size = step as i64 * times;
    let length = (d * d) as i64 * size / factor as i64;
    let mut profile = random_profile(dice, 1);
    let vertex = &mut profile.vertices[0];
    (profile.v, profile.grade) = (v, sign * size / 2);
    vertex.grade = profile.grade - sign * size;
    vertex.length = (length + dice.one_of(&[0, 0, -2, 2])).min(GREATEST_LENGTH);
    // As far from the start as it may need.
    profile.start = (vertex.station - GREATEST_LENGTH).max(0);
    profile
}

fn common_divisor(a: i128, b: i128) -> i128 {
    if b == 0 {
        a
    } else {
        common_divisor(b, a % b)
    }
}

/// A station within a curve, at its ends or its vertex, 1 mm beside them, on a grade,
/// or outside.
fn any_station(dice: &mut Dice, profile: &Profile) -> u64 {
    let end = *STATIONS.end();
    let beyond = [0, (profile.start - 1).max(0), end + 1, i64::MAX];
    let outside = dice.one_of(&beyond) as u64;
    let anywhere = between(dice, profile.start.clamp(0, end), end) as u64;
    let Some(vertex) = any_index(dice, profile.vertices.len()).map(|i| profile.vertices[i]) else {
        let start = profile.start.max(0) as u64;
        return dice.one_of(&[anywhere, anywhere, anywhere, start, outside]);
    };
    let inside = between(dice, vertex.begin(), vertex.end());
    let near = dice.one_of(&[vertex.begin(), vertex.station, vertex.end()]) + between(dice, -1, 1);
    let [inside, near] = [inside, near].map(|station| station.clamp(0, end) as u64);
    match dice.between(0, 19) {
        0..=10 => inside,
        11..=15 => near,
        16..=17 => anywhere,
        _ => outside,
    }
}

/// A profile with one to three damages, and a station of what it was before.
fn damaged(dice: &mut Dice) -> (Vec<i64>, u64) {
    let mut profile = any_profile(dice);
    let station = any_station(dice, &profile);
    let mut miscounted = false;
    for _ in 0..dice.one_of(&[1, 1, 1, 2, 3]) {
        match dice.between(0, 11) {
            0 => put_head(dice, &mut profile),
            1..=2 => put_grade(dice, &mut profile),
            3..=5 => put_length(dice, &mut profile),
            6..=8 => shift_vertex(dice, &mut profile),
            9 => profile.v = i64::from(dice.one_of(&SPEEDS).v),
            10 => add_vertices(dice, &mut profile),
            _ => miscounted = true,
        }
    }
    let mut numbers = profile.numbers();
    if miscounted {
        let count = numbers.len() + dice.index(0, 4);
        numbers.resize(count.saturating_sub(2), 2);
    }
    if dice.once_in(10) {
        let place = any_index(dice, numbers.len());
        let number = wide_number(dice);
        place.into_iter().for_each(|place| numbers[place] = number);
    }
    (numbers, station)
}

/// A speed, start or start height at a limit, beyond it, or anywhere.
fn put_head(dice: &mut Dice, profile: &mut Profile) {
    let any = wide_number(dice);
    let speed = i64::from(dice.one_of(&SPEEDS).v);
    let most = GREATEST_HEIGHT;
    let end = *STATIONS.end();
    match dice.between(0, 2) {
        0 => profile.v = dice.one_of(&[0, speed - 1, speed + 1, 30, 130, any]),
        1 => {
            profile.start =
                dice.one_of(&[0, -1, end, end + 1, profile.start.saturating_add(1), any])
        }
        _ => profile.height = dice.one_of(&[most, -most, most + 1, -most - 1, any]),
    }
}

/// A grade at a limit, beyond it, 1 more or less, with the other sign, or anywhere.
fn put_grade(dice: &mut Dice, profile: &mut Profile) {
    let place = dice.index(0, profile.vertices.len());
    let grade = match place {
        0 => &mut profile.grade,
        _ => &mut profile.vertices[place - 1].grade,
    };
    let most = GREATEST_GRADE;
    let near = near(dice, *grade, &[1, -1]);
    let limits = [most, -most, most + 1, -most - 1, grade.saturating_neg()];
    let limit = dice.one_of(&limits);
    let any = wide_number(dice);
    *grade = dice.one_of(&[near, limit, limit, any]);
}

/// A length 1 or 2 mm away, at a limit, beyond it, or anywhere.
fn put_length(dice: &mut Dice, profile: &mut Profile) {
    let Some(place) = any_index(dice, profile.vertices.len()) else {
        return;
    };
    let length = &mut profile.vertices[place].length;
    let near = near(dice, *length, &[-2, -2, -2, 2, -1, 1]);
    let even = 2 * between(dice, 1, GREATEST_LENGTH / 2);
    let most = GREATEST_LENGTH;
    let any = wide_number(dice);
    let limit = dice.one_of(&[0, 2, even, most, most + 1, most + 2, -most, any]);
    *length = dice.one_of(&[near, near, limit]);
}

/// A vertex some mm away, in another's place, at a limit, beyond it, or anywhere.
fn shift_vertex(dice: &mut Dice, profile: &mut Profile) {
    let count = profile.vertices.len();
    let (Some(place), Some(other)) = (any_index(dice, count), any_index(dice, count)) else {
        return;
    };
    let [own, other] = [place, other].map(|i| profile.vertices[i].station);
    let near = near(dice, own, &[-1, 1, -1, 1, -100]);
    let end = *STATIONS.end();
    let any = wide_number(dice);
    let limit = dice.one_of(&[other, profile.start, 0, -1, end, end + 1, any]);
    profile.vertices[place].station = dice.one_of(&[near, near, limit]);
}

/// A number moved by one of these steps.
fn near(dice: &mut Dice, number: i64, steps: &[i64]) -> i64 {
    number.saturating_add(dice.one_of(steps))
}

/// The last vertex over and over, up to some more than there may be.
fn add_vertices(dice: &mut Dice, profile: &mut Profile) {
    if let Some(last) = profile.vertices.last().copied() {
        let count = dice.index(MOST_VERTICES - 1, MOST_VERTICES + 8);
        profile.vertices.resize(count, last);
    }
}

/// Any index, if there is one.
fn any_index(dice: &mut Dice, count: usize) -> Option<usize> {
    (count > 0).then(|| dice.index(0, count - 1))
}

/// Any number, large ones and the ends of 64 bits frequent.
fn wide_number(dice: &mut Dice) -> i64 {
    let any = dice.long(0, u64::MAX) as i64;
    dice.one_of(&[i64::MIN, i64::MAX, any, any >> 20, any >> 32, any >> 44])
}

/// Any numbers for up to 36 vertices, most with all of them, and any station.
fn any_numbers(dice: &mut Dice) -> (Vec<i64>, u64) {
    let count = 4 + 3 * dice.index(0, 36) - dice.one_of(&[0, 0, 0, 1, 4]);
    let mut numbers: Vec<i64> = (0..count).map(|_| wide_number(dice)).collect();
    let v = i64::from(dice.one_of(&SPEEDS).v);
    numbers.iter_mut().take(1).for_each(|first| *first = v);
    (numbers, dice.long(0, u64::MAX))
}

#[cfg(test)]
mod tests {
    use super::*;
    use crate::input::Call;
    use reference::profile::height;
    use std::collections::{BTreeMap, BTreeSet};

    #[test]
    fn every_refusal_and_many_accepted() {
        let mut dice = Dice::new(1);
        let mut times = BTreeMap::new();
        let mut accepted = BTreeSet::new();
        for _ in 0..6_000 {
            let (profile, station) = any_profile_and_station(&mut dice);
            let answer = height(&profile, station, &mut [0]);
            let number = answer.map_or_else(|refusal| refusal.number, |_| 0);
            *times.entry(number).or_insert(0) += 1;
            if number == 0 {
                accepted.insert(profile.len());
            }
        }
        let refusals = Call::Height.refusals();
        let mut expected = refusals.iter().filter(|number| **number != 16);
        assert!(expected.all(|number| times[number] >= 60), "{times:?}");
        assert!(times[&0] >= 3_000, "{times:?}");
        assert_eq!(accepted.len(), MOST_VERTICES + 1, "{accepted:?}");
    }

    /// Half of the curves about the least length have just that, a quarter less.
    #[test]
    fn lengths_about_what_sight_needs() {
        let mut dice = Dice::new(1);
        let mut times = BTreeMap::new();
        for _ in 0..1_000 {
            let profile = near_sight(&mut dice);
            let shorter = |by| {
                let mut shorter = profile.clone();
                shorter.vertices[0].length -= by;
                shorter.check().is_err_and(|refusal| refusal.number == 23)
            };
            *times.entry([shorter(0), shorter(2)]).or_insert(0) += 1;
        }
        assert!(times[&[false, true]] >= 400, "{times:?}");
        assert!(times[&[true, true]] >= 200, "{times:?}");
    }

    /// Most of the stations lie within a curve.
    #[test]
    fn stations_on_curves_and_on_grades() {
        let mut dice = Dice::new(1);
        let mut times = [0; 2];
        for _ in 0..2_000 {
            let profile = any_profile(&mut dice);
            let station = any_station(&mut dice, &profile);
            let mut curves = profile.vertices.iter();
            let on_curve = curves.any(|v| (v.begin() as u64..=v.end() as u64).contains(&station));
            times[usize::from(on_curve)] += 1;
        }
        assert!(times[0] >= 400 && times[1] >= 1_000, "{times:?}");
    }
}
