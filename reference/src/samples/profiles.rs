//! Random profiles, all of them accepted.

use super::dice::Dice;
use crate::profile::{Profile, Vertex, GREATEST_GRADE, GREATEST_HEIGHT, GREATEST_LENGTH, STATIONS};
use crate::road_tables::SPEEDS;
use crate::sight::stopping_distance;

/// A profile of `n` vertices, at most 32.
pub fn random_profile(dice: &mut Dice, n: usize) -> Profile {
    let v = i64::from(dice.one_of(&SPEEDS).v);
    let mut profile = Profile {
        v,
        start: 0,
        height: within(dice, GREATEST_HEIGHT),
        grade: within(dice, GREATEST_GRADE),
        vertices: Vec::new(),
    };
    let (mut grade, mut free_from) = (profile.grade, 0);
    for _ in 0..n {
        let vertex = next_vertex(dice, v, grade, free_from);
        (grade, free_from) = (vertex.grade, vertex.end());
        profile.vertices.push(vertex);
    }
    let last = profile.vertices.last().map_or(0, |vertex| vertex.station);
    let most = STATIONS.end() - last;
    let any = between(dice, 0, most);
    profile.moved(dice.one_of(&[0, any, any, most]))
}

impl Profile {
    /// Start and vertices moved by the same amount.
    pub fn moved(&self, by: i64) -> Profile {
        let mut moved = self.clone();
        moved.start += by;
        for vertex in &mut moved.vertices {
            vertex.station += by;
        }
        moved
    }
}

/// A vertex behind the curve before it; often the two touch.
fn next_vertex(dice: &mut Dice, v: i64, incoming: i64, free_from: i64) -> Vertex {
    let grade = next_grade(dice, v, incoming);
    let least = least_length(v, incoming - grade);
    let longer = (least + 2 * between(dice, 0, 50)).min(GREATEST_LENGTH);
    let any = 2 * between(dice, least / 2, GREATEST_LENGTH / 2);
    let length = dice.one_of(&[least, longer, any, any, GREATEST_LENGTH]);
    let gap = i64::from(dice.spread(1, 2_000_000));
    let begin = free_from + dice.one_of(&[0, gap, gap]);
    Vertex {
        station: begin + length / 2,
        grade,
        length,
    }
}

/// A grade behind this one for which no curve must be too long.
fn next_grade(dice: &mut Dice, v: i64, incoming: i64) -> i64 {
    let small = between(dice, -20, 20);
    let beside = (incoming + small).clamp(-GREATEST_GRADE, GREATEST_GRADE);
    let any = within(dice, GREATEST_GRADE);
    let mut grade = dice.one_of(&[incoming, beside, any, any, any, any]);
    while least_length(v, incoming - grade) > GREATEST_LENGTH {
        grade = (incoming + grade) / 2;
    }
    grade
}

/// A number up to `limit` either way, its ends and 0 frequent.
fn within(dice: &mut Dice, limit: i64) -> i64 {
    let any = between(dice, -limit, limit);
    let small = between(dice, -limit.min(100), limit.min(100));
    dice.one_of(&[any, any, any, any, small, 0, limit, -limit])
}

/// A number from `least` to `most`, all about alike.
pub fn between(dice: &mut Dice, least: i64, most: i64) -> i64 {
    let width = u64::try_from(most - least).expect("least is at most the most");
    least + i64::try_from(dice.long(0, width)).expect("the width is small")
}

/// The least even length, mm, that passes check 23 at this change of grade; it may
/// be over what check 21 allows.
pub fn least_length(v: i64, g: i64) -> i64 {
    let d = stopping_distance(v).expect("a design speed");
    let size = i128::from(g.abs());
    if size == 0 {
        return 2;
    }
    let twice_factor = twice_factor(d, g);
    let second = 2_000 * d - 5_000_000 * twice_factor / size;
    let least = if second <= 1_000 * d {
        second.max(2)
    } else {
        (d * d * size - 1) / (5 * twice_factor) + 1
    };
    i64::try_from(least + least % 2).expect("a length is short")
}

/// Twice 412 on a crest, twice 122 + 3.5 D in a sag.
pub fn twice_factor(d: i128, g: i64) -> i128 {
    if g > 0 {
        2 * 412
    } else {
        2 * 122 + 7 * d
    }
}

#[cfg(test)]
mod tests {
    use super::*;
    use crate::profile::MOST_VERTICES;
    use crate::sight::is_long_enough;

    #[test]
    fn random_profiles_are_accepted() {
        let mut dice = Dice::new(1);
        let mut touching = 0;
        for n in (0..=MOST_VERTICES).cycle().take(3_300) {
            let profile = random_profile(&mut dice, n);
            assert_eq!(profile.check(), Ok(()), "{:?}", profile.numbers());
            assert_eq!(profile.vertices.len(), n);
            let pairs = profile.vertices.windows(2);
            touching += pairs.filter(|two| two[0].end() == two[1].begin()).count();
        }
        assert!(touching > 1_000, "{touching}");
    }

    #[test]
    fn least_lengths_are_the_limits() {
        let mut dice = Dice::new(1);
        for v in SPEEDS.map(|speed| i64::from(speed.v)) {
            let d = stopping_distance(v).unwrap();
            let few = [0, 1, -1, 2 * GREATEST_GRADE, -2 * GREATEST_GRADE];
            let any: Vec<i64> = (0..400)
                .map(|_| within(&mut dice, 2 * GREATEST_GRADE))
                .collect();
            for g in few.into_iter().chain(any) {
                let least = least_length(v, g);
                let passes = |length: i64| is_long_enough(length.into(), g.into(), d);
                assert!(least % 2 == 0 && passes(least), "{v} {g} {least}");
                assert!(least == 2 || !passes(least - 2), "{v} {g} {least}");
            }
        }
    }
}
