//! Lines by the coordinates of their points, the same in every run. All are
//! accepted.

use reference::line::{LEFT, MOST_CURVES, RIGHT};
use reference::points::Heading;
use reference::samples::dice::Dice;
use reference::samples::surveys::{along, surveyed_road, turned, Survey};

const SEED: u64 = 7;
/// How many lines of 66 points, and of three.
const FULL_LINES: usize = 32;
const SINGLE_LINES: usize = 256;

pub struct Surveys {
    /// Those of 64 curves; the first is [`switchbacks`].
    pub full: Vec<Survey>,
    /// Those of one curve.
    pub single: Vec<Survey>,
}

impl Surveys {
    pub fn make() -> Surveys {
        let mut dice = Dice::new(SEED);
        let mut full = vec![switchbacks()];
        assert!(full[0].line().is_ok(), "the line is accepted");
        full.extend(accepted_roads(&mut dice, MOST_CURVES, FULL_LINES - 1));
        Surveys {
            full,
            single: accepted_roads(&mut dice, 1, SINGLE_LINES),
        }
    }
}

fn accepted_roads(dice: &mut Dice, curves: usize, count: usize) -> Vec<Survey> {
    let roads = std::iter::repeat_with(|| surveyed_road(dice, curves));
    let accepted = roads.filter(|survey| survey.line().is_ok());
    accepted.take(count).collect()
}

/// Short legs and wide turns at the end of every long leg, which bends by a few
/// seconds in its middle; to the left and to the right in turn.
fn switchbacks() -> Survey {
    // The turn, the radius, and the leg behind it.
    const BENDS: [(u32, u32, i128); 4] = [
        (215_990, 45_000, 60_000),
        (215_990, 45_000, 60_000),
        (215_990, 45_000, 9_000_000),
        (5, 5_000_000, 9_000_000),
    ];
    let heading = Heading {
        v: 40,
        e: 12,
        start: 0,
    };
    let mut direction = (1_000_000_000, 0);
    let (mut legs, mut curves) = (vec![along(direction, 9_000_000)], Vec::new());
    for i in 0..MOST_CURVES {
        let (seconds, radius, length) = BENDS[i % BENDS.len()];
        let side = [LEFT, RIGHT][i / BENDS.len() % 2];
        direction = turned(direction, side, seconds);
        legs.push(along(direction, length));
        curves.push((radius, 0));
    }
    Survey::of_legs(heading, &legs, &curves)
}

#[cfg(test)]
mod tests {
    use super::*;

    #[test]
    fn switchbacks_are_accepted() {
        let line = switchbacks().line().expect("the line is accepted");
        assert_eq!(line.curve_count(), MOST_CURVES);
        let turns = line.curves.map(|curve| curve.a);
        assert!(*turns.iter().min().unwrap() < 10, "{turns:?}");
        assert!(*turns.iter().max().unwrap() > 215_900, "{turns:?}");
        assert!(line.distances.contains(&60_000));
        assert!(line.distances.iter().any(|distance| *distance >= 8_999_999));
    }
}
