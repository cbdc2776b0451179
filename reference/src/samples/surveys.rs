//! Lines by the coordinates of their points, as a surveyor sends them.

use super::dice::Dice;
use super::limits::least_deflection;
use super::roads::{any_side, fit_distances, road_radius, road_spiral};
use crate::curve::Curve;
use crate::elements::{cosine, full_angle, sine, SCALE};
use crate::line::{Line, CROSSFALLS, GREATEST_START, LEFT, RIGHT};
use crate::points::{from_points, line_of_points, Heading, GREATEST_TURN};
use crate::refusal::Refusal;
use crate::road_tables::{DesignSpeed, SPEEDS};

/// A way from one point to the next, mm east and north.
pub type Leg = (i64, i64);

/// The numbers of a call: east and north of each point in turn, radius and spiral
/// of each curve in turn, and what comes beside them.
#[derive(Clone, Debug, PartialEq, Eq)]
pub struct Survey {
    pub heading: Heading,
    pub points: Vec<i64>,
    pub curves: Vec<u32>,
}

impl Survey {
    /// The points of these legs, as far beyond the origin on one side as on the
    /// other; a curve is its radius and its spiral.
    pub fn of_legs(heading: Heading, legs: &[Leg], curves: &[(u32, u32)]) -> Survey {
        let mut points = vec![0, 0];
        for (east, north) in legs {
            let last = points.len() - 2;
            points.extend([points[last] + east, points[last + 1] + north]);
        }
        let curves = curves.iter().flat_map(|(r, l)| [*r, *l]).collect();
        let survey = Survey {
            heading,
            points,
            curves,
        };
        let [east, north] = [0, 1].map(|axis| survey.middle(axis));
        survey.moved(-east, -north)
    }

    /// Midway between the least and the greatest coordinate, east (0) or north (1).
    fn middle(&self, axis: usize) -> i64 {
        let (least, most) = self.ends(axis);
        (least + most).div_euclid(2)
    }

    /// The least and the greatest coordinate, east (0) or north (1); 0 without any.
    pub fn ends(&self, axis: usize) -> (i64, i64) {
        let along = || self.points.iter().skip(axis).step_by(2).copied();
        let [least, most] = [along().min(), along().max()];
        (least.unwrap_or(0), most.unwrap_or(0))
    }

    /// All points moved by the same amount.
    pub fn moved(&self, east: i64, north: i64) -> Survey {
        let by = [east, north].into_iter().cycle();
        let points = self.points.iter().zip(by).map(|(at, by)| at + by).collect();
        Survey {
            points,
            ..self.clone()
        }
    }

    /// North negated.
    pub fn mirrored(&self) -> Survey {
        let mut mirrored = self.clone();
        for north in mirrored.points.iter_mut().skip(1).step_by(2) {
            *north = north.saturating_neg();
        }
        mirrored
    }

    /// How many points lie between the first and the last.
    pub fn curve_count(&self) -> usize {
        (self.points.len() / 2).saturating_sub(2)
    }

    pub fn line(&self) -> Result<Line, Refusal> {
        line_of_points(self.heading, &self.points, &self.curves)
    }

    /// What is answered where so many numbers are lent.
    pub fn answer(&self, room: usize) -> Result<usize, Refusal> {
        let mut numbers = vec![0; room];
        from_points(self.heading, &self.points, &self.curves, &mut numbers)
    }
}

/// From where on a road turns back to the origin, mm.
const FAR: i128 = 3_000_000;
/// Curves up to which a road may be fast; slower ones are shorter.
const FEW_CURVES: usize = 6;

/// A road of `n` curves by its points, most of them accepted.
pub fn surveyed_road(dice: &mut Dice, n: usize) -> Survey {
    let speeds = if n > FEW_CURVES {
        &SPEEDS[..3]
    } else {
        &SPEEDS
    };
    let speed = dice.one_of(speeds);
    let e = dice.between(*CROSSFALLS.start(), *CROSSFALLS.end());
    let start = dice.between(0, GREATEST_START);
    let curves: Vec<Curve> = (0..n).map(|_| surveyed_curve(dice, speed, e)).collect();
    let mut line = Line::new(speed.v, e, start, &[], &curves);
    fit_distances(dice, &mut line);
    let v = line.v;
    let curves: Vec<(u32, u32)> = curves.iter().map(|curve| (curve.r, curve.l)).collect();
    Survey::of_legs(Heading { v, e, start }, &legs_of(dice, &line), &curves)
}

/// A curve that passes checks 10 to 14 at a turn of up to 60 degrees.
fn surveyed_curve(dice: &mut Dice, speed: DesignSpeed, e: u32) -> Curve {
    // Points in whole mm turn by some seconds more or less than is meant.
    const SPARE: u32 = 30;
    let r = road_radius(dice, speed, e);
    let l = road_spiral(dice, speed, r);
    let least = least_deflection(r, l) + SPARE;
    let most = GREATEST_TURN - SPARE;
    if least > most {
        return Curve::new(dice.between(least_deflection(r, 0) + SPARE, most), r, 0);
    }
    let small = most.min(least + 36_000);
    let most = dice.one_of(&[small, most]);
    Curve::new(dice.between(least, most), r, l)
}

/// Legs of about the line's distances and turns, in whole mm; the road stays about
/// the origin.
fn legs_of(dice: &mut Dice, line: &Line) -> Vec<Leg> {
    let mut direction = any_direction(dice);
    let mut at = (0, 0);
    let mut legs = Vec::new();
    for i in 0..=line.curve_count() {
        if i > 0 {
            direction = next_direction(dice, at, direction, line.curve(i).a);
        }
        // Whole mm: the distance is at most 2 mm less than this.
        let length = i128::from(line.distances[i]) + 2;
        let leg = along(direction, length);
        at = (at.0 + i128::from(leg.0), at.1 + i128::from(leg.1));
        legs.push(leg);
    }
    legs
}

/// East and north of a direction, at the scale 10⁹.
pub type Direction = (i128, i128);

/// A direction in whole numbers.
pub fn any_direction(dice: &mut Dice) -> Direction {
    let eighth = dice.between(0, 162_000);
    let (sine, cosine) = (sine(full_angle(eighth)), cosine(full_angle(eighth)));
    let (sine, cosine) = dice.one_of(&[(sine, cosine), (cosine, sine)]);
    (dice.one_of(&[sine, -sine]), dice.one_of(&[cosine, -cosine]))
}

/// The direction after a turn to a side.
pub fn turned((east, north): Direction, side: u32, seconds: u32) -> Direction {
    let q = full_angle(seconds);
    let sine = if side == LEFT { sine(q) } else { -sine(q) };
    let cosine = cosine(q);
    (
        (east * cosine - north * sine) / SCALE,
        (east * sine + north * cosine) / SCALE,
    )
}

/// So many mm in a direction, to the nearest whole mm east and north.
pub fn along((east, north): Direction, length: i128) -> Leg {
    let nearest = |part: i128| {
        let twice = 2 * part * length + SCALE;
        i64::try_from(twice.div_euclid(2 * SCALE)).expect("a leg is short")
    };
    (nearest(east), nearest(north))
}

/// The direction after a curve: to any side, far from the origin towards it.
fn next_direction(
    dice: &mut Dice,
    (east, north): (i128, i128),
    direction: Direction,
    seconds: u32,
) -> Direction {
    let any = any_side(dice);
    if east.abs().max(north.abs()) < FAR {
        return turned(direction, any, seconds);
    }
    let away = |direction: &Direction| east * direction.0 + north * direction.1;
    let both = [LEFT, RIGHT].map(|side| turned(direction, side, seconds));
    both.into_iter().min_by_key(away).expect("two directions")
}

#[cfg(test)]
mod tests {
    use super::*;

    #[test]
    fn most_roads_are_accepted() {
        let mut dice = Dice::new(1);
        let mut accepted = 0;
        for round in 0..650 {
            let n = round % 65;
            let survey = surveyed_road(&mut dice, n);
            assert_eq!(survey.curve_count(), n);
            accepted += usize::from(survey.line().is_ok());
        }
        assert!(accepted >= 550, "{accepted}");
    }

    #[test]
    fn legs_become_points_about_the_origin() {
        let heading = Heading {
            v: 70,
            e: 8,
            start: 0,
        };
        let survey = Survey::of_legs(heading, &[(10, 0), (3, -5)], &[(7, 9)]);
        assert_eq!(survey.points, [-6, 3, 4, 3, 7, -2]);
        assert_eq!(survey.curves, [7, 9]);
        assert_eq!(survey.mirrored().points, [-6, -3, 4, -3, 7, 2]);
        assert_eq!(survey.moved(1, 2).points, [-5, 5, 5, 5, 8, 0]);
        assert_eq!((survey.ends(0), survey.ends(1)), ((-6, 7), (-2, 3)));
    }
}
