//! A line by the coordinates of its points, from which the library makes distances
//! and deflections.

use crate::limits;
use crate::line::{library_number, Line};
use crate::quantity::metres_of_signed_mm;
use pokyandi::{curve, Refusal, LINE_NUMBERS};

/// The coordinates of a point, in their order.
pub const AXES: [&str; 2] = ["east", "north"];

/// The values of a coordinate that are taken.
pub fn range() -> String {
    let most = limits::greatest_coordinate() as i64;
    let [low, high] = [-most, most].map(metres_of_signed_mm);
    format!("{low} to {high}")
}

/// What a text with points says; the numbers need not be in range.
#[derive(Debug, PartialEq, Eq)]
pub struct Survey {
    pub speed: u64,
    pub crossfall: u64,
    pub start: u64,
    /// East and north of the start, each PI and the end, mm; two at least.
    pub points: Vec<[i64; 2]>,
    /// Radius and spiral of each PI, mm.
    pub curves: Vec<[u64; 2]>,
}

impl Survey {
    /// The line, or the first refusal.
    pub fn line(&self) -> Result<Line, Refusal> {
        let [speed, crossfall, start] =
            [self.speed, self.crossfall, self.start].map(library_number);
        let points = self.points.as_flattened();
        let curves = self.curves.as_flattened().iter();
        let curves: Vec<u32> = curves.copied().map(library_number).collect();
        let mut numbers = [0; LINE_NUMBERS];
        let count = pokyandi::from_points(speed, crossfall, start, points, &curves, &mut numbers)?;
        Ok(Line::of_numbers(&numbers[..count]))
    }

    /// The first coordinate out of range: the index of its point, and of its axis.
    pub fn far_coordinate(&self) -> Option<(usize, usize)> {
        let most = limits::greatest_coordinate();
        let mut coordinates = self.points.as_flattened().iter();
        let index = coordinates.position(|coordinate| coordinate.unsigned_abs() > most)?;
        Some((index / AXES.len(), index % AXES.len()))
    }

    /// The same line worked out here, where coordinates are in range. It serves for
    /// words alone: after a refusal the library answers no numbers.
    pub fn sketch(&self) -> Line {
        let legs = self
            .points
            .windows(2)
            .map(|ends| Leg::between(ends[0], ends[1]));
        let legs: Vec<Leg> = legs.collect();
        let n = self.curves.len() as u64;
        let mut numbers = vec![n, self.speed, self.crossfall, self.start, legs[0].length()];
        for (legs, [radius, spiral]) in legs.windows(2).zip(&self.curves) {
            let (side, deflection) = turn(legs[0], legs[1]);
            numbers.extend([side.into(), deflection, *radius, *spiral, legs[1].length()]);
        }
        Line { numbers }
    }
}

/// The way from a point to the next, mm.
#[derive(Clone, Copy)]
struct Leg {
    east: i64,
    north: i64,
}

impl Leg {
    fn between([from_east, from_north]: [i64; 2], [east, north]: [i64; 2]) -> Leg {
        Leg {
            east: east - from_east,
            north: north - from_north,
        }
    }

    /// Rounded down.
    fn length(self) -> u64 {
        (self.east * self.east + self.north * self.north).isqrt() as u64
    }
}

/// The side to which the line turns between two legs, and by how many seconds.
fn turn(into: Leg, out: Leg) -> (u32, u64) {
    let cross = into.east * out.north - into.north * out.east;
    let dot = into.east * out.east + into.north * out.north;
    let side = match cross > 0 {
        true => curve::LEFT,
        false => curve::RIGHT,
    };
    let angle = (cross.abs() as f64).atan2(dot as f64);
    let near = (angle.to_degrees() * 3_600.0) as i64;
    let is_reached = |seconds: &i64| {
        let [sine, cosine] = sine_and_cosine(*seconds);
        i128::from(cross.abs()) * cosine >= i128::from(dot) * sine
    };
    // The rule's sine and cosine are rounded, which may move a turn by a second.
    let seconds = match dot > 0 {
        true => (near - 1..=near + 1).rev().find(is_reached),
        false => None,
    };
    (side, seconds.unwrap_or(near) as u64)
}

/// Sine and cosine of seconds by document 01's working rule, at the scale 10⁹.
fn sine_and_cosine(seconds: i64) -> [i128; 2] {
    const ONE: i128 = 1_000_000_000;
    let angle = i128::from(seconds) * 3_141_592_654 / 648_000;
    let square = angle * angle / ONE;
    // Term j is the former one times z, over the two whole numbers up to 2j + odd.
    let series = |first: i128, odd: i128| {
        let (mut term, mut sum) = (first, first);
        for j in 1..=6 {
            let divisor = 2 * j + odd;
            term = term * square / (ONE * (divisor - 1) * divisor);
            sum += if j % 2 == 0 { term } else { -term };
        }
        sum
    };
    [series(angle, 1), series(ONE, 0)]
}

#[cfg(test)]
mod tests {
    use super::*;
    use pokyandi::Reason;

    /// Random numbers, the same in each run (xorshift64).
    struct Dice(u64);

    impl Dice {
        /// A coordinate; those near to the origin come often.
        fn coordinate(&mut self) -> i64 {
            self.0 ^= self.0 << 13;
            self.0 ^= self.0 >> 7;
            self.0 ^= self.0 << 17;
            let [size, digits] = [self.0 >> 32, self.0 % 24];
            ((size % 20_000_001) as i64 - 10_000_000) >> digits
        }
    }

    fn survey(points: Vec<[i64; 2]>) -> Survey {
        Survey {
            speed: 40,
            crossfall: 8,
            start: 0,
            curves: vec![[60_000, 0]; points.len() - 2],
            points,
        }
    }

    #[test]
    fn what_is_worked_out_here_is_what_the_library_answers() {
        let mut dice = Dice(19);
        let mut accepted = 0;
        for _ in 0..20_000 {
            let mut point = || [dice.coordinate(), dice.coordinate()];
            let survey = survey(vec![point(), point(), point()]);
            let sketch = survey.sketch();
            let deflection = sketch.curve(1).deflection;
            match survey.line().map_err(|refusal| refusal.reason) {
                Ok(line) => {
                    assert_eq!(sketch, line);
                    accepted += 1;
                }
                Err(Reason::NoTurn) => assert_eq!(deflection, 0, "{survey:?}"),
                Err(Reason::WideTurn) => assert!(deflection > 216_000, "{survey:?}"),
                Err(Reason::Distance) => {
                    let is_out = |i| !(1..=20_000_000).contains(&sketch.distance(i));
                    assert!(is_out(0) || is_out(1), "{survey:?}");
                }
                Err(_) => assert!((1..=216_000).contains(&deflection), "{survey:?}"),
            }
        }
        assert!(accepted > 1_000, "{accepted}");
    }

    #[test]
    fn coordinates_out_of_range() {
        let far = |points: [[i64; 2]; 3]| survey(points.to_vec()).far_coordinate();
        assert_eq!(far([[0, 0], [10_000_000, -10_000_000], [0, 0]]), None);
        assert_eq!(far([[0, 0], [10_000_001, 0], [0, 0]]), Some((1, 0)));
        assert_eq!(far([[0, 0], [0, 0], [0, i64::MIN]]), Some((2, 1)));
    }
}
