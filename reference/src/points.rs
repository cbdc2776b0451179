//! A line from the coordinates of its points, in the words of document 02, Lines
//! from coordinates. All work is in `i128`, so that no step can overflow.

use crate::curve::Curve;
use crate::elements::{cosine, full_angle, sine};
use crate::lent::fill;
use crate::line::{Line, GREATEST_DISTANCE, LEFT, MOST_CURVES, RIGHT};
use crate::refusal::{refuse, Refusal};
use crate::stations;
use std::ops::RangeInclusive;
use std::sync::OnceLock;

/// How many points a line may have.
pub const POINT_COUNTS: RangeInclusive<usize> = 2..=MOST_CURVES + 2;
/// Greatest coordinate either way, mm.
pub const GREATEST_COORDINATE: i64 = 10_000_000;
/// Greatest turn at a point, seconds of arc.
pub const GREATEST_TURN: u32 = 216_000;

/// What comes beside the points, radii and spirals.
#[derive(Clone, Copy, Debug, PartialEq, Eq)]
pub struct Heading {
    /// Design speed V, km/h.
    pub v: u32,
    /// Greatest superelevation e, percent.
    pub e: u32,
    /// Start station, mm.
    pub start: u32,
}

/// Writes the numbers of the line at the front of the lent ones and returns their
/// count. Refuses as [`line_of_points`] does, then 16, and leaves the numbers as
/// they are.
pub fn from_points(
    heading: Heading,
    points: &[i64],
    curves: &[u32],
    numbers: &mut [u32],
) -> Result<usize, Refusal> {
    fill(numbers, &line_of_points(heading, points, curves)?.numbers())
}

/// The line of these points, its unused entries zero: `points` are east and north
/// in turn, `curves` radius and spiral in turn, for each point but the first and
/// the last. Refuses with 3 other counts, with 18 a coordinate, with 8 a distance,
/// then point by point with 20 and 19 a turn, then as the calculator does, but 16.
pub fn line_of_points(heading: Heading, points: &[i64], curves: &[u32]) -> Result<Line, Refusal> {
    check_counts(points.len(), curves.len())?;
    check_coordinates(points)?;
    let line = unjudged_line(heading, &legs(points), curves)?;
    stations::check(&line)?;
    Ok(line)
}

/// Check 3: an odd count, other than two numbers for each curve, fewer than 2 or
/// more than 66 points.
fn check_counts(point_numbers: usize, curve_numbers: usize) -> Result<(), Refusal> {
    let points = point_numbers / 2;
    let curves = points.saturating_sub(2);
    let in_pairs = point_numbers.is_multiple_of(2) && curve_numbers == 2 * curves;
    if !in_pairs || !POINT_COUNTS.contains(&points) {
        return refuse(3, 0);
    }
    Ok(())
}

/// Check 18: a coordinate beyond 10,000,000 either way.
fn check_coordinates(points: &[i64]) -> Result<(), Refusal> {
    let limits = -GREATEST_COORDINATE..=GREATEST_COORDINATE;
    if !points.iter().all(|coordinate| limits.contains(coordinate)) {
        return refuse(18, 0);
    }
    Ok(())
}

/// The way from one point to the next, mm.
#[derive(Clone, Copy, Debug)]
struct Leg {
    east: i128,
    north: i128,
}

/// The legs between points that are in range, in order.
fn legs(points: &[i64]) -> Vec<Leg> {
    let points: Vec<&[i64]> = points.chunks_exact(2).collect();
    let along = |two: &[&[i64]], axis: usize| i128::from(two[1][axis] - two[0][axis]);
    let legs = points.windows(2).map(|two| Leg {
        east: along(two, 0),
        north: along(two, 1),
    });
    legs.collect()
}

/// The line before the calculator's checks. Refuses with 8 the distances in
/// order, then with 20 and 19 the turns in order.
fn unjudged_line(heading: Heading, legs: &[Leg], curves: &[u32]) -> Result<Line, Refusal> {
    let Heading { v, e, start } = heading;
    let mut line = Line {
        v,
        e,
        start,
        n: u32::try_from(legs.len() - 1).expect("a line has few curves"),
        ..Line::blank()
    };
    for (i, leg) in legs.iter().enumerate() {
        line.distances[i] = leg.distance().map_err(|refusal| refusal.at(i))?;
    }
    for (i, two) in legs.windows(2).enumerate() {
        let (side, a) = bend(two[0], two[1]).map_err(|refusal| refusal.at(i + 1))?;
        line.sides[i] = side;
        line.curves[i] = Curve::new(a, curves[2 * i], curves[2 * i + 1]);
    }
    Ok(line)
}

impl Leg {
    /// "The root of the summed squares, rounded down", or refusal 8, place 0.
    fn distance(self) -> Result<u32, Refusal> {
        let root = root(self.east.pow(2) + self.north.pow(2));
        match u32::try_from(root) {
            Ok(distance @ 1..=GREATEST_DISTANCE) => Ok(distance),
            _ => refuse(8, 0),
        }
    }
}

/// The largest whole number whose square is not above `square`, which is below
/// 2⁶².
fn root(square: i128) -> i128 {
    let (mut root, mut above) = (0, 1 << 31);
    while root + 1 < above {
        let middle = (root + above) / 2;
        if middle * middle <= square {
            root = middle;
        } else {
            above = middle;
        }
    }
    root
}

/// "East in × north out − north in × east out".
fn cross_product(into: Leg, out: Leg) -> i128 {
    into.east * out.north - into.north * out.east
}

fn dot_product(into: Leg, out: Leg) -> i128 {
    into.east * out.east + into.north * out.north
}

/// Side and deflection at a PI, or refusal 20 or 19, place 0. "Side is its sign,
/// positive being left."
fn bend(into: Leg, out: Leg) -> Result<(u32, u32), Refusal> {
    let cross = cross_product(into, out);
    let dot = dot_product(into, out);
    if dot <= 0 || reached(cross, dot, GREATEST_TURN + 1) {
        return refuse(20, 0);
    }
    let side = if cross > 0 { LEFT } else { RIGHT };
    match turn(cross, dot) {
        0 => refuse(19, 0),
        seconds => Ok((side, seconds)),
    }
}

/// Whether "the cross product's size times cosine(s) is at least the dot product
/// times sine(s)", for a second 0 to 216,001.
pub fn reached(cross: i128, dot: i128, second: u32) -> bool {
    reached_by(cross, dot, sines_and_cosines()[second as usize])
}

fn reached_by(cross: i128, dot: i128, (sine, cosine): (i128, i128)) -> bool {
    cross.abs() * cosine >= dot * sine
}

/// "The largest whole number of seconds s, 0 to 216,000" that is reached, the dot
/// product being above zero. Sine over cosine never falls from second to second,
/// so the seconds that are reached come first; 0 is always one of them.
fn turn(cross: i128, dot: i128) -> u32 {
    let seconds = &sines_and_cosines()[..=GREATEST_TURN as usize];
    let reached = seconds.partition_point(|second| reached_by(cross, dot, *second));
    u32::try_from(reached - 1).expect("seconds are few")
}

/// Sine and cosine of the full angle of every second, 0 to 216,001, worked once.
/// It is seen to that sine over cosine never falls.
fn sines_and_cosines() -> &'static [(i128, i128)] {
    static TABLE: OnceLock<Vec<(i128, i128)>> = OnceLock::new();
    TABLE.get_or_init(|| {
        let angles = (0..=GREATEST_TURN + 1).map(full_angle);
        let table: Vec<(i128, i128)> = angles.map(|q| (sine(q), cosine(q))).collect();
        let mut steps = table.windows(2);
        let rises = |two: &[(i128, i128)]| two[0].0 * two[1].1 <= two[1].0 * two[0].1;
        assert!(steps.all(rises), "sine over cosine falls");
        assert!(table.iter().all(|(_, cosine)| *cosine > 0));
        table
    })
}

#[cfg(test)]
mod tests {
    use super::*;
    use crate::samples::dice::Dice;
    use crate::samples::surveys::{surveyed_road, Survey};
    use crate::sheet;

    const HEADING: Heading = Heading {
        v: 70,
        e: 8,
        start: 0,
    };
    /// Radius and spiral.
    const CURVE: [u32; 2] = [350_000, 0];

    /// Side and deflection at the end of a leg of 1 km to the east, then this way.
    fn bend_after_east(east: i64, north: i64) -> Result<(u32, u32), Refusal> {
        let points = [-9_000_000, 0, -8_000_000, 0, east - 8_000_000, north];
        let line = line_of_points(HEADING, &points, &CURVE)?;
        Ok((line.sides[0], line.curve(1).a))
    }

    #[test]
    fn line_without_curve() {
        for points in [[0, 0, 300, 400], [7, 1, -293, -399], [0, 0, 500, 0]] {
            let line = line_of_points(HEADING, &points.map(|mm| 1_000 * mm), &[]);
            assert_eq!(line, Ok(Line::case_9()));
        }
    }

    /// Every unused entry is zero, as those of [`Line::case_1`] are.
    #[test]
    fn case_1_by_its_points() {
        let points = [0, 0, 500_000, 0, 760_421, -303_614];
        let line = line_of_points(HEADING, &points, &[350_000, 40_000]);
        assert_eq!(line, Ok(Line::case_1()));
    }

    #[test]
    fn roots() {
        for n in [0, 1, 2, 3, 1_000, 65_535, 20_000_000, 28_284_271] {
            assert_eq!(root(n * n), n);
            assert_eq!(root(n * n + 2 * n), n);
            assert_eq!(root((n + 1) * (n + 1)), n + 1);
        }
    }

    /// Worked by hand: sine and cosine are 4,848 and 10⁹ at 1 second.
    #[test]
    fn turns_of_one_second_and_less() {
        assert_eq!(sines_and_cosines()[1], (4_848, 1_000_000_000));
        for (north, side) in [(49, LEFT), (-49, RIGHT), (96, LEFT), (-96, RIGHT)] {
            assert_eq!(bend_after_east(10_000_000, north), Ok((side, 1)));
        }
        for north in [0, 1, -1, 48, -48] {
            assert_eq!(bend_after_east(10_000_000, north), refuse(19, 1));
        }
        assert_eq!(bend_after_east(10_000_000, 97), Ok((LEFT, 2)));
    }

    /// The tangents of 216,000 and 216,001 seconds are 1.7320508.. and
    /// 1.7320702053..
    #[test]
    fn turns_of_60_degrees() {
        let table = sines_and_cosines();
        assert_eq!(table[216_000], (866_025_404, 500_000_000));
        assert_eq!(table[216_001], (866_027_828, 499_995_800));
        for (north, seconds) in [
            (8_660_254, 215_999),
            (8_660_255, 216_000),
            (8_660_351, 216_000),
        ] {
            assert_eq!(bend_after_east(5_000_000, north), Ok((LEFT, seconds)));
            assert_eq!(bend_after_east(5_000_000, -north), Ok((RIGHT, seconds)));
        }
        for north in [8_660_352, -8_660_352] {
            assert_eq!(bend_after_east(5_000_000, north), refuse(20, 1));
        }
    }

    /// At 162,000 seconds sine and cosine are 707,106,781 and 707,106,782.
    #[test]
    fn turns_between() {
        assert_eq!(bend_after_east(900_000, 900_000), Ok((LEFT, 162_000)));
        assert_eq!(bend_after_east(900_000, -899_999), Ok((RIGHT, 161_999)));
        assert_eq!(bend_after_east(800_000, 600_000), Ok((LEFT, 132_731)));
        assert_eq!(bend_after_east(900_000, -450_000), Ok((RIGHT, 95_634)));
    }

    #[test]
    fn turns_of_90_degrees_and_more() {
        for (east, north) in [(0, 1), (0, -900_000), (-1, 900_000), (-900_000, 0), (-1, 0)] {
            assert_eq!(bend_after_east(east, north), refuse(20, 1));
        }
    }

    /// By a count down over all seconds, without the search.
    #[test]
    fn turn_is_the_largest_second() {
        let mut dice = Dice::new(1);
        for round in 0..60 {
            let dot = i128::from(dice.spread(1, u32::MAX));
            let cross = match round % 3 {
                0 => i128::from(dice.between(0, u32::MAX)) * dot / (3 << 31),
                1 => dot * 17 / 10,
                _ => i128::from(dice.between(0, 100)),
            };
            let largest = (0..=GREATEST_TURN).rev().find(|s| reached(cross, dot, *s));
            assert_eq!(Some(turn(cross, dot)), largest, "{cross} {dot}");
            assert_eq!(Some(turn(-cross, dot)), largest);
        }
    }

    /// The answer, and `room` numbers after the call; before it, each is 7.
    fn call(points: &[i64], curves: &[u32], room: usize) -> (Result<usize, Refusal>, Vec<u32>) {
        let mut numbers = vec![7; room];
        (from_points(HEADING, points, curves, &mut numbers), numbers)
    }

    #[test]
    fn rooms() {
        let points = [0, 0, 500_000, 0, 760_421, -303_614];
        let curves = [350_000, 40_000];
        for room in 0..10 {
            let expected = (refuse(16, 0), vec![7; room]);
            assert_eq!(call(&points, &curves, room), expected);
        }
        let (answer, numbers) = call(&points, &curves, 12);
        assert_eq!(answer, Ok(10));
        assert_eq!(numbers[..10], Line::case_1().numbers());
        assert_eq!(numbers[10..], [7, 7]);
    }

    /// One fault after the other is put right, without any room.
    #[test]
    fn refusals_in_order() {
        let mut points = vec![i64::MIN, 0, 0, 0, 0, 0, 650_000, 300_000, 9];
        let mut curves = vec![0, 500_001, 350_000, 0];
        let mut check = |number, place, edit: fn(&mut Vec<i64>, &mut Vec<u32>)| {
            for room in [0, 15] {
                let expected = (refuse(number, place), vec![7; room]);
                assert_eq!(call(&points, &curves, room), expected);
            }
            edit(&mut points, &mut curves);
        };
        check(3, 0, |points, _| points.truncate(8));
        check(18, 0, |points, _| points[0] = -900_000);
        check(8, 1, |points, _| points[4] = -600_000);
        check(20, 1, |points, _| points[4] = 600_000);
        check(19, 1, |points, _| points[5] = 300_000);
        check(10, 1, |_, curves| curves[0] = 350_000);
        check(11, 1, |_, curves| curves[1] = 0);
        check(15, 2, |points, _| points[6] = 1_200_000);
        assert_eq!(call(&points, &curves, 14).0, refuse(16, 0));
        assert_eq!(call(&points, &curves, 15).0, Ok(15));
    }

    #[test]
    fn counts() {
        let points = |count| -> Vec<i64> { (0..count).map(|i| i * (i % 3 + 1) * 50).collect() };
        for (point_numbers, curve_numbers) in [
            (0, 0),
            (0, 2),
            (1, 0),
            (2, 0),
            (3, 0),
            (4, 1),
            (4, 2),
            (5, 0),
            (6, 0),
            (6, 1),
            (6, 3),
            (7, 2),
            (134, 130),
            (136, 132),
        ] {
            let curves = vec![350_000; curve_numbers];
            let answer = call(&points(point_numbers), &curves, 400).0;
            assert_eq!(answer, refuse(3, 0), "{point_numbers} {curve_numbers}");
        }
        assert_eq!(call(&points(4), &[], 400).0, Ok(5));
        assert_ne!(call(&points(132), &[350_000; 128], 400).0, refuse(3, 0));
    }

    fn surveys() -> Vec<Survey> {
        let mut dice = Dice::new(2);
        let counts = (0..=64).chain(0..=64);
        counts.map(|n| surveyed_road(&mut dice, n)).collect()
    }

    /// North negated changes only the sides, also where the survey is refused.
    #[test]
    fn mirrored_surveys() {
        for survey in surveys() {
            let expected = survey.line().map(|mut line| {
                let n = line.curve_count();
                line.sides[..n]
                    .iter_mut()
                    .for_each(|side| *side = LEFT - *side);
                line
            });
            assert_eq!(survey.mirrored().line(), expected);
        }
    }

    /// All points moved by the same amount, as far as the limits allow.
    #[test]
    fn moved_surveys() {
        for survey in surveys() {
            let (east, north) = (survey.ends(0), survey.ends(1));
            let limit = GREATEST_COORDINATE;
            for moved in [
                survey.moved(limit - east.1, -limit - north.0),
                survey.moved(-limit - east.0, limit - north.1),
            ] {
                let within = [east, north]
                    .iter()
                    .all(|ends| ends.1 - ends.0 <= 2 * limit);
                let expected = if within { survey.line() } else { refuse(18, 0) };
                assert_eq!(moved.line(), expected);
            }
        }
    }

    /// A line that is answered has a sheet, which calculator and reader accept.
    #[test]
    fn answered_lines_pass_the_calculator() {
        for line in surveys().iter().filter_map(|survey| survey.line().ok()) {
            let mut bytes = [0; 706];
            let length = sheet::write(2, &line, &mut bytes).unwrap();
            assert_eq!(sheet::line_of(&bytes[..length]), Ok(line.clone()));
            assert!(stations::stations(&line, &mut [0; 257]).is_ok());
        }
    }
}
