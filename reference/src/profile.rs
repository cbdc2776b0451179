//! The profile: grades and vertical curves, in the words of document 02, Grades
//! and vertical curves. All work is in `i128`, so that no step can overflow.

use crate::lent::fill;
use crate::refusal::{refuse, Refusal};
use crate::sight::{is_long_enough, stopping_distance};
use std::ops::RangeInclusive;

/// How many vertices a profile may have.
pub const MOST_VERTICES: usize = 32;
/// Stations of start, vertices and heights, mm.
pub const STATIONS: RangeInclusive<i64> = 0..=200_000_000;
/// Greatest height of the start either way, mm.
pub const GREATEST_HEIGHT: i64 = 10_000_000;
/// Greatest grade either way, millionths.
pub const GREATEST_GRADE: i64 = 120_000;
/// Greatest length of a curve, mm.
pub const GREATEST_LENGTH: i64 = 2_000_000;

/// Numbers before the vertices, and of each vertex.
const OF_THE_HEAD: usize = 4;
const OF_A_VERTEX: usize = 3;

/// Millionths of a mm in a mm.
const MILLION: i128 = 1_000_000;

#[derive(Clone, Debug, PartialEq, Eq)]
pub struct Profile {
    /// Design speed V, km/h.
    pub v: i64,
    /// Start station, mm.
    pub start: i64,
    /// Height of the start, mm.
    pub height: i64,
    /// First grade, millionths.
    pub grade: i64,
    pub vertices: Vec<Vertex>,
}

/// A vertex and its curve, half of which lies before it.
#[derive(Clone, Copy, Debug, PartialEq, Eq)]
pub struct Vertex {
    /// mm.
    pub station: i64,
    /// Of the outgoing grade, millionths.
    pub grade: i64,
    /// Of the curve, mm.
    pub length: i64,
}

/// Writes the height, mm, at the front of the lent numbers and returns the count 1.
/// Refuses as [`Profile::of_numbers`] and [`Profile::height_at`] do, then 16, and
/// leaves the numbers as they are.
pub fn height(numbers: &[i64], station: u64, lent: &mut [i64]) -> Result<usize, Refusal> {
    let profile = Profile::of_numbers(numbers)?;
    fill(lent, &[profile.height_at(station)?])
}

/// How many numbers a profile of `n` vertices has.
pub const fn number_count(n: usize) -> usize {
    OF_THE_HEAD + OF_A_VERTEX * n
}

impl Profile {
    /// V, start, start height and first grade, then station, grade and length of
    /// each vertex.
    pub fn numbers(&self) -> Vec<i64> {
        let mut numbers = vec![self.v, self.start, self.height, self.grade];
        for vertex in &self.vertices {
            numbers.extend([vertex.station, vertex.grade, vertex.length]);
        }
        numbers
    }

    /// The profile with these numbers, in range or not; refusal 3 for any count but
    /// 4 + 3 × n.
    pub fn of_numbers(numbers: &[i64]) -> Result<Profile, Refusal> {
        let &[v, start, height, grade, ref vertices @ ..] = numbers else {
            return refuse(3, 0);
        };
        if !vertices.len().is_multiple_of(OF_A_VERTEX) {
            return refuse(3, 0);
        }
        let vertices = vertices.chunks_exact(OF_A_VERTEX).map(|three| Vertex {
            station: three[0],
            grade: three[1],
            length: three[2],
        });
        Ok(Profile {
            v,
            start,
            height,
            grade,
            vertices: vertices.collect(),
        })
    }

    /// The height at a station, mm, "rounded once, toward minus infinity". Refuses
    /// as [`Profile::check`] does, then "last with 17 a height asked outside the
    /// start and 200,000,000".
    pub fn height_at(&self, station: u64) -> Result<i64, Refusal> {
        self.check()?;
        match i64::try_from(station) {
            Ok(station) if (self.start..=*STATIONS.end()).contains(&station) => {
                let (upper, lower) = self.exact_height(station);
                Ok(i64::try_from(upper.div_euclid(lower)).expect("a height is small"))
            }
            _ => refuse(17, 0),
        }
    }

    /// The checks in their order: 3, 4 and 6, then in a pass each over the vertices
    /// 22, 21 and 23.
    pub fn check(&self) -> Result<(), Refusal> {
        if self.vertices.len() > MOST_VERTICES {
            return refuse(3, 0);
        }
        let Some(sight) = stopping_distance(self.v) else {
            return refuse(4, 0);
        };
        self.check_ranges()?;
        self.check_grades()?;
        self.check_curves()?;
        self.check_sight(sight)
    }

    /// "With 6 a station or the height outside its range."
    fn check_ranges(&self) -> Result<(), Refusal> {
        let mut stations = self.vertices.iter().map(|vertex| vertex.station);
        let heights = -GREATEST_HEIGHT..=GREATEST_HEIGHT;
        let in_range = STATIONS.contains(&self.start)
            && stations.all(|station| STATIONS.contains(&station))
            && heights.contains(&self.height);
        if in_range {
            Ok(())
        } else {
            refuse(6, 0)
        }
    }

    /// The first grade, then the outgoing grade of each vertex.
    pub fn grades(&self) -> Vec<i64> {
        let of_vertices = self.vertices.iter().map(|vertex| vertex.grade);
        [self.grade].into_iter().chain(of_vertices).collect()
    }

    /// "With 22 a grade beyond 120,000 either way", the place being the vertex, "0
    /// for the first grade".
    fn check_grades(&self) -> Result<(), Refusal> {
        let grades = -GREATEST_GRADE..=GREATEST_GRADE;
        match self
            .grades()
            .iter()
            .position(|grade| !grades.contains(grade))
        {
            Some(place) => refuse(22, place),
            None => Ok(()),
        }
    }

    /// "With 21 a curve length that is odd, zero, above 2,000,000 or reaching past
    /// the curve before it or the profile's start."
    fn check_curves(&self) -> Result<(), Refusal> {
        let mut free_from = self.start;
        for (i, vertex) in self.vertices.iter().enumerate() {
            let in_range = (1..=GREATEST_LENGTH).contains(&vertex.length);
            if !in_range || vertex.length % 2 != 0 || vertex.begin() < free_from {
                return refuse(21, i + 1);
            }
            free_from = vertex.end();
        }
        Ok(())
    }

    /// "With 23 a curve shorter than sight needs."
    fn check_sight(&self, sight: i128) -> Result<(), Refusal> {
        let grades = self.grades();
        for (i, vertex) in self.vertices.iter().enumerate() {
            let g = i128::from(grades[i]) - i128::from(vertex.grade);
            if !is_long_enough(i128::from(vertex.length), g, sight) {
                return refuse(23, i + 1);
            }
        }
        Ok(())
    }

    /// Heights of start and vertices, "carried exactly in millionths of a mm": those
    /// of the straight grades, the curves left out.
    pub fn vertex_heights(&self) -> Vec<i128> {
        let mut height = MILLION * i128::from(self.height);
        let mut heights = vec![height];
        let mut station = self.start;
        for (vertex, grade) in self.vertices.iter().zip(self.grades()) {
            height += i128::from(grade) * i128::from(vertex.station - station);
            heights.push(height);
            station = vertex.station;
        }
        heights
    }

    /// The exact height at a station of an accepted profile, mm: a whole number over
    /// a whole number above zero.
    pub fn exact_height(&self, station: i64) -> (i128, i128) {
        let curves = self.vertices.iter();
        let within = |vertex: &&Vertex| (vertex.begin()..=vertex.end()).contains(&station);
        match curves.enumerate().find(|(_, vertex)| within(vertex)) {
            Some((i, vertex)) => self.height_on_curve(i, vertex, station),
            None => self.height_on_grade(station),
        }
    }

    /// "The height at its beginning + i1 × x − g × x² / (2 × length)": all over
    /// 2 × length, in millionths.
    fn height_on_curve(&self, i: usize, vertex: &Vertex, station: i64) -> (i128, i128) {
        let i1 = i128::from(self.grades()[i]);
        let g = i1 - i128::from(vertex.grade);
        let length = i128::from(vertex.length);
        let x = i128::from(station - vertex.begin());
        let beginning = self.vertex_heights()[i + 1] - i1 * (length / 2);
        let upper = (beginning + i1 * x) * (2 * length) - g * x * x;
        (upper, 2 * length * MILLION)
    }

    /// From the start or the last vertex before the station.
    fn height_on_grade(&self, station: i64) -> (i128, i128) {
        let stations = self.vertices.iter().map(|vertex| vertex.station);
        let stations: Vec<i64> = [self.start].into_iter().chain(stations).collect();
        let last = stations.iter().rposition(|before| *before <= station);
        let last = last.expect("no station lies before the start");
        let way = i128::from(station - stations[last]);
        let height = self.vertex_heights()[last] + i128::from(self.grades()[last]) * way;
        (height, MILLION)
    }
}

impl Vertex {
    /// Where its curve begins and where it ends, mm; its length is in range.
    pub fn begin(&self) -> i64 {
        self.station - self.length / 2
    }

    pub fn end(&self) -> i64 {
        self.station + self.length / 2
    }
}

#[cfg(test)]
mod tests {
    use super::*;
    use crate::samples::dice::Dice;
    use crate::samples::profiles::random_profile;

    /// 2 % up, then 3 % down, on a curve of 100 m whose vertex lies at 200 m.
    const CREST: [i64; 7] = [40, 0, 100_000, 20_000, 200_000, -30_000, 100_000];
    /// Level, then 1 % down, below zero.
    const DIP: [i64; 7] = [40, 0, 0, 0, 10_000, -10_000, 20_000];

    /// The answer with room for one number.
    fn found(numbers: &[i64], station: u64) -> Result<i64, Refusal> {
        let mut lent = [7];
        height(numbers, station, &mut lent).map(|_| lent[0])
    }

    fn check_heights(numbers: &[i64], expected: &[(u64, i64)]) {
        for (station, height) in expected {
            assert_eq!(found(numbers, *station), Ok(*height), "{station}");
        }
    }

    /// By hand: the curve begins at 103 m and ends at 102.5 m; under the vertex, at
    /// 104 m, it lies 0.05 × 100 / 8 = 0.625 m lower; it is highest 40 m behind its
    /// beginning. 50 mm behind it the exact height is 103,000.999375 mm.
    #[test]
    fn heights_of_a_crest() {
        check_heights(
            &CREST,
            &[
                (0, 100_000),
                (49, 100_000),
                (50, 100_001),
                (149_999, 102_999),
                (150_000, 103_000),
                (150_050, 103_000),
                (150_051, 103_001),
                (190_000, 103_400),
                (200_000, 103_375),
                (250_000, 102_500),
                (250_001, 102_499),
                (300_000, 101_000),
                (200_000_000, -5_890_000),
            ],
        );
    }

    /// By hand: x mm behind the beginning the height is -x² / 4,000,000 mm.
    #[test]
    fn heights_below_zero_are_rounded_down() {
        check_heights(
            &DIP,
            &[
                (0, 0),
                (1, -1),
                (2_000, -1),
                (2_001, -2),
                (20_000, -100),
                (20_001, -101),
                (20_100, -101),
            ],
        );
        let level_at_first = [40, 0, 0, -1];
        check_heights(
            &level_at_first,
            &[
                (0, 0),
                (1, -1),
                (500_000, -1),
                (1_000_000, -1),
                (1_000_001, -2),
            ],
        );
    }

    /// Half a millionth of a mm would be lost at every vertex; here 0.5 mm would.
    #[test]
    fn heights_of_vertices_are_not_rounded() {
        let numbers = [40, 0, 0, 1, 500_000, 1, 2, 1_100_000, 1, 2];
        check_heights(&numbers, &[(999_999, 0), (1_000_000, 1), (2_000_000, 2)]);
    }

    /// The curve's two formulas and the straight grades beside it meet.
    #[test]
    fn ends_of_curves_lie_on_the_grades() {
        let mut dice = Dice::new(1);
        for n in (0..=MOST_VERTICES).cycle().take(400) {
            let profile = random_profile(&mut dice, n);
            let heights = profile.vertex_heights();
            for (i, vertex) in profile.vertices.iter().enumerate() {
                let grades = [profile.grades()[i], vertex.grade].map(i128::from);
                let half = i128::from(vertex.length / 2);
                let ends = [
                    heights[i + 1] - grades[0] * half,
                    heights[i + 1] + grades[1] * half,
                ];
                for (station, end) in [vertex.begin(), vertex.end()].into_iter().zip(ends) {
                    let (upper, lower) = profile.height_on_curve(i, vertex, station);
                    assert_eq!(upper * MILLION, end * lower);
                }
                // A curve lies within its grades, by g × length / 8 at the vertex.
                let (upper, lower) = profile.height_on_curve(i, vertex, vertex.station);
                let below = (grades[0] - grades[1]) * half;
                assert_eq!(
                    4 * (heights[i + 1] * lower - upper * MILLION),
                    below * lower
                );
            }
        }
    }

    /// One fault after the other is put right, without room and with it.
    #[test]
    fn refusals_in_order() {
        let mut numbers = [41, -1, 0, 120_001, 99, -120_001, 99, 100, 0, 2, 0].to_vec();
        let mut station = u64::MAX;
        let mut check = |number, place, edit: fn(&mut Vec<i64>, &mut u64)| {
            for room in [0, 1, 3] {
                let mut lent = vec![7; room];
                let answer = height(&numbers, station, &mut lent);
                assert_eq!(answer, refuse(number, place), "{numbers:?}");
                assert_eq!(lent, vec![7; room]);
            }
            edit(&mut numbers, &mut station);
        };
        check(3, 0, |numbers, _| numbers.truncate(10));
        check(4, 0, |numbers, _| numbers[0] = 40);
        check(6, 0, |numbers, _| numbers[1] = 50);
        check(22, 0, |numbers, _| numbers[3] = 120_000);
        check(22, 1, |numbers, _| numbers[5] = -120_000);
        check(21, 1, |numbers, _| numbers[6] = 98);
        check(21, 2, |numbers, _| numbers[7] = 149);
        check(23, 1, |numbers, _| {
            numbers[4..7].copy_from_slice(&[60_050, 120_000, 120_000])
        });
        check(21, 2, |numbers, _| numbers[7] = 120_051);
        check(23, 2, |numbers, _| numbers[8] = 119_999);
        check(17, 0, |_, station| *station = 49);
        check(17, 0, |_, station| *station = 200_000_001);
        check(17, 0, |_, station| *station = 50);
        assert_eq!(height(&numbers, station, &mut []), refuse(16, 0));
        let mut lent = [7; 2];
        assert_eq!(height(&numbers, station, &mut lent), Ok(1));
        assert_eq!(lent, [0, 7]);
    }

    #[test]
    fn counts() {
        for count in 0..=120 {
            let numbers: Vec<i64> = CREST[..4]
                .iter()
                .copied()
                .chain((1..40).flat_map(|i| [10 * i, 20_000, 2]))
                .take(count)
                .collect();
            let whole = count >= 4 && count % 3 == 1 && count <= 100;
            let expected = if whole { Ok(100_000) } else { refuse(3, 0) };
            assert_eq!(found(&numbers, 0), expected, "{count}");
        }
    }

    #[test]
    fn numbers_come_back() {
        let profile = Profile::of_numbers(&CREST).unwrap();
        assert_eq!(profile.vertices.len(), 1);
        assert_eq!(profile.numbers(), CREST);
        assert_eq!(profile.grades(), [20_000, -30_000]);
        assert_eq!(number_count(1), CREST.len());
    }
}
