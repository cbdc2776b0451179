//! A road's profile in numbers, as the library takes it.

pub mod field;
pub mod text;
pub mod words;

use pokyandi::profile::{vertex, GRADE, HEIGHT, SPEED, START};
use pokyandi::{Refusal, HEIGHT_NUMBERS};

/// The numbers of a profile, in the order of the library; they need not be in range.
#[derive(Clone, Debug, PartialEq, Eq)]
pub struct Profile {
    pub numbers: Vec<i64>,
}

/// A vertex with its curve, mm, between two grades, millionths.
#[derive(Clone, Copy, Debug, PartialEq, Eq)]
pub struct Vertex {
    pub station: i64,
    pub grade_in: i64,
    pub grade_out: i64,
    pub length: i64,
}

impl Profile {
    /// The height at a station, mm, or the first refusal.
    pub fn height(&self, station: u64) -> Result<i64, Refusal> {
        let mut height = [0; HEIGHT_NUMBERS];
        pokyandi::height(&self.numbers, station, &mut height)?;
        Ok(height[0])
    }

    /// The first refusal, whatever the station: the start is always one of the
    /// profile's.
    pub fn check(&self) -> Result<(), Refusal> {
        self.height(self.start().try_into().unwrap_or(0)).map(drop)
    }

    pub fn vertex_count(&self) -> usize {
        (self.numbers.len() - vertex(1)) / (vertex(2) - vertex(1))
    }

    pub fn speed(&self) -> i64 {
        self.numbers[SPEED]
    }

    pub fn start(&self) -> i64 {
        self.numbers[START]
    }

    pub fn start_height(&self) -> i64 {
        self.numbers[HEIGHT]
    }

    /// Grade i, which goes out of vertex i; 0 is the first one.
    pub fn grade(&self, i: usize) -> i64 {
        match i {
            0 => self.numbers[GRADE],
            i => self.numbers[vertex(i) + pokyandi::vertex::GRADE],
        }
    }

    /// Vertex i, 1 to n.
    pub fn vertex(&self, i: usize) -> Vertex {
        let numbers = &self.numbers[vertex(i)..];
        Vertex {
            station: numbers[pokyandi::vertex::STATION],
            grade_in: self.grade(i - 1),
            grade_out: self.grade(i),
            length: numbers[pokyandi::vertex::LENGTH],
        }
    }

    /// The profile with another number at this index.
    pub fn with(&self, index: usize, number: i64) -> Profile {
        let mut profile = self.clone();
        profile.numbers[index] = number;
        profile
    }
}

impl Vertex {
    /// Where its curve begins; the vertex stands above or below the middle of it.
    pub fn begin(self) -> i64 {
        self.station - self.length / 2
    }

    /// Where its curve ends.
    pub fn end(self) -> i64 {
        self.station + self.length / 2
    }

    /// The incoming grade less the outgoing one.
    pub fn difference(self) -> i64 {
        self.grade_in - self.grade_out
    }

    pub fn kind(self) -> &'static str {
        match self.difference() {
            1.. => "crest",
            0 => "curve",
            _ => "sag",
        }
    }

    /// The station of the highest or lowest point, where the grade passes zero inside
    /// the curve, to the nearest mm. The parabola falls or rises alike on both sides
    /// of that point, so no other whole mm of the curve is higher, or lower.
    pub fn extreme(self) -> Option<i64> {
        let passes_zero = self.grade_in.signum() * self.grade_out.signum() < 0;
        let [rise, fall] = [self.grade_in, self.difference()].map(i64::abs);
        passes_zero.then(|| self.begin() + (2 * rise * self.length + fall) / (2 * fall))
    }
}

/// A level profile with one vertex, which is accepted.
#[rustfmt::skip]
pub fn example() -> Profile {
    Profile { numbers: vec![60, 0, 0, 0, 100_000_000, 0, 2_000] }
}

#[cfg(test)]
mod tests {
    use super::*;

    /// A profile of one vertex at 1 km, at 40 km/h.
    fn vertex_of(grade_in: i64, grade_out: i64, length: i64) -> (Profile, Vertex) {
        let numbers = vec![40, 0, 0, grade_in, 1_000_000, grade_out, length];
        let profile = Profile { numbers };
        let vertex = profile.vertex(1);
        (profile, vertex)
    }

    #[test]
    fn numbers_of_a_profile() {
        assert_eq!(example().check(), Ok(()));
        let (profile, vertex) = vertex_of(42_500, -60_000, 120_000);
        assert_eq!((profile.vertex_count(), profile.grade(0)), (1, 42_500));
        assert_eq!((vertex.begin(), vertex.end()), (940_000, 1_060_000));
        assert_eq!((vertex.difference(), vertex.kind()), (102_500, "crest"));
        assert_eq!(vertex_of(-1, 0, 2).1.kind(), "sag");
        assert_eq!(vertex_of(5, 5, 2).1.kind(), "curve");
    }

    #[test]
    fn no_whole_mm_is_higher_or_lower_than_the_extreme() {
        for (grade_in, grade_out, length) in [
            (42_500, -60_000, 120_000),
            (-35_000, 42_500, 80_000),
            (1, -120_000, 500_000),
            (-120_000, 1, 500_000),
            (7, -13, 1_998),
        ] {
            let (profile, vertex) = vertex_of(grade_in, grade_out, length);
            let height = |station: i64| profile.height(station as u64).unwrap();
            let extreme = vertex.extreme().unwrap();
            assert!((vertex.begin()..=vertex.end()).contains(&extreme));
            let heights = (vertex.begin()..=vertex.end()).map(height);
            let most = match vertex.kind() {
                "crest" => heights.max(),
                _ => heights.min(),
            };
            assert_eq!(Some(height(extreme)), most, "{vertex:?}");
        }
    }

    #[test]
    fn no_extreme_where_the_grade_does_not_pass_zero() {
        for (grade_in, grade_out) in [(0, -1), (1, 0), (0, 0), (1, 2), (-2, -1), (5, 5)] {
            assert_eq!(vertex_of(grade_in, grade_out, 2_000).1.extreme(), None);
        }
    }
}
