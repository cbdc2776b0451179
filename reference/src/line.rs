//! A line and the ranges of its fields (document 01, The line).

use crate::curve::Curve;
use crate::edition::SECOND;
use crate::elements;
use crate::refusal::{refuse, Refusal};
use crate::road_tables::DesignSpeed;
use std::ops::RangeInclusive;

/// Most curves of a line.
pub const MOST_CURVES: usize = 64;
/// Greatest superelevation e, percent.
pub const CROSSFALLS: RangeInclusive<u32> = 2..=12;
/// Greatest start station, mm: that of a sheet's last edition (document 02, Roads
/// past kilometre 200).
pub const GREATEST_START: u32 = SECOND.greatest_start;
/// Greatest distance, mm.
pub const GREATEST_DISTANCE: u32 = 20_000_000;

/// The side to which a curve turns, a field of two values only.
pub const RIGHT: u32 = 0;
pub const LEFT: u32 = 1;

/// A line, its fields in range or not. Distances and curves beyond the n-th
/// curve are unused entries.
#[derive(Clone, Debug, PartialEq, Eq)]
pub struct Line {
    /// Design speed V, km/h.
    pub v: u32,
    /// Greatest superelevation e, percent.
    pub e: u32,
    /// Start station, mm.
    pub start: u32,
    /// Number of curves.
    pub n: u32,
    /// Distances, mm: start to PI 1, PI to PI, last PI to end.
    pub distances: [u32; MOST_CURVES + 1],
    /// Sides of the curves.
    pub sides: [u32; MOST_CURVES],
    /// The curves; curve 1 stands first.
    pub curves: [Curve; MOST_CURVES],
}

impl Line {
    /// A line without curves, all its numbers zero.
    pub fn blank() -> Line {
        Line {
            v: 0,
            e: 0,
            start: 0,
            n: 0,
            distances: [0; MOST_CURVES + 1],
            sides: [RIGHT; MOST_CURVES],
            curves: [Curve::new(0, 0, 0); MOST_CURVES],
        }
    }

    /// The line of these fields, all curves to the right and the unused entries
    /// zero.
    pub fn new(v: u32, e: u32, start: u32, distances: &[u32], curves: &[Curve]) -> Line {
        let mut line = Line {
            v,
            e,
            start,
            n: u32::try_from(curves.len()).expect("a line has few curves"),
            ..Line::blank()
        };
        line.distances[..distances.len()].copy_from_slice(distances);
        line.curves[..curves.len()].copy_from_slice(curves);
        line
    }

    /// Document 01's case 1.
    pub fn case_1() -> Line {
        let curve = Curve::new(177_764, 350_000, 40_000);
        Line::new(70, 8, 0, &[500_000, 400_000], &[curve])
    }

    /// Document 01's case 9.
    pub fn case_9() -> Line {
        Line::new(70, 8, 0, &[500_000], &[])
    }

    /// n, as a number of entries.
    pub fn curve_count(&self) -> usize {
        usize::try_from(self.n).expect("32 bits fit")
    }

    /// Curve i, from 1 to n.
    pub fn curve(&self, i: usize) -> Curve {
        self.curves[i - 1]
    }

    /// The design speed, or refusal 4.
    pub fn speed(&self) -> Result<DesignSpeed, Refusal> {
        DesignSpeed::of(self.v).map_or(refuse(4, 0), Ok)
    }

    /// Checks 3 to 6, then 8 to 11 in sheet order (document 01, Refusal table,
    /// Order); the start is held against the greatest one given.
    pub fn check_ranges(&self, greatest_start: u32) -> Result<(), Refusal> {
        self.check_heading(greatest_start)?;
        self.check_entries()
    }

    /// Checks 3 to 6.
    pub fn check_heading(&self, greatest_start: u32) -> Result<(), Refusal> {
        if self.curve_count() > MOST_CURVES {
            return refuse(3, 0);
        }
        self.speed()?;
        if !CROSSFALLS.contains(&self.e) {
            return refuse(5, 0);
        }
        if self.start > greatest_start {
            return refuse(6, 0);
        }
        Ok(())
    }

    /// Checks 8 to 11 in sheet order, n being in range.
    pub fn check_entries(&self) -> Result<(), Refusal> {
        self.check_distance(0)?;
        for i in 1..=self.curve_count() {
            self.check_curve(i)?;
            self.check_distance(i)?;
        }
        Ok(())
    }

    /// Check 8 of distance i, from 0 to n.
    fn check_distance(&self, i: usize) -> Result<(), Refusal> {
        if !(1..=GREATEST_DISTANCE).contains(&self.distances[i]) {
            return refuse(8, i);
        }
        Ok(())
    }

    /// Checks 9, 10 and 11 of curve i, from 1 to n. A side that is none of the
    /// two is refused like a deflection out of its range.
    fn check_curve(&self, i: usize) -> Result<(), Refusal> {
        if ![RIGHT, LEFT].contains(&self.sides[i - 1]) {
            return refuse(9, i);
        }
        let Curve { a, r, l } = self.curve(i);
        elements::check_ranges(a, r, l).map_err(|refusal| refusal.at(i))
    }
}

#[cfg(test)]
mod tests {
    use super::*;

    const MOST: u32 = u32::MAX;

    /// A line of `n` curves with every field at its greatest.
    fn greatest(n: usize) -> Line {
        let curves = vec![Curve::new(432_000, 5_000_000, 500_000); n];
        Line::new(120, 12, 4_000_000_000, &vec![20_000_000; n + 1], &curves)
    }

    #[test]
    fn ends_of_the_ranges_pass() {
        for n in [0, 1, 2, 64] {
            assert_eq!(greatest(n).check_ranges(GREATEST_START), Ok(()));
        }
        let least = Line::new(40, 2, 0, &[1, 1], &[Curve::new(1, 20_000, 0)]);
        assert_eq!(least.check_ranges(GREATEST_START), Ok(()));
    }

    #[test]
    fn heading_is_checked_in_order() {
        let mut line = Line {
            v: 45,
            e: 1,
            start: 4_000_000_001,
            n: 65,
            ..Line::blank()
        };
        assert_eq!(line.check_ranges(GREATEST_START), refuse(3, 0));
        line.n = MOST;
        assert_eq!(line.check_ranges(GREATEST_START), refuse(3, 0));
        line.n = 64;
        assert_eq!(line.check_ranges(GREATEST_START), refuse(4, 0));
        line.v = 40;
        assert_eq!(line.check_ranges(GREATEST_START), refuse(5, 0));
        line.e = 13;
        assert_eq!(line.check_ranges(GREATEST_START), refuse(5, 0));
        line.e = 12;
        assert_eq!(line.check_ranges(GREATEST_START), refuse(6, 0));
        line.start = 4_000_000_000;
        assert_eq!(line.check_ranges(GREATEST_START), refuse(8, 0));
    }

    #[test]
    fn start_is_held_against_the_greatest_given() {
        for greatest_start in [200_000_000, 4_000_000_000] {
            let mut line = greatest(1);
            line.start = greatest_start;
            assert_eq!(line.check_ranges(greatest_start), Ok(()));
            line.start += 1;
            assert_eq!(line.check_ranges(greatest_start), refuse(6, 0));
        }
    }

    #[test]
    fn entries_are_checked_in_sheet_order() {
        let mut line = greatest(2);
        line.distances[..3].copy_from_slice(&[0, 20_000_001, MOST]);
        line.curves[..2].fill(Curve::new(0, 19_999, 500_001));
        for i in 0..=2 {
            assert_eq!(line.check_ranges(GREATEST_START), refuse(8, i));
            line.distances[i] = 1;
            if i == 2 {
                break;
            }
            assert_eq!(line.check_ranges(GREATEST_START), refuse(9, i + 1));
            line.curves[i].a = 1;
            assert_eq!(line.check_ranges(GREATEST_START), refuse(10, i + 1));
            line.curves[i].r = 20_000;
            assert_eq!(line.check_ranges(GREATEST_START), refuse(11, i + 1));
            line.curves[i].l = 20_000;
        }
        assert_eq!(line.check_ranges(GREATEST_START), Ok(()));
    }

    #[test]
    fn sides_have_two_values() {
        let mut line = greatest(2);
        for side in [0, 1] {
            line.sides[1] = side;
            assert_eq!(line.check_ranges(GREATEST_START), Ok(()));
        }
        for side in [2, 3, MOST] {
            line.sides[1] = side;
            assert_eq!(line.check_ranges(GREATEST_START), refuse(9, 2));
        }
        line.curves[1].r = 0;
        assert_eq!(line.check_ranges(GREATEST_START), refuse(9, 2));
        line.distances[1] = 0;
        assert_eq!(line.check_ranges(GREATEST_START), refuse(8, 1));
        line.sides[0] = 2;
        assert_eq!(line.check_ranges(GREATEST_START), refuse(9, 1));
        line.start = MOST;
        assert_eq!(line.check_ranges(GREATEST_START), refuse(6, 0));
    }

    #[test]
    fn last_entries_of_a_full_line() {
        let mut line = greatest(64);
        line.distances[64] = 0;
        assert_eq!(line.check_ranges(GREATEST_START), refuse(8, 64));
        line.curves[63].l = 500_001;
        assert_eq!(line.check_ranges(GREATEST_START), refuse(11, 64));
    }
}
