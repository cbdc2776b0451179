//! The stations of a line (document 01, Refusal table and Working rule).

use crate::curve::Curve;
use crate::elements::{arc, check_arc, working_rule};
use crate::lent::fill;
use crate::line::{Line, GREATEST_START};
use crate::refusal::{refuse, Refusal};

/// Least straight, µm (document 01, Refusal table, 15).
pub const LEAST_STRAIGHT: i128 = 1_000;

/// The calculator: writes TS, SC, CS, ST of each curve, then the end, at the
/// front of the row, in µm, and returns their count 4 × n + 1. A refusal leaves
/// the row as it is.
pub fn stations(line: &Line, row: &mut [u64]) -> Result<usize, Refusal> {
    check(line)?;
    let points = points(line);
    fill(row, &points)
}

/// The calculator's checks but 16: 3 to 6, 8 to 11 in sheet order, then 12 to 14
/// curve by curve, then 15.
pub fn check(line: &Line) -> Result<(), Refusal> {
    line.check_ranges(GREATEST_START)?;
    check_curves(line)?;
    check_straights(line)
}

/// Checks 12, 13 and 14, curve by curve.
fn check_curves(line: &Line) -> Result<(), Refusal> {
    (1..=line.curve_count()).try_for_each(|i| check_curve(line, i))
}

/// Checks 12, 13 and 14 of curve i.
fn check_curve(line: &Line, i: usize) -> Result<(), Refusal> {
    let speed = line.speed()?;
    let Curve { a, r, l } = line.curve(i);
    if !speed.reaches_least_radius(line.e, r) {
        return refuse(12, i);
    }
    if !speed.reaches_least_spiral(r, l) {
        return refuse(13, i);
    }
    check_arc(a, r, l).map_err(|refusal| refusal.at(i))
}

/// Check 15, by ascending distance.
fn check_straights(line: &Line) -> Result<(), Refusal> {
    for i in 0..=line.curve_count() {
        if straight(line, i) < LEAST_STRAIGHT {
            return refuse(15, i);
        }
    }
    Ok(())
}

/// Straight i, from 0 to n: its distance less the TT of the curves at its ends.
/// It may be below zero.
pub fn straight(line: &Line, i: usize) -> i128 {
    micrometres(line.distances[i]) - tangents(line, i)
}

/// TT of the curves at the ends of straight i, together.
pub fn tangents(line: &Line, i: usize) -> i128 {
    tangent(line, i) + tangent(line, i + 1)
}

/// TT of curve i; 0 where there is no curve, at the start and the end.
fn tangent(line: &Line, i: usize) -> i128 {
    if i == 0 || i > line.curve_count() {
        return 0;
    }
    let Curve { a, r, l } = line.curve(i);
    working_rule(a, r, l).tt
}

/// The stations of a line that passes its checks.
fn points(line: &Line) -> Vec<u64> {
    let mut points = Vec::new();
    let mut former_st = micrometres(line.start);
    for i in 1..=line.curve_count() {
        let Curve { a, r, l } = line.curve(i);
        let ts = former_st + straight(line, i - 1);
        let sc = ts + micrometres(l);
        let cs = sc + arc(a, r, l);
        let st = cs + micrometres(l);
        points.extend([ts, sc, cs, st].map(station));
        former_st = st;
    }
    let end = former_st + straight(line, line.curve_count());
    points.push(station(end));
    points
}

/// From mm to µm.
pub fn micrometres(length: u32) -> i128 {
    1_000 * i128::from(length)
}

/// A station as a number of the row.
pub fn station(length: i128) -> u64 {
    u64::try_from(length).expect("a station is above zero and far below 2⁶⁴")
}

#[cfg(test)]
mod tests {
    use super::*;
    use crate::line::LEFT;

    const MOST: u32 = u32::MAX;
    const CASE_1: [u64; 5] = [
        319_010_720,
        359_010_720,
        620_649_187,
        660_649_187,
        879_659_907,
    ];

    /// The answer, and the row of `room` numbers after the call; before it,
    /// each is 7.
    fn call(line: &Line, room: usize) -> (Result<usize, Refusal>, Vec<u64>) {
        let mut row = vec![7; room];
        (stations(line, &mut row), row)
    }

    fn check_refused(line: &Line, number: u8, place: usize) {
        for room in [0, 300] {
            assert_eq!(call(line, room), (refuse(number, place), vec![7; room]));
        }
    }

    fn with_first_distance(distance: u32) -> Line {
        let mut line = Line::case_1();
        line.distances[0] = distance;
        line
    }

    fn with_curve(curve: Curve) -> Line {
        let mut line = Line::case_1();
        line.curves[0] = curve;
        line
    }

    /// Case 1's curve `n` times, all distances 400,000.
    fn equal_curves(n: usize) -> Line {
        let curves = vec![Line::case_1().curve(1); n];
        Line::new(70, 8, 0, &vec![400_000; n + 1], &curves)
    }

    #[test]
    fn case_1() {
        assert_eq!(call(&Line::case_1(), 5), (Ok(5), CASE_1.to_vec()));
    }

    #[test]
    fn cases_2_and_3() {
        let line = with_first_distance(180_991);
        assert_eq!(straight(&line, 0), 1_720);
        let (count, row) = call(&line, 5);
        assert_eq!((count, row[0]), (Ok(5), 1_720));
        check_refused(&with_first_distance(180_990), 15, 0);
    }

    #[test]
    fn case_4() {
        check_refused(&with_curve(Curve::new(177_764, 350_000, 39_999)), 13, 1);
    }

    #[test]
    fn case_5() {
        let (count, _) = call(&with_curve(Curve::new(177_764, 167_751, 0)), 5);
        assert_eq!(count, Ok(5));
        check_refused(&with_curve(Curve::new(177_764, 167_750, 0)), 12, 1);
    }

    #[test]
    fn cases_6_to_8() {
        assert!(call(&with_curve(Curve::new(23_574, 350_000, 40_000)), 5)
            .0
            .is_ok());
        check_refused(&with_curve(Curve::new(23_573, 350_000, 40_000)), 14, 1);
        assert!(call(&with_curve(Curve::new(1, 350_000, 0)), 5).0.is_ok());
        check_refused(&with_curve(Curve::new(1, 200_000, 0)), 14, 1);
    }

    #[test]
    fn case_9() {
        assert_eq!(call(&Line::case_9(), 2), (Ok(1), vec![500_000_000, 7]));
    }

    #[test]
    fn start_moves_every_station() {
        let line = Line {
            start: 4_000_000_000,
            ..Line::case_1()
        };
        let moved = CASE_1.map(|station| station + 4_000_000_000_000);
        assert_eq!(call(&line, 5), (Ok(5), moved.to_vec()));
        let start = 4_000_000_001;
        check_refused(&Line { start, ..line }, 6, 0);
    }

    #[test]
    fn second_curve_follows_the_first() {
        let (count, row) = call(&equal_curves(2), 9);
        let [tangent, spiral, arc] = [180_989_280, 40_000_000, 261_638_467];
        let middle = 400_000_000 - 2 * tangent;
        assert_eq!(count, Ok(9));
        assert_eq!(row[0], 400_000_000 - tangent);
        assert_eq!(row[3], row[0] + 2 * spiral + arc);
        assert_eq!(row[4], row[3] + middle);
        assert_eq!(row[5], row[4] + spiral);
        assert_eq!(row[6], row[5] + arc);
        assert_eq!(row[7], row[6] + spiral);
        assert_eq!(row[8], row[7] + 400_000_000 - tangent);
    }

    #[test]
    fn full_line() {
        let mut line = equal_curves(64);
        let (count, row) = call(&line, 300);
        assert_eq!(count, Ok(257));
        // All distances, and for each curve its length less two TT.
        let turn = 2 * 40_000_000 + 261_638_467;
        let end = 65 * 400_000_000 + 64 * turn - 64 * 2 * 180_989_280;
        assert_eq!(row[256], end);
        assert_eq!(row[257..], [7; 43]);

        line.distances[64] = 180_990;
        check_refused(&line, 15, 64);
        line.curves[63].l = 39_999;
        check_refused(&line, 13, 64);
        line.curves[63].r = 167_750;
        check_refused(&line, 12, 64);
    }

    #[test]
    fn curves_are_checked_one_by_one_before_the_straights() {
        let mut line = equal_curves(3);
        line.distances[..4].fill(1);
        line.curves[1] = Curve::new(1, 167_750, 1);
        line.curves[2] = Curve::new(1, 20_000, 1);
        check_refused(&line, 12, 2);
        line.curves[1].r = 200_000;
        check_refused(&line, 13, 2);
        line.curves[1].l = 0;
        check_refused(&line, 14, 2);
        line.curves[1].a = 2;
        check_refused(&line, 12, 3);
        line.curves[2] = line.curve(1);
        check_refused(&line, 15, 0);
        line.distances[0] = 400_000;
        check_refused(&line, 15, 1);
        line.curves[2].l = 500_001;
        check_refused(&line, 11, 3);
        line.distances[0] = 0;
        check_refused(&line, 8, 0);
    }

    #[test]
    fn short_row_is_refused_last() {
        for n in [0, 1, 2, 64] {
            let line = equal_curves(n);
            for room in [0, 4 * n] {
                assert_eq!(call(&line, room), (refuse(16, 0), vec![7; room]));
            }
            assert_eq!(call(&line, 4 * n + 1).0, Ok(4 * n + 1));
        }
        check_refused(&with_first_distance(180_990), 15, 0);
    }

    #[test]
    fn rest_of_the_row_is_untouched() {
        for room in [6, 7, 300] {
            let (count, row) = call(&Line::case_1(), room);
            assert_eq!(count, Ok(5));
            assert_eq!(row[..5], CASE_1);
            assert!(row[5..].iter().all(|number| *number == 7));
        }
    }

    #[test]
    fn unused_entries_and_sides_change_nothing() {
        let mut line = Line::case_1();
        line.sides.fill(LEFT);
        line.curves[1..].fill(Curve::new(MOST, 0, MOST));
        line.distances[2..].fill(MOST);
        assert_eq!(call(&line, 5), (Ok(5), CASE_1.to_vec()));
    }
}
