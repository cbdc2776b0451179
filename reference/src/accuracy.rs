//! How far the working rule lies from the exact values: rule minus exact, µm
//! (document 01, Working rule and Clerk's sums).
//!
//! What is exact: an element of the rule less 1,000 times the exact element is
//! worked as one fraction, and only this difference becomes a floating-point
//! number, right to 15 digits. The stations of both kinds are sums of the same
//! whole numbers and of elements, so that their differences are sums of the
//! elements' differences. While lines are searched these are added as
//! floating-point numbers, at most 192 of some hundred µm each, which costs less
//! than 10⁻⁸ µm; so are the exact straights and arcs, which are those of the
//! rule less the differences. [`LineRecord::settle`] then works what was kept
//! once more in fractions, stations from the calculator's own row, and only the
//! result becomes a floating-point number.

use crate::curve::Curve;
use crate::elements::{arc, working_rule, Elements};
use crate::exact::elements::{exact_arc, exact_elements};
use crate::exact::fraction::Fraction;
use crate::exact::stations::{exact_stations, exact_straights};
use crate::line::{Line, MOST_CURVES};
use crate::refusal::Refusal;
use crate::stations::{stations, straight};

/// The differences of one curve: X, Y, k, p, D, TT, and D − 2 TT, which the
/// curve adds to every station after it.
pub type Differences = [f64; 7];

/// Their names.
pub const NAMES: [&str; 7] = ["X", "Y", "k", "p", "D", "TT", "D - 2 TT"];
/// Bounds of the first six, µm (document 01, Clerk's sums; those of X and Y document
/// 02, Interchange ramps).
pub const BOUNDS: [f64; 6] = [3.0, 3.0, 30.0, 30.0, 6.0, 300.0];
/// Bound of a station for each curve up to it, µm (document 01, Clerk's sums).
pub const STATION_BOUND: f64 = 700.0;

/// Indexes of D, TT and D − 2 TT among the differences.
pub const D: usize = 4;
pub const TT: usize = 5;
pub const TURN: usize = 6;

/// Most stations of a line.
const MOST_STATIONS: usize = 4 * MOST_CURVES + 1;

/// The differences of a curve whose fields are in range.
pub fn curve_differences(curve: Curve) -> Differences {
    let Curve { a, r, l } = curve;
    let Elements { x, y, k, p, d, tt } = working_rule(a, r, l);
    let exact = exact_elements(curve);
    [
        difference(x, &exact.x),
        difference(y, &exact.y),
        difference(k, &exact.k),
        difference(p, &exact.p),
        difference(d, &exact.d),
        difference(tt, &exact.tt),
        difference(d - 2 * tt, &(&exact.d - &exact.tt * 2)),
    ]
}

/// A length of the rule, µm, less an exact one, mm: subtracted as fractions.
fn difference(rule: impl Into<Fraction>, exact: &Fraction) -> f64 {
    (rule.into() - exact * 1_000).to_f64()
}

/// A line worked by both, while lines are searched.
struct WorkedLine<'a> {
    line: &'a Line,
    /// Differences of the curves; curve 1 stands first.
    curves: Vec<Differences>,
}

impl WorkedLine<'_> {
    fn new(line: &Line) -> WorkedLine<'_> {
        let curves = (1..=line.curve_count())
            .map(|i| curve_differences(line.curve(i)))
            .collect();
        WorkedLine { line, curves }
    }

    /// The difference of TT of curve i; 0 where there is no curve.
    fn tangent(&self, i: usize) -> f64 {
        let curve = i.checked_sub(1).and_then(|index| self.curves.get(index));
        curve.map_or(0.0, |differences| differences[TT])
    }

    /// The differences of all stations, added from those of the elements.
    fn stations(&self) -> Vec<f64> {
        let mut points = Vec::new();
        let mut former_st = 0.0;
        for (i, differences) in (1..).zip(&self.curves) {
            let ts = former_st - self.tangent(i - 1) - self.tangent(i);
            let cs = ts + differences[D];
            points.extend([ts, ts, cs, cs]);
            former_st = cs;
        }
        points.push(former_st - self.tangent(self.curves.len()));
        points
    }

    /// Exact straight i, from 0 to n, mm.
    fn straight(&self, i: usize) -> f64 {
        (straight(self.line, i) as f64 + self.tangent(i) + self.tangent(i + 1)) / 1_000.0
    }

    /// Exact arc of curve i, mm.
    fn arc(&self, i: usize) -> f64 {
        let Curve { a, r, l } = self.line.curve(i);
        (arc(a, r, l) as f64 - self.curves[i - 1][D]) / 1_000.0
    }
}

/// The least and the greatest number seen, each with its place.
#[derive(Clone, Debug)]
pub struct Extremes<T> {
    pub least: Option<(f64, T)>,
    pub greatest: Option<(f64, T)>,
}

impl<T> Extremes<T> {
    pub fn empty() -> Extremes<T> {
        Extremes {
            least: None,
            greatest: None,
        }
    }

    /// Keeps the number if it is the least or the greatest so far.
    fn see(&mut self, number: f64, place: impl Fn() -> T) {
        if !matches!(self.least, Some((least, _)) if least <= number) {
            self.least = Some((number, place()));
        }
        if !matches!(self.greatest, Some((greatest, _)) if greatest >= number) {
            self.greatest = Some((number, place()));
        }
    }

    /// Works both numbers once more, from their places.
    fn settle(&mut self, work: impl Fn(&T) -> f64) {
        for (number, place) in self.least.iter_mut().chain(&mut self.greatest) {
            let settled = work(place);
            assert!((settled - *number).abs() < 1e-6, "{settled} for {number}");
            *number = settled;
        }
    }
}

/// The largest differences of curves, named by [`NAMES`].
pub struct CurveRecord {
    pub differences: [Extremes<Curve>; 7],
}

impl CurveRecord {
    pub fn empty() -> CurveRecord {
        CurveRecord {
            differences: NAMES.map(|_| Extremes::empty()),
        }
    }

    /// Works the curve, whose fields are in range, and gives its differences.
    pub fn see(&mut self, curve: Curve) -> Differences {
        let differences = curve_differences(curve);
        for (extremes, difference) in self.differences.iter_mut().zip(differences) {
            extremes.see(difference, || curve);
        }
        differences
    }
}

/// A place of a line: the index of a station in the row, of a straight (0 to n)
/// or of a curve (1 to n).
#[derive(Clone, Debug)]
pub struct Place {
    pub line: Line,
    pub index: usize,
}

impl Place {
    fn of(line: &Line, index: usize) -> Place {
        let line = line.clone();
        Place { line, index }
    }

    /// The curve of a station; the last one for the end.
    pub fn curve_of_station(&self) -> usize {
        (self.index / 4 + 1).min(self.line.curve_count())
    }

    /// The difference of the station, in fractions from the calculator's row.
    fn station_difference(&self) -> f64 {
        let mut row = [0; MOST_STATIONS];
        stations(&self.line, &mut row).expect("the line is accepted");
        difference(row[self.index], &exact_stations(&self.line)[self.index])
    }

    /// The same over the number of its curve.
    fn station_difference_over_curve(&self) -> f64 {
        self.station_difference() / self.curve_of_station() as f64
    }

    /// The exact straight, in fractions.
    fn straight(&self) -> f64 {
        exact_straights(&self.line)[self.index].to_f64()
    }

    /// The exact arc, in fractions.
    fn arc(&self) -> f64 {
        exact_arc(self.line.curve(self.index)).to_f64()
    }
}

/// The largest differences of lines, µm, and their shortest and longest exact
/// lengths, mm.
pub struct LineRecord {
    /// How many lines were accepted, refused 14 and refused 15.
    pub accepted: usize,
    pub refused_14: usize,
    pub refused_15: usize,
    /// Differences of any station of accepted lines.
    pub station: Extremes<Place>,
    /// The same of the stations of curve i, over i.
    pub station_over_curve: Extremes<Place>,
    /// The same of the end of n curves (1 or more), over n.
    pub end_over_count: Extremes<Place>,
    /// Exact straights and arcs of accepted lines.
    pub accepted_straight: Extremes<Place>,
    pub accepted_arc: Extremes<Place>,
    /// Exact arcs at the place of refusal 14, straights at that of 15.
    pub refused_arc: Extremes<Place>,
    pub refused_straight: Extremes<Place>,
}

impl LineRecord {
    pub fn empty() -> LineRecord {
        LineRecord {
            accepted: 0,
            refused_14: 0,
            refused_15: 0,
            station: Extremes::empty(),
            station_over_curve: Extremes::empty(),
            end_over_count: Extremes::empty(),
            accepted_straight: Extremes::empty(),
            accepted_arc: Extremes::empty(),
            refused_arc: Extremes::empty(),
            refused_straight: Extremes::empty(),
        }
    }

    /// Works the line. One that is refused for another reason than 14 or 15 is
    /// passed over.
    pub fn see(&mut self, line: &Line) {
        match stations(line, &mut [0; MOST_STATIONS]) {
            Ok(_) => self.see_accepted(line),
            Err(Refusal { number: 14, place }) => {
                self.refused_14 += 1;
                let length = WorkedLine::new(line).arc(place);
                self.refused_arc.see(length, || Place::of(line, place));
            }
            Err(Refusal { number: 15, place }) => {
                self.refused_15 += 1;
                let length = WorkedLine::new(line).straight(place);
                self.refused_straight.see(length, || Place::of(line, place));
            }
            Err(_) => {}
        }
    }

    fn see_accepted(&mut self, line: &Line) {
        self.accepted += 1;
        let worked = WorkedLine::new(line);
        let n = line.curve_count();
        for (index, difference) in worked.stations().into_iter().enumerate() {
            self.see_station(line, index, difference);
        }
        for i in 0..=n {
            let length = worked.straight(i);
            self.accepted_straight.see(length, || Place::of(line, i));
        }
        for i in 1..=n {
            let length = worked.arc(i);
            self.accepted_arc.see(length, || Place::of(line, i));
        }
    }

    fn see_station(&mut self, line: &Line, index: usize, difference: f64) {
        let n = line.curve_count();
        let place = || Place::of(line, index);
        self.station.see(difference, place);
        if index < 4 * n {
            let i = index / 4 + 1;
            self.station_over_curve.see(difference / i as f64, place);
        } else if n > 0 {
            self.end_over_count.see(difference / n as f64, place);
        }
    }

    /// Works the kept lines once more, all in fractions.
    pub fn settle(&mut self) {
        self.station.settle(Place::station_difference);
        let over_curve = Place::station_difference_over_curve;
        self.station_over_curve.settle(over_curve);
        self.end_over_count.settle(over_curve);
        for straights in [&mut self.accepted_straight, &mut self.refused_straight] {
            straights.settle(Place::straight);
        }
        for arcs in [&mut self.accepted_arc, &mut self.refused_arc] {
            arcs.settle(Place::arc);
        }
    }
}

#[cfg(test)]
mod tests {
    use super::*;
    use crate::samples::dice::Dice;
    use crate::samples::roads::{road, road_with_straight};
    use crate::search::random_curve;

    const CASE_1: Curve = Curve::new(177_764, 350_000, 40_000);

    fn check_bounds(curve: Curve) {
        let differences = curve_differences(curve);
        for ((difference, bound), name) in differences.into_iter().zip(BOUNDS).zip(NAMES) {
            assert!(difference.abs() <= bound, "{name} of {curve}: {difference}");
        }
    }

    /// The differences of all stations of an accepted line, in fractions.
    fn differences_in_fractions(line: &Line) -> Vec<f64> {
        let mut row = [0; MOST_STATIONS];
        let count = stations(line, &mut row).unwrap();
        let exact = exact_stations(line);
        assert_eq!(exact.len(), count);
        let pairs = row.into_iter().zip(&exact);
        pairs.map(|(rule, exact)| difference(rule, exact)).collect()
    }

    fn close(a: f64, b: f64) -> bool {
        (a - b).abs() < 1e-8
    }

    #[test]
    fn case_1() {
        check_bounds(CASE_1);
        // 39,986,941 less 39,986,940.749 847 359, and so on.
        let expected = [
            0.250_152_641,
            -0.076_632_932,
            0.673_310_340,
            0.020_951_082,
            -0.230_644_424,
            1.060_048_508,
            -2.350_741_440,
        ];
        let found = curve_differences(CASE_1);
        assert!(found.into_iter().zip(expected).all(|(a, b)| close(a, b)));
    }

    /// With the longest spiral of the greatest angle every constant of X and Y
    /// counts: the last terms, L × s⁶/9360 and L × s⁵/1320, are 835 and 11,837 µm.
    #[test]
    fn constants_of_x_and_y() {
        let [x, y, ..] = curve_differences(Curve::new(432_000, 500_000, 500_000));
        assert!(close(x, -0.257_122_507) && close(y, -0.216_450_216));
    }

    #[test]
    fn simple_curve_has_no_spiral_to_differ() {
        let [x, y, k, p, ..] = curve_differences(Curve::new(432_000, 5_000_000, 0));
        assert_eq!([x, y, k, p], [0.0; 4]);
    }

    #[test]
    fn bounds_of_random_curves() {
        let mut dice = Dice::new(1);
        for _ in 0..400 {
            check_bounds(random_curve(&mut dice));
        }
    }

    #[test]
    fn bounds_of_stations() {
        let mut dice = Dice::new(1);
        for n in (0..=5).chain([1, 2, 3, 20]) {
            let line = road(&mut dice, n);
            for (index, difference) in differences_in_fractions(&line).into_iter().enumerate() {
                let i = (index / 4 + 1).min(n);
                assert!(difference.abs() <= STATION_BOUND * i as f64, "{difference}");
            }
        }
    }

    #[test]
    fn added_differences_are_those_of_the_stations() {
        let mut dice = Dice::new(2);
        for n in (0..=5).chain([10]) {
            let line = road(&mut dice, n);
            let added = WorkedLine::new(&line).stations();
            let in_fractions = differences_in_fractions(&line);
            assert_eq!(added.len(), in_fractions.len());
            assert!(added
                .into_iter()
                .zip(in_fractions)
                .all(|(a, b)| close(a, b)));
        }
    }

    #[test]
    fn line_without_curve_does_not_differ() {
        let line = Line::new(70, 8, 200_000_000, &[20_000_000], &[]);
        assert_eq!(differences_in_fractions(&line), [0.0]);
        let mut record = LineRecord::empty();
        record.see(&line);
        assert!(matches!(record.station.greatest, Some((number, _)) if number == 0.0));
        assert!(record.end_over_count.greatest.is_none());
    }

    #[test]
    fn extremes_keep_the_first_of_equals() {
        let mut extremes = Extremes::empty();
        for (place, number) in [2.0, -1.0, 2.0, -1.0, 0.0].into_iter().enumerate() {
            extremes.see(number, || place);
        }
        assert_eq!(extremes.least, Some((-1.0, 1)));
        assert_eq!(extremes.greatest, Some((2.0, 0)));
    }

    #[test]
    fn record_of_curves() {
        let mut record = CurveRecord::empty();
        let differences = [CASE_1, Curve::new(432_000, 5_000_000, 0)].map(|c| record.see(c));
        let [case_1, simple] = differences.map(|differences| differences[TT]);
        let tt = &record.differences[TT];
        assert_eq!(tt.least.unwrap().0, case_1.min(simple));
        assert_eq!(tt.greatest.unwrap().0, case_1.max(simple));
        assert_eq!(record.differences[0].greatest.unwrap().1, CASE_1);
    }

    /// Cases 1, 3 and 7: accepted, refused 15, refused 14; and one refused 12.
    #[test]
    fn record_of_lines() {
        let case_1 = Line::case_1();
        let [mut case_3, mut case_7, mut tight] = [0; 3].map(|_| case_1.clone());
        case_3.distances[0] = 180_990;
        case_7.curves[0].a = 23_573;
        tight.curves[0].r = 167_750;
        let mut record = LineRecord::empty();
        for line in [&case_1, &case_3, &case_7, &tight] {
            record.see(line);
        }
        record.settle();
        let counts = [record.accepted, record.refused_14, record.refused_15];
        assert_eq!(counts, [1, 1, 1]);

        // TS lies below by what TT lies above; the end by D and twice TT.
        let (ts, place) = record.station_over_curve.greatest.unwrap();
        assert!(close(ts, -1.060_048_508));
        assert_eq!((place.index, place.curve_of_station()), (0, 1));
        let (end, place) = record.end_over_count.least.unwrap();
        assert!(close(end, -2.350_741_440));
        assert_eq!((place.index, place.curve_of_station()), (4, 1));
        assert!(close(record.station.least.unwrap().0, end));

        let length = |extreme: Option<(f64, Place)>| extreme.unwrap().0;
        let shortest = length(record.accepted_straight.least);
        assert!(close(shortest, 400_000.0 - 180_989.278_939_951));
        let refused = length(record.refused_straight.greatest);
        assert!(close(refused, 180_990.0 - 180_989.278_939_951));
        let arc = length(record.accepted_arc.least);
        assert!(close(arc, 261_638.467_230_644));
        let no_arc = length(record.refused_arc.greatest);
        assert!(close(no_arc, -0.204_833_217));
    }

    #[test]
    fn straights_near_the_least() {
        let mut dice = Dice::new(1);
        for straight in [999, 1_000] {
            let line = road_with_straight(&mut dice, 3, 2, straight);
            let length = WorkedLine::new(&line).straight(2);
            assert!(close(length, exact_straights(&line)[2].to_f64()));
            // Two TT of 300 µm either way.
            assert!((length - 1.0).abs() <= 0.601, "{length}");
        }
    }
}
