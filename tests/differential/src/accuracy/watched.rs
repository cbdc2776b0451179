//! All quantities that are watched, and what a line adds to them.

use super::record::{Claim, Differences, Lengths};
use crate::side::{Answer, Side};
use reference::curve::Curve;
use reference::exact::elements::{exact_arc, exact_elements, ExactElements};
use reference::exact::fraction::Fraction;
use reference::exact::pegs::exact_offsets;
use reference::exact::stations::{exact_stations, exact_straights};
use reference::line::{Line, LEFT, MOST_CURVES};
use reference::pegs::Element;
use reference::refusal::Refusal;
use reference::samples::dice::Dice;
use reference::samples::sheet_fields::sheet_of;

/// The elements and their bounds, µm (document 01, Clerk's sums; those of X and Y
/// document 02, Interchange ramps).
const ELEMENTS: [(&str, u64); 6] = [
    ("X", 3),
    ("Y", 3),
    ("k", 30),
    ("p", 30),
    ("D", 6),
    ("TT", 300),
];
/// The offsets on a spiral and their bound, µm (document 02, Pegs along the line).
const OFFSETS: [&str; 2] = ["peg x", "peg y"];
const OFFSET_BOUND: u64 = 4;
/// The stations of a curve, then the end.
const STATIONS: [&str; 5] = ["TS", "SC", "CS", "ST", "END"];
/// The same over the number of the curve.
const STATIONS_OVER: [&str; 5] = ["TS / i", "SC / i", "CS / i", "ST / i", "END / n"];
/// The end's index among them.
const END: usize = 4;
/// Bound of a station for each curve up to it, µm (document 01, Clerk's sums).
const STATION_BOUND: u64 = 700;

/// Lines from which on some must be refused 14 and 15.
const ENOUGH: u64 = 60;

/// What is watched.
pub struct Watched {
    pub accepted: u64,
    /// Accepted lines of 64 curves.
    pub full: u64,
    /// Curves of the accepted lines.
    pub curves: u64,
    pub refused_14: u64,
    pub refused_15: u64,
    pub elements: [Differences; 6],
    pub offsets: [Differences; 2],
    pub stations: [Differences; 5],
    pub stations_over: [Differences; 5],
    pub accepted_straight: Lengths,
    pub accepted_arc: Lengths,
    pub refused_straight: Lengths,
    pub refused_arc: Lengths,
}

impl Watched {
    /// Nothing seen so far.
    pub fn new() -> Watched {
        Watched {
            accepted: 0,
            full: 0,
            curves: 0,
            refused_14: 0,
            refused_15: 0,
            elements: ELEMENTS.map(|(name, bound)| Differences::new(name, Some(bound))),
            offsets: OFFSETS.map(|name| Differences::new(name, Some(OFFSET_BOUND))),
            stations: STATIONS.map(|name| Differences::new(name, None)),
            stations_over: STATIONS_OVER.map(|name| Differences::new(name, Some(STATION_BOUND))),
            accepted_straight: Lengths::new("straight, accepted", Claim::Longer(4)),
            accepted_arc: Lengths::new("arc, accepted", Claim::Longer(9)),
            refused_straight: Lengths::new("straight, refused 15", Claim::Shorter(16)),
            refused_arc: Lengths::new("arc, refused 14", Claim::Shorter(11)),
        }
    }

    pub fn lines(&self) -> u64 {
        self.accepted + self.refused_14 + self.refused_15
    }

    /// Works a line, or says which claim it breaks.
    pub fn see(&mut self, library: &dyn Side, line: &Line) -> Result<(), String> {
        let mut row = [0; 4 * MOST_CURVES + 1];
        match library.stations(&sheet_of(line), &mut row) {
            Ok(count) => self.see_accepted(library, line, &row[..count]),
            Err(Refusal { number: 14, place }) => self.see_refused_14(line, place),
            Err(Refusal { number: 15, place }) => self.see_refused_15(line, place),
            Err(refusal) => Err(format!("{refusal} for a line without such a fault")),
        }
    }

    fn see_accepted(
        &mut self,
        library: &dyn Side,
        line: &Line,
        stations: &[u64],
    ) -> Result<(), String> {
        let n = line.curve_count();
        self.accepted += 1;
        self.full += u64::from(n == MOST_CURVES);
        self.curves += n as u64;
        self.see_stations(line, stations)?;
        for i in 1..=n {
            self.see_elements(library, line.curve(i))?;
        }
        self.see_pegs(library, line, stations)?;
        self.see_accepted_lengths(line)
    }

    fn see_stations(&mut self, line: &Line, stations: &[u64]) -> Result<(), String> {
        let n = line.curve_count();
        let exact = exact_stations(line);
        if stations.len() != exact.len() {
            return Err(format!("{} stations of {n} curves", stations.len()));
        }
        for (index, (station, exact)) in stations.iter().zip(&exact).enumerate() {
            let difference = difference(*station, exact);
            if index == 4 * n {
                self.see_station(END, n, n, &difference)?;
            } else {
                self.see_station(index % 4, index / 4 + 1, n, &difference)?;
            }
        }
        Ok(())
    }

    /// The difference of a station of curve i, or of the end, i being n.
    fn see_station(
        &mut self,
        station: usize,
        i: usize,
        n: usize,
        difference: &Fraction,
    ) -> Result<(), String> {
        let at = || format!("curve {i} of {n}");
        self.stations[station].see(difference, at)?;
        if i > 0 {
            let over = difference / i as u64;
            return self.stations_over[station].see(&over, at);
        }
        Differences::new("END without curve", Some(0)).see(difference, at)
    }

    /// The elements of a curve of an accepted line.
    fn see_elements(&mut self, library: &dyn Side, curve: Curve) -> Result<(), String> {
        let mut numbers = [0; ELEMENTS.len()];
        let answer = library.elements(curve, &mut numbers);
        if answer != Ok(ELEMENTS.len()) {
            return Err(format!("elements of {curve} answered {answer:?}"));
        }
        let ExactElements { x, y, k, p, d, tt } = exact_elements(curve);
        let pairs = numbers.into_iter().zip([x, y, k, p, d, tt]);
        for (seen, (number, exact)) in self.elements.iter_mut().zip(pairs) {
            seen.see(&difference(number, &exact), || curve.to_string())?;
        }
        Ok(())
    }

    /// The pegs at either end of both spirals of each curve, and at a random
    /// length, which follows from the line.
    fn see_pegs(&mut self, library: &dyn Side, line: &Line, row: &[u64]) -> Result<(), String> {
        let sheet = sheet_of(line);
        let mut dice = Dice::new(row.iter().sum());
        for (i, points) in (1..).zip(row.chunks_exact(4)) {
            let whole = 1_000 * u64::from(line.curve(i).l);
            if whole == 0 {
                continue;
            }
            let [ts, st] = [points[0], points[3]];
            let mut see = |element, station, length| {
                let mut numbers = [0; pokyandi::PEG_NUMBERS];
                let answer = library.peg(&sheet, station, &mut numbers);
                self.see_peg(line, element, length, (answer, numbers))
            };
            for length in [0, dice.long(0, whole - 1), whole - 1] {
                see(Element::SpiralIn(i), ts + length, length)?;
            }
            for length in [1, dice.long(1, whole), whole] {
                see(Element::SpiralOut(i), st - length, length)?;
            }
        }
        Ok(())
    }

    /// A peg, that should lie on this spiral at this length, µm.
    fn see_peg(
        &mut self,
        line: &Line,
        element: Element,
        length: u64,
        (answer, numbers): (Answer, [i64; pokyandi::PEG_NUMBERS]),
    ) -> Result<(), String> {
        let [kind, number, found, x, y] = numbers.map(i128::from);
        let i = element.number();
        let expected = [element.kind().into(), i as i128, length.into()];
        if answer != Ok(numbers.len()) || [kind, number, found] != expected {
            return Err(format!("{element:?} at {length}: {answer:?} {numbers:?}"));
        }
        let curve = line.curve(i);
        let [exact_x, mut exact_y] = exact_offsets(curve, length);
        if line.sides[i - 1] == LEFT {
            exact_y = exact_y * -1;
        }
        let pairs = [(x, exact_x), (y, exact_y)];
        for (seen, (offset, exact)) in self.offsets.iter_mut().zip(pairs) {
            let at = || format!("{curve} at {length}");
            seen.see(&difference(offset, &exact), at)?;
        }
        Ok(())
    }

    fn see_accepted_lengths(&mut self, line: &Line) -> Result<(), String> {
        for (i, straight) in exact_straights(line).iter().enumerate() {
            self.accepted_straight
                .see(straight, || straight_place(line, i))?;
        }
        for i in 1..=line.curve_count() {
            let arc = exact_arc(line.curve(i));
            self.accepted_arc.see(&arc, || arc_place(line, i))?;
        }
        Ok(())
    }

    /// The exact arc at the place of refusal 14.
    fn see_refused_14(&mut self, line: &Line, place: usize) -> Result<(), String> {
        self.refused_14 += 1;
        if !(1..=line.curve_count()).contains(&place) {
            return Err(format!("refusal 14 at place {place}"));
        }
        let arc = exact_arc(line.curve(place));
        self.refused_arc.see(&arc, || arc_place(line, place))
    }

    /// The exact straight at the place of refusal 15.
    fn see_refused_15(&mut self, line: &Line, place: usize) -> Result<(), String> {
        self.refused_15 += 1;
        let Some(straight) = exact_straights(line).into_iter().nth(place) else {
            return Err(format!("refusal 15 at place {place}"));
        };
        self.refused_straight
            .see(&straight, || straight_place(line, place))
    }

    /// What many lines must have but these lack.
    pub fn missing(&self) -> Option<&'static str> {
        if self.lines() < ENOUGH {
            return None;
        }
        if 2 * self.accepted <= self.lines() {
            return Some("no more than half of the lines are accepted");
        }
        let none_refused = self.refused_14 == 0 || self.refused_15 == 0;
        none_refused.then_some("no line is refused 14, or none 15")
    }
}

/// A number of the library, µm, less an exact length, mm.
fn difference(number: impl Into<Fraction>, exact: &Fraction) -> Fraction {
    number.into() - exact * 1_000
}

/// The straight and how many curves the line has.
fn straight_place(line: &Line, i: usize) -> String {
    format!("straight {i} of {} curves", line.curve_count())
}

/// The arc, how many curves the line has, and the arc's curve.
fn arc_place(line: &Line, i: usize) -> String {
    format!(
        "arc {i} of {} curves, {}",
        line.curve_count(),
        line.curve(i)
    )
}

#[cfg(test)]
mod tests {
    use super::*;
    use crate::side::{Library, Reference};
    use crate::spoilt::{Change, Spoilt};
    use reference::line::RIGHT;

    fn close(a: f64, b: f64) -> bool {
        (a - b).abs() < 1e-8
    }

    /// Cases 1, 3, 7 and 9 of document 01; the figures are those that the
    /// reference's own tests give for them.
    #[test]
    fn cases_of_the_document() {
        let [case_1, mut case_3, mut case_7] = [(); 3].map(|_| Line::case_1());
        case_3.distances[0] = 180_990;
        case_7.curves[0].a = 23_573;
        let mut watched = Watched::new();
        for line in [case_1, case_3, case_7, Line::case_9()] {
            assert_eq!(watched.see(&Library, &line), Ok(()));
        }
        let counts = [watched.accepted, watched.refused_14, watched.refused_15];
        assert_eq!(counts, [2, 1, 1]);
        assert!(close(watched.elements[5].above, 1.060_048_508));
        assert!(close(watched.stations[0].below, -1.060_048_508));
        assert!(watched.offsets[0].above >= 0.250_152_640);
        assert!(close(watched.stations_over[END].below, -2.350_741_440));
        let nearest = |lengths: &Lengths| lengths.nearest.clone().unwrap().0;
        assert!(close(nearest(&watched.refused_arc), -0.204_833_217));
        assert!(close(nearest(&watched.accepted_arc), 261_638.467_230_644));
        let refused = 180_990.0 - 180_989.278_939_951;
        assert!(close(nearest(&watched.refused_straight), refused));
    }

    /// What the library would have to answer wrongly: the numbers of case 1, one
    /// of them moved.
    #[test]
    fn moved_numbers_break_the_claims() {
        let line = Line::case_1();
        let mut row = [0; 5];
        Reference.stations(&sheet_of(&line), &mut row).unwrap();
        for station in 0..5 {
            for (moved, holds) in [(697, true), (-697, true), (703, false), (-703, false)] {
                let mut row = row;
                row[station] = row[station].checked_add_signed(moved).unwrap();
                let seen = Watched::new().see_stations(&line, &row);
                assert_eq!(seen.is_ok(), holds, "{station} {moved}");
            }
        }
        assert!(Watched::new().see_stations(&line, &row[..4]).is_err());
    }

    /// Case 1's elements: X lies 0.25 µm above the exact one, Y 0.08 below.
    #[test]
    fn moved_elements_break_the_claims() {
        let moved: [(Change<u64>, bool); 8] = [
            (|answer, numbers| moved(answer, &mut numbers[0], 2), true),
            (|answer, numbers| moved(answer, &mut numbers[0], 3), false),
            (|answer, numbers| moved(answer, &mut numbers[0], -3), true),
            (|answer, numbers| moved(answer, &mut numbers[0], -4), false),
            (|answer, numbers| moved(answer, &mut numbers[1], 3), true),
            (|answer, numbers| moved(answer, &mut numbers[1], 4), false),
            (|answer, numbers| moved(answer, &mut numbers[1], -2), true),
            (|answer, numbers| moved(answer, &mut numbers[1], -3), false),
        ];
        for (i, (numbers, holds)) in moved.into_iter().enumerate() {
            let library = Spoilt {
                numbers,
                ..Spoilt::NOT
            };
            let seen = Watched::new().see_elements(&library, Line::case_1().curve(1));
            assert_eq!(seen.is_ok(), holds, "{i}");
        }
    }

    fn moved(answer: Answer, number: &mut u64, by: i64) -> Answer {
        *number = number.checked_add_signed(by).unwrap();
        answer
    }

    /// Case 1's peg at CS: its x lies 0.25 µm above the exact one, its y 0.08 below.
    #[test]
    fn moved_pegs_break_the_claims() {
        let mut line = Line::case_1();
        for side in [RIGHT, LEFT] {
            line.sides[0] = side;
            let y = if side == LEFT { -761_727 } else { 761_727 };
            let sees = |numbers| {
                let answer = (Ok(5), numbers);
                let element = Element::SpiralOut(1);
                let seen = Watched::new().see_peg(&line, element, 40_000_000, answer);
                seen.is_ok()
            };
            let peg = [3, 1, 40_000_000, 39_986_941, y];
            assert!(sees(peg));
            for (index, moved, holds) in [
                (3, 3, true),
                (3, 4, false),
                (3, -4, true),
                (3, -5, false),
                (4, 3, true),
                (4, -3, true),
                (4, 5, false),
                (4, -5, false),
                (4, -2 * y, false),
                (0, -2, false),
                (1, 1, false),
                (2, 1, false),
            ] {
                let mut peg = peg;
                peg[index] += moved;
                assert_eq!(sees(peg), holds, "{index} {moved}");
            }
        }
    }

    #[test]
    fn end_without_curve_is_exact() {
        let line = Line::case_9();
        let see = |end: u64| Watched::new().see_stations(&line, &[end]);
        assert!(see(500_000_000).is_ok());
        assert!(see(500_000_001).is_err() && see(499_999_999).is_err());
    }

    #[test]
    fn wrong_refusals_break_the_claims() {
        let line = Line::case_1();
        for place in [0, 1, 2] {
            assert!(Watched::new().see_refused_14(&line, place).is_err());
            assert!(Watched::new().see_refused_15(&line, place).is_err());
        }
        let mut crowded = line;
        crowded.distances[0] = 180_989;
        assert!(Watched::new().see_refused_15(&crowded, 0).is_ok());
        assert!(Watched::new().see_accepted_lengths(&crowded).is_err());
    }
}
