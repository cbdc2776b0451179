//! The element under a station of a line, in the words of document 02, Pegs
//! along the line and Nearest, not down; its offsets follow document 02's
//! Interchange ramps by their x and y.

use crate::curve::Curve;
use crate::elements::{nearest, quotient, spiral_angle, Ratios, RATIOS, SCALE};
use crate::lent::fill;
use crate::line::{Line, LEFT, MOST_CURVES};
use crate::refusal::{refuse, Refusal};
use crate::stations::{micrometres, station, stations};

/// Numbers of a peg.
pub const PEG_NUMBERS: usize = 5;

/// An element of a line.
#[derive(Clone, Copy, Debug, PartialEq, Eq)]
pub enum Element {
    /// Straight i, from 0 to n.
    Straight(usize),
    /// The spirals and the arc of curve i, from 1 to n.
    SpiralIn(usize),
    Arc(usize),
    SpiralOut(usize),
}

/// An element, and the stations where it begins and ends, µm.
#[derive(Clone, Copy, Debug, PartialEq, Eq)]
pub struct Stretch {
    pub element: Element,
    pub begin: u64,
    pub end: u64,
}

/// What lies under a station.
#[derive(Clone, Copy, Debug, PartialEq, Eq)]
pub struct Peg {
    pub element: Element,
    /// From the element's beginning; on the spiral out back from ST; µm.
    pub length: u64,
    /// Offsets on a spiral, elsewhere 0, µm.
    pub x: i128,
    pub y: i128,
}

/// Writes kind, number, length, x and y of the peg at the front of the lent
/// numbers and returns their count. Refuses as [`peg_under`] does, then 16, and
/// leaves the numbers as they are.
pub fn peg(line: &Line, station: u64, numbers: &mut [i64]) -> Result<usize, Refusal> {
    fill(numbers, &peg_under(line, station)?.numbers())
}

/// The peg of a station, µm: "a station shared by two elements belongs to the
/// one that begins there, the end to the last line". Refusals of the calculator
/// but 16, then 17 for a station outside the line.
pub fn peg_under(line: &Line, station: u64) -> Result<Peg, Refusal> {
    let stretches = stretches(line)?;
    let holding = stretches.iter().find(|stretch| stretch.holds(station));
    let ending = stretches.last().filter(|last| last.end == station);
    match holding.or(ending) {
        Some(stretch) => Ok(stretch.peg(line, station)),
        None => refuse(17, 0),
    }
}

/// The elements of a line from start to end, empty spirals too, or the
/// calculator's refusal.
pub fn stretches(line: &Line) -> Result<Vec<Stretch>, Refusal> {
    let mut row = [0; 4 * MOST_CURVES + 1];
    let count = stations(line, &mut row)?;
    let mut begin = station(micrometres(line.start));
    let mut stretches = Vec::new();
    for (index, end) in row.into_iter().take(count).enumerate() {
        let element = element(index);
        stretches.push(Stretch {
            element,
            begin,
            end,
        });
        begin = end;
    }
    Ok(stretches)
}

/// The element that ends at the station with this index in the row: straight 0
/// at TS of curve 1, its spiral in at SC, and so on.
fn element(index: usize) -> Element {
    let i = index / 4;
    match index % 4 {
        0 => Element::Straight(i),
        1 => Element::SpiralIn(i + 1),
        2 => Element::Arc(i + 1),
        _ => Element::SpiralOut(i + 1),
    }
}

impl Stretch {
    /// Whether the station lies here and not where the next element begins; an
    /// empty spiral holds none.
    fn holds(&self, station: u64) -> bool {
        self.begin <= station && station < self.end
    }

    /// The peg of a station from its beginning to its end.
    fn peg(&self, line: &Line, station: u64) -> Peg {
        let element = self.element;
        let length = match element {
            Element::SpiralOut(_) => self.end - station,
            _ => station - self.begin,
        };
        let (x, y) = match element {
            Element::SpiralIn(i) | Element::SpiralOut(i) => offsets_of(line, i, length),
            Element::Straight(_) | Element::Arc(_) => (0, 0),
        };
        Peg {
            element,
            length,
            x,
            y,
        }
    }
}

/// The offsets on a spiral of curve i at this length, µm: "a left curve's y is
/// negated".
fn offsets_of(line: &Line, i: usize, length: u64) -> (i128, i128) {
    let (x, y) = offsets(line.curve(i), length);
    if line.sides[i - 1] == LEFT {
        (x, -y)
    } else {
        (x, y)
    }
}

/// The offsets on a spiral of a right curve, L above 0, at length l in µm from
/// its outer end: u = l × 10⁶ / L, angle = (u × u / 10⁹) × t / 10⁹, then x and
/// y by document 01 from that angle, each times l over 10⁹, to the nearest µm.
pub fn offsets(curve: Curve, l: u64) -> (i128, i128) {
    offsets_with(RATIOS, curve, l)
}

/// The same with these x and y.
pub fn offsets_with(ratios: Ratios, curve: Curve, l: u64) -> (i128, i128) {
    let Curve { r, l: spiral, .. } = curve;
    let t = spiral_angle(spiral, r);
    let l = i128::from(l);
    let u = quotient(l * 1_000_000, i128::from(spiral));
    let angle = quotient(quotient(u * u, SCALE) * t, SCALE);
    let x = nearest((ratios.x)(angle) * l, SCALE);
    let y = nearest((ratios.y)(angle) * l, SCALE);
    (x, y)
}

impl Element {
    /// 0 a straight, 1 a spiral in, 2 an arc, 3 a spiral out.
    pub fn kind(self) -> i64 {
        match self {
            Element::Straight(_) => 0,
            Element::SpiralIn(_) => 1,
            Element::Arc(_) => 2,
            Element::SpiralOut(_) => 3,
        }
    }

    /// The straight, from 0 to n, or the curve, from 1 to n.
    pub fn number(self) -> usize {
        match self {
            Element::Straight(i)
            | Element::SpiralIn(i)
            | Element::Arc(i)
            | Element::SpiralOut(i) => i,
        }
    }
}

impl Peg {
    /// Kind, number, length, x and y.
    fn numbers(&self) -> [i64; PEG_NUMBERS] {
        [
            self.element.kind(),
            number(self.element.number()),
            number(self.length),
            number(self.x),
            number(self.y),
        ]
    }
}

/// A number of a peg.
fn number(value: impl TryInto<i64>) -> i64 {
    let fits = value.try_into().ok();
    fits.expect("lengths and offsets are far below 2⁶³")
}

#[cfg(test)]
mod tests {
    use super::*;
    use crate::elements::{working_rule, Elements};
    use crate::exact::fraction::Fraction;
    use crate::exact::pegs::exact_offsets;
    use crate::line::RIGHT;
    use crate::samples::dice::Dice;
    use crate::samples::limits::greatest_spiral;
    use crate::samples::peg_edges::{ROUNDED_CURVE, ROUNDED_LENGTHS};
    use crate::samples::roads::road;
    use crate::search::random_curve;
    use Element::{Arc, SpiralIn, SpiralOut, Straight};

    /// Case 1's stations.
    const TS: u64 = 319_010_720;
    const SC: u64 = 359_010_720;
    const CS: u64 = 620_649_187;
    const ST: u64 = 660_649_187;
    const END: u64 = 879_659_907;

    fn found(line: &Line, station: u64) -> (Element, u64, i128, i128) {
        let Peg {
            element,
            length,
            x,
            y,
        } = peg_under(line, station).unwrap();
        (element, length, x, y)
    }

    fn left(mut line: Line) -> Line {
        line.sides.fill(LEFT);
        line
    }

    /// A line with this curve, its distances long enough for any.
    fn with_curve(curve: Curve) -> Line {
        Line::new(40, 12, 7_000, &[20_000_000; 2], &[curve])
    }

    #[test]
    fn elements_of_case_1() {
        let elements = stretches(&Line::case_1()).unwrap();
        let found: Vec<(Element, u64, u64)> = elements
            .into_iter()
            .map(|stretch| (stretch.element, stretch.begin, stretch.end))
            .collect();
        let expected = [
            (Straight(0), 0, TS),
            (SpiralIn(1), TS, SC),
            (Arc(1), SC, CS),
            (SpiralOut(1), CS, ST),
            (Straight(1), ST, END),
        ];
        assert_eq!(found, expected);
    }

    #[test]
    fn straights_and_arc_of_case_1() {
        let line = Line::case_1();
        for (station, element, length) in [
            (0, Straight(0), 0),
            (1, Straight(0), 1),
            (TS - 1, Straight(0), TS - 1),
            (SC, Arc(1), 0),
            (SC + 1, Arc(1), 1),
            (CS - 1, Arc(1), 261_638_466),
            (ST, Straight(1), 0),
            (ST + 1, Straight(1), 1),
            (END - 1, Straight(1), 219_010_719),
            (END, Straight(1), 219_010_720),
        ] {
            assert_eq!(found(&line, station), (element, length, 0, 0));
            assert_eq!(found(&left(line.clone()), station).2, 0);
        }
    }

    /// The offsets are worked by hand: half of the spiral has u = 5 × 10⁸, a
    /// quarter of t = 57,142,857, so angle 14,285,714, t2 204,081, t3 2,915, t4
    /// 41, t5 and t6 0; x = 10⁹ − 20,408 = 999,979,592, y = 4,761,904 − 69 =
    /// 4,761,835; times 20 m they are 19,999,591.84 and 95,236.7 µm.
    #[test]
    fn spirals_of_case_1() {
        for (station, element, length, x, y) in [
            (TS, SpiralIn(1), 0, 0, 0),
            (TS + 1, SpiralIn(1), 1, 1, 0),
            (TS + 20_000_000, SpiralIn(1), 20_000_000, 19_999_592, 95_237),
            (SC - 1, SpiralIn(1), 39_999_999, 39_986_940, 761_727),
            (CS, SpiralOut(1), 40_000_000, 39_986_941, 761_727),
            (CS + 1, SpiralOut(1), 39_999_999, 39_986_940, 761_727),
            (
                ST - 20_000_000,
                SpiralOut(1),
                20_000_000,
                19_999_592,
                95_237,
            ),
            (ST - 1, SpiralOut(1), 1, 1, 0),
        ] {
            let line = Line::case_1();
            assert_eq!(found(&line, station), (element, length, x, y));
            assert_eq!(found(&left(line), station), (element, length, x, -y));
        }
    }

    #[test]
    fn stations_outside_the_line() {
        let late = Line {
            start: 500_000,
            ..Line::case_1()
        };
        for (line, start) in [(Line::case_1(), 0), (late, 500_000_000)] {
            let end = start + END;
            assert_eq!(found(&line, start), (Straight(0), 0, 0, 0));
            assert_eq!(found(&line, end).0, Straight(1));
            let before = (start > 0).then(|| [0, start - 1]);
            let beyond = [end + 1, 2 * end, 1 << 63, u64::MAX];
            for station in before.into_iter().flatten().chain(beyond) {
                assert_eq!(peg_under(&line, station), refuse(17, 0), "{station}");
            }
        }
    }

    #[test]
    fn line_without_curve() {
        let line = Line::case_9();
        for station in [0, 1, 250_000_000, 500_000_000] {
            assert_eq!(found(&line, station), (Straight(0), station, 0, 0));
        }
        assert_eq!(peg_under(&line, 500_000_001), refuse(17, 0));
    }

    #[test]
    fn empty_spirals_hold_no_station() {
        let line = with_curve(Curve::new(177_764, 350_000, 0));
        let [_, spiral_in, arc, spiral_out, last] = stretches(&line).unwrap()[..] else {
            panic!("five elements");
        };
        assert_eq!(spiral_in.begin, spiral_in.end);
        assert_eq!(spiral_out.begin, spiral_out.end);
        assert_eq!(found(&line, arc.begin - 1).0, Straight(0));
        assert_eq!(found(&line, arc.begin), (Arc(1), 0, 0, 0));
        assert_eq!(found(&line, arc.end - 1).0, Arc(1));
        assert_eq!(found(&line, arc.end), (Straight(1), 0, 0, 0));
        assert_eq!(last.begin, arc.end);
    }

    /// At its inner end a spiral has the offsets X and Y of the curve.
    #[test]
    fn inner_end_has_x_and_y() {
        let mut dice = Dice::new(1);
        let greatest = [
            Curve::new(300_000, 48_000, 48_000),
            Curve::new(432_000, 500_000, 500_000),
            Curve::new(432_000, 5_000_000, 500_000),
        ];
        let any = (0..1_000).map(|_| random_curve(&mut dice));
        for curve in greatest.into_iter().chain(any).filter(|c| c.l > 0) {
            let found = working_rule(curve.a, curve.r, curve.l);
            let length = 1_000 * u64::from(curve.l);
            assert_eq!(offsets(curve, length), (found.x, found.y), "{curve}");
            assert_eq!(offsets(curve, 0), (0, 0));
        }
    }

    /// The numbers are worked by another program; every rounding counts in them.
    #[test]
    fn roundings_of_the_offsets() {
        let expected = [
            (409_597_397, 45_986_423),
            (468_843_811, 70_365_177),
            (482_185_223, 77_004_558),
            (487_013_278, 79_525_956),
        ];
        let found = ROUNDED_LENGTHS.map(|length| offsets(ROUNDED_CURVE, length));
        assert_eq!(found, expected);
    }

    #[test]
    fn spiral_as_long_as_the_radius() {
        let curve = Curve::new(300_000, 48_000, 48_000);
        let Elements { x, y, .. } = working_rule(curve.a, curve.r, curve.l);
        let line = with_curve(curve);
        let cs = stretches(&line).unwrap()[3].begin;
        assert_eq!(found(&line, cs), (SpiralOut(1), 48_000_000, x, y));
        assert_eq!(found(&left(line), cs).3, -y);
    }

    /// Each station of a road lies in one element, and the elements follow each
    /// other without a gap.
    #[test]
    fn elements_follow_each_other() {
        let mut dice = Dice::new(1);
        for n in [1, 2, 5, 64] {
            let line = road(&mut dice, n);
            let stretches = stretches(&line).unwrap();
            assert_eq!(stretches.len(), 4 * n + 1);
            assert!(stretches.windows(2).all(|two| two[0].end == two[1].begin));
            for stretch in stretches.iter().filter(|s| s.begin < s.end) {
                for station in [stretch.begin, stretch.end - 1] {
                    assert_eq!(found(&line, station).0, stretch.element);
                }
            }
        }
    }

    /// The side is that of the curve, not of another.
    #[test]
    fn sides_of_two_curves() {
        let mut line = with_curve(Curve::new(177_764, 350_000, 40_000));
        line.n = 2;
        line.curves[1] = line.curves[0];
        line.distances[2] = 400_000;
        for (first, second) in [(RIGHT, LEFT), (LEFT, RIGHT)] {
            line.sides[..2].copy_from_slice(&[first, second]);
            for stretch in stretches(&line).unwrap() {
                let (element, _, _, y) = found(&line, (stretch.begin + stretch.end) / 2);
                let side = |i: usize| if line.sides[i - 1] == LEFT { -1 } else { 1 };
                match element {
                    SpiralIn(i) | SpiralOut(i) => assert_eq!(y, side(i) * 95_237),
                    _ => assert_eq!(y, 0),
                }
            }
        }
    }

    /// The answer, and `room` numbers after the call; before it, each is 7.
    fn call(line: &Line, station: u64, room: usize) -> (Result<usize, Refusal>, Vec<i64>) {
        let mut numbers = vec![7; room];
        (peg(line, station, &mut numbers), numbers)
    }

    #[test]
    fn numbers_of_a_peg() {
        let line = left(Line::case_1());
        for room in [5, 6, 12] {
            let (answer, numbers) = call(&line, CS, room);
            assert_eq!(answer, Ok(5));
            let expected = [3, 1, 40_000_000, 39_986_941, -761_727];
            assert_eq!(numbers[..5], expected);
            assert!(numbers[5..].iter().all(|number| *number == 7));
        }
        let kinds = [0, TS, SC, CS, ST].map(|station| {
            let (_, numbers) = call(&line, station, 5);
            [numbers[0], numbers[1]]
        });
        assert_eq!(kinds, [[0, 0], [1, 1], [2, 1], [3, 1], [0, 1]]);
    }

    /// The calculator's refusals, then 17, then 16.
    #[test]
    fn refusals_in_order() {
        let mut line = Line::case_1();
        for room in [0, 4] {
            assert_eq!(call(&line, 0, room), (refuse(16, 0), vec![7; room]));
        }
        let mut check = |edit: fn(&mut Line), number, place| {
            edit(&mut line);
            for room in [0, 4, 5, 12] {
                let expected = (refuse(number, place), vec![7; room]);
                assert_eq!(call(&line, END + 1, room), expected);
            }
        };
        check(|_| {}, 17, 0);
        check(|line| line.distances[1] = 180_990, 15, 1);
        check(|line| line.curves[0].a = 23_573, 14, 1);
        check(|line| line.curves[0].l = 39_999, 13, 1);
        check(|line| line.curves[0].r = 167_750, 12, 1);
        check(|line| line.curves[0].l = 500_001, 11, 1);
        check(|line| line.distances[0] = 0, 8, 0);
        check(|line| line.n = 65, 3, 0);
    }

    /// How far an offset may lie from the exact one, µm (document 02).
    const BOUND: u32 = 4;

    fn check_bound(curve: Curve, length: u64) {
        let (x, y) = offsets(curve, length);
        for (rule, exact) in [x, y].into_iter().zip(exact_offsets(curve, length)) {
            let difference = Fraction::from(rule) - exact * 1_000;
            let bound = Fraction::from(BOUND);
            let within = difference <= bound && difference * -1 <= bound;
            assert!(within, "{curve} at {length}");
        }
    }

    /// Over the spirals of many curves, the longest of each radius among them.
    #[test]
    fn offsets_are_near_the_exact_ones() {
        let mut dice = Dice::new(1);
        for _ in 0..1_000 {
            let any = random_curve(&mut dice);
            let l = greatest_spiral(any.r);
            for curve in [any, Curve { l, ..any }] {
                let whole = 1_000 * u64::from(curve.l);
                if whole == 0 {
                    continue;
                }
                for length in [0, 1, whole / 2, whole - 1, whole] {
                    check_bound(curve, length);
                }
                for _ in 0..3 {
                    check_bound(curve, dice.long(0, whole));
                }
            }
        }
    }
}
