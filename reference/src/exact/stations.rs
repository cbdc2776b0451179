//! The stations of a line in fractions (document 01, Clerk's sums).

use super::elements::{exact_arc, exact_elements};
use super::fraction::Fraction;
use crate::line::Line;

/// The stations of a line whose fields are in range, mm: TS, SC, CS, ST of each
/// curve, then the end.
pub fn exact_stations(line: &Line) -> Vec<Fraction> {
    let straights = exact_straights(line);
    let mut points = Vec::new();
    let mut former_st = Fraction::from(line.start);
    for i in 1..=line.curve_count() {
        let curve = line.curve(i);
        let ts = &former_st + &straights[i - 1];
        let sc = &ts + curve.l;
        let cs = &sc + exact_arc(curve);
        let st = &cs + curve.l;
        former_st = st.clone();
        points.extend([ts, sc, cs, st]);
    }
    points.push(former_st + &straights[line.curve_count()]);
    points
}

/// The straights of a line, from 0 to n: each is its distance less the TT of
/// the curves at its ends, mm. They may be below zero.
pub fn exact_straights(line: &Line) -> Vec<Fraction> {
    let n = line.curve_count();
    let tangents: Vec<Fraction> = (0..=n + 1).map(|i| tangent(line, i)).collect();
    (0..=n)
        .map(|i| Fraction::from(line.distances[i]) - &tangents[i] - &tangents[i + 1])
        .collect()
}

/// TT of curve i; 0 where there is no curve, at the start and the end.
fn tangent(line: &Line, i: usize) -> Fraction {
    if i == 0 || i > line.curve_count() {
        return Fraction::from(0);
    }
    exact_elements(line.curve(i)).tt
}

#[cfg(test)]
mod tests {
    use super::*;
    use crate::curve::Curve;

    #[test]
    fn case_1() {
        let line = Line::case_1();
        let elements = exact_elements(line.curve(1));
        let ts = Fraction::from(500_000) - &elements.tt;
        let sc = &ts + 40_000;
        let cs = &sc + &elements.d;
        let st = &cs + 40_000;
        let end = &st + 400_000 - &elements.tt;
        assert_eq!(exact_stations(&line), [ts, sc, cs, st, end]);
    }

    #[test]
    fn without_curve() {
        let line = Line::new(70, 8, 20, &[500_000], &[]);
        assert_eq!(exact_stations(&line), [Fraction::from(500_020)]);
    }

    /// The end is the start and all distances, and for each curve its length
    /// less two TT; a straight between curves lacks the TT of both.
    #[test]
    fn three_curves() {
        let curves = [
            Curve::new(177_764, 350_000, 40_000),
            Curve::new(432_000, 5_000_000, 500_000),
            Curve::new(1, 350_000, 0),
        ];
        let distances = [1_000_000, 10_000_000, 10_000_000, 1_000_000];
        let line = Line::new(40, 8, 7_000, &distances, &curves);
        let elements = curves.map(exact_elements);
        let mut end = Fraction::from(22_007_000);
        for (curve, element) in curves.into_iter().zip(&elements) {
            end = end + &element.d + 2 * curve.l - &element.tt * 2;
        }
        let stations = exact_stations(&line);
        assert_eq!(stations.len(), 13);
        assert_eq!(stations[12], end);
        let straight = Fraction::from(10_000_000) - &elements[0].tt - &elements[1].tt;
        assert_eq!(&stations[4] - &stations[3], straight);
        assert_eq!(exact_straights(&line)[1], straight);
    }
}
