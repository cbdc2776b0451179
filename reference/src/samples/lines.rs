//! The lines of document 01's cases.

use super::named::{named, Claim, Named};
use crate::curve::Curve;
use crate::line::Line;

/// The cases that document 01 gives for the calculator.
pub fn document_cases() -> Vec<Named<Line>> {
    let curve = |name, number, a, r, l| {
        let claim = Claim::accepted_or(number, 1);
        named(name, claim, with_curve(Curve::new(a, r, l)))
    };
    vec![
        named("case 1", Claim::Accepted, Line::case_1()),
        named("case 2", Claim::Accepted, with_first_distance(180_991)),
        named("case 3", Claim::of(15, 0), with_first_distance(180_990)),
        curve("case 4", 13, 177_764, 350_000, 39_999),
        curve("case 5, no spiral", 0, 177_764, 167_751, 0),
        curve("case 5, no spiral, refused", 12, 177_764, 167_750, 0),
        curve("case 5, least spiral", 0, 177_764, 167_751, 73_610),
        curve(
            "case 5, least spiral, refused",
            12,
            177_764,
            167_750,
            73_610,
        ),
        curve("case 5, case 1's spiral", 13, 177_764, 167_751, 40_000),
        curve(
            "case 5, case 1's spiral, refused",
            12,
            177_764,
            167_750,
            40_000,
        ),
        curve("case 6", 0, 23_574, 350_000, 40_000),
        curve("case 7", 14, 23_573, 350_000, 40_000),
        curve("case 8", 0, 1, 350_000, 0),
        curve("case 8, refused", 14, 1, 200_000, 0),
        named("case 9", Claim::Accepted, Line::case_9()),
        curve("case 11", 0, 177_764, 350_000, 0),
    ]
}

/// Case 1 with another first distance.
pub fn with_first_distance(distance: u32) -> Line {
    let mut line = Line::case_1();
    line.distances[0] = distance;
    line
}

/// Case 1 with another curve.
pub fn with_curve(curve: Curve) -> Line {
    let mut line = Line::case_1();
    line.curves[0] = curve;
    line
}

#[cfg(test)]
mod tests {
    use super::super::call::Callee::Calculator;
    use super::super::call_edges::exact_call;
    use super::*;

    #[test]
    fn cases_are_answered_as_claimed() {
        for case in document_cases() {
            let answer = exact_call(Calculator, case.sample.clone()).answer(Calculator);
            assert!(case.holds(Calculator.refusals(), &answer), "{case:?}");
        }
    }
}
