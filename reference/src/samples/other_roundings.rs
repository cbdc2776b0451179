//! The rule for x and y with one quotient rounded otherwise, or made of other powers,
//! in fractions of `i128`: at which samples that shows.

use super::curves::ROUNDED_CURVES;
use super::peg_edges::{ROUNDED_CURVE, ROUNDED_LENGTHS};
use crate::curve::Curve;
use crate::elements::{nearest, quotient, working_rule, SCALE};
use crate::pegs::offsets;
use Fault::{Down, LeftOut, Nearest, Nothing, OtherPowers};

/// What is wrong with the quotient of this name.
#[derive(Clone, Copy, Debug, PartialEq, Eq)]
enum Fault {
    Nothing,
    Nearest(&'static str),
    LeftOut(&'static str),
    /// Of the last division, that otherwise goes to the nearest.
    Down(&'static str),
    /// t4 is t3 × t, t5 is t3 × t2, t6 is t3 × t3 or t5 × t.
    OtherPowers(&'static str),
}

/// A number over another, not reduced.
#[derive(Clone, Copy)]
struct Ratio {
    upper: i128,
    lower: i128,
}

fn whole(upper: i128) -> Ratio {
    Ratio { upper, lower: 1 }
}

fn product(a: Ratio, b: Ratio) -> Ratio {
    Ratio {
        upper: a.upper * b.upper,
        lower: a.lower * b.lower,
    }
}

fn sum(a: Ratio, b: Ratio) -> Ratio {
    Ratio {
        upper: a.upper * b.lower + b.upper * a.lower,
        lower: a.lower * b.lower,
    }
}

fn negated(a: Ratio) -> Ratio {
    product(a, whole(-1))
}

impl Fault {
    /// The quotient of this name.
    fn quotient(self, name: &'static str, upper: Ratio, lower: i128) -> Ratio {
        let ratio = product(upper, Ratio { upper: 1, lower });
        match self {
            LeftOut(other) if other == name => ratio,
            Nearest(other) if other == name => whole(nearest(ratio.upper, ratio.lower)),
            _ => whole(quotient(ratio.upper, ratio.lower)),
        }
    }

    /// The last division of x or y.
    fn last(self, name: &'static str, upper: Ratio, lower: i128) -> i128 {
        let lower = upper.lower * lower;
        match self {
            Down(other) if other == name => quotient(upper.upper, lower),
            _ => nearest(upper.upper, lower),
        }
    }

    /// Small x and y by the angle t, times `length` over `lower`.
    fn ends(self, t: Ratio, length: i128, lower: i128) -> (i128, i128) {
        let powers = |name| self == OtherPowers(name);
        let quotient = |name, upper, lower| self.quotient(name, upper, lower);
        let t2 = quotient("t2", product(t, t), SCALE);
        let t3 = quotient("t3", product(t2, t), SCALE);
        let t4 = if powers("t3 t") { (t3, t) } else { (t2, t2) };
        let t4 = quotient("t4", product(t4.0, t4.1), SCALE);
        let t5 = if powers("t3 t2") { (t3, t2) } else { (t4, t) };
        let t5 = quotient("t5", product(t5.0, t5.1), SCALE);
        let t6 = match self {
            OtherPowers("t3 t3") => (t3, t3),
            OtherPowers("t5 t") => (t5, t),
            _ => (t4, t2),
        };
        let t6 = quotient("t6", product(t6.0, t6.1), SCALE);
        let x = sum(whole(SCALE), negated(quotient("t2/10", t2, 10)));
        let x = sum(x, quotient("t4/216", t4, 216));
        let x = sum(x, negated(quotient("t6/9360", t6, 9_360)));
        let y = sum(quotient("t/3", t, 3), negated(quotient("t3/42", t3, 42)));
        let y = sum(y, quotient("t5/1320", t5, 1_320));
        let [x, y] = [x, y].map(|ratio| product(ratio, whole(length)));
        (self.last("x", x, lower), self.last("y", y, lower))
    }

    fn spiral_angle(self, Curve { r, l, .. }: Curve) -> Ratio {
        let upper = whole(i128::from(l) * 500_000_000);
        self.quotient("t", upper, i128::from(r))
    }

    /// X and Y.
    fn elements(self, curve: Curve) -> (i128, i128) {
        self.ends(self.spiral_angle(curve), i128::from(curve.l), 1_000_000)
    }

    /// The offsets at this length, µm.
    fn offsets(self, curve: Curve, length: u64) -> (i128, i128) {
        let length = i128::from(length);
        let u = self.quotient("u", whole(length * 1_000_000), i128::from(curve.l));
        let square = self.quotient("u u", product(u, u), SCALE);
        let angle = product(square, self.spiral_angle(curve));
        self.ends(self.quotient("angle", angle, SCALE), length, SCALE)
    }
}

/// The quotients of t, x and y. To leave out t3, t5 and t6 is of no account.
const QUOTIENTS: [&str; 9] = [
    "t", "t2", "t4", "t2/10", "t4/216", "t6/9360", "t/3", "t3/42", "t5/1320",
];
const OF_NO_ACCOUNT: [&str; 3] = ["t3", "t5", "t6"];
/// Those of a peg's angle.
const ANGLES: [&str; 3] = ["u", "u u", "angle"];

/// All faults, those of a peg's angle among them or not.
fn faults(angles: &[&'static str]) -> Vec<Fault> {
    let mut faults: Vec<Fault> = ["t3 t", "t3 t2", "t3 t3", "t5 t"].map(OtherPowers).to_vec();
    faults.extend(OF_NO_ACCOUNT.map(Nearest));
    faults.extend(["x", "y"].map(Down));
    for name in QUOTIENTS.iter().chain(angles) {
        faults.extend([Nearest(name), LeftOut(name)]);
    }
    faults
}

#[test]
fn every_fault_shows_in_an_element() {
    let shows = |fault: Fault, curve| fault.elements(curve) != Nothing.elements(curve);
    for curve in ROUNDED_CURVES {
        let rule = working_rule(curve.a, curve.r, curve.l);
        assert_eq!(Nothing.elements(curve), (rule.x, rule.y));
        assert!(!OF_NO_ACCOUNT
            .map(LeftOut)
            .iter()
            .any(|fault| shows(*fault, curve)));
    }
    for fault in faults(&[]) {
        assert!(
            ROUNDED_CURVES.iter().any(|curve| shows(fault, *curve)),
            "{fault:?}"
        );
    }
}

#[test]
fn every_fault_shows_in_an_offset() {
    let by = |fault: Fault, length| fault.offsets(ROUNDED_CURVE, length);
    let shows = |fault, length| by(fault, length) != by(Nothing, length);
    for length in ROUNDED_LENGTHS {
        assert_eq!(by(Nothing, length), offsets(ROUNDED_CURVE, length));
        assert!(!OF_NO_ACCOUNT
            .map(LeftOut)
            .iter()
            .any(|fault| shows(*fault, length)));
    }
    for fault in faults(&ANGLES) {
        let mut lengths = ROUNDED_LENGTHS.into_iter();
        assert!(lengths.any(|length| shows(fault, length)), "{fault:?}");
    }
}
