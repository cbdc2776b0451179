//! Curves, and lengths on spirals, at which a division that goes to the nearest µm
//! leaves exactly one half, or 1 less than that (document 02, Nearest, not down).

use super::call_edges::{long_line, LARGE_DEFLECTION};
use super::named::{named, Claim, Named};
use crate::curve::Curve;
use crate::line::{Line, GREATEST_DISTANCE};
use Division::{Arc, CosinePart, SinePart, Tangent, X, Y};

/// What is divided last.
#[derive(Clone, Copy, Debug, PartialEq, Eq, PartialOrd, Ord)]
pub enum Division {
    X,
    Y,
    SinePart,
    CosinePart,
    Arc,
    Tangent,
}

/// Curves at which the division leaves one half: the quotient goes up. Without its
/// half it is even, so that halves to the even number would go down; only that of
/// the arc of 999.5 µm, which is accepted, is odd. The last terms of x and y count in
/// those of X and Y and, here and in the lists below, in some of the others.
pub const HALVES: [(Division, Curve); 9] = [
    (X, Curve::new(252_000, 107_000, 100_000)),
    (Y, Curve::new(252_000, 105_000, 50_000)),
    (SinePart, Curve::new(108_000, 325_000, 60_000)),
    (CosinePart, Curve::new(108_000, 125_000, 30_000)),
    (Arc, Curve::new(7_200, 100_000, 0)),
    (Arc, ARC_GONE_UP),
    (Tangent, Curve::new(3_600, 125_000, 0)),
    (Tangent, Curve::new(300_965, 202_000, 184_000)),
    (Tangent, TANGENT_GONE_UP),
];

/// Curves at which the division leaves 1 less than half: the quotient goes down.
/// The arc of 999.499999 µm is refused.
pub const BELOW_HALVES: [(Division, Curve); 8] = [
    (X, Curve::new(252_000, 49_941, 48_137)),
    (Y, Curve::new(252_000, 54_725, 50_083)),
    (SinePart, Curve::new(252_000, 52_221, 44_731)),
    (CosinePart, Curve::new(252_000, 54_507, 50_493)),
    (Arc, Curve::new(162_000, 440_773, 0)),
    (Arc, ARC_GONE_DOWN),
    (Tangent, Curve::new(39_180, 525_673, 43_300)),
    (Tangent, TANGENT_GONE_DOWN),
];

/// Their arcs are 1,000 and 999 µm.
const ARC_GONE_UP: Curve = Curve::new(1_438, 4_475_000, 31_197);
const ARC_GONE_DOWN: Curve = Curve::new(5_333, 1_334_823, 34_511);

/// Their TT are 33,436,001 and 112,308,000 µm: with a distance in whole mm, the
/// straight is 999 and 1,000 µm.
const TANGENT_GONE_UP: Curve = Curve::new(38_100, 361_000, 0);
const TANGENT_GONE_DOWN: Curve = Curve::new(57_547, 692_976, 30_000);

/// Curves and lengths on their spirals, µm, at which the last division of x, then
/// that of y, leaves one half.
pub const HALF_LENGTHS: [(Curve, u64); 2] = [
    (Curve::new(LARGE_DEFLECTION, 105_000, 90_000), 75_000_000),
    (Curve::new(LARGE_DEFLECTION, 75_000, 70_000), 50_000_000),
];

/// The same with 1 less than half.
pub const BELOW_HALF_LENGTHS: [(Curve, u64); 2] = [
    (Curve::new(LARGE_DEFLECTION, 546_000, 500_000), 467_288_031),
    (Curve::new(LARGE_DEFLECTION, 523_000, 500_000), 444_622_927),
];

/// The curves, for the call of one curve's elements.
pub fn curves() -> Vec<Named<Curve>> {
    named_curves(0)
}

/// The same in a line each, and lines whose first straight a TT decides.
pub fn lines() -> Vec<Named<Line>> {
    let curves = named_curves(1).into_iter();
    let lines = curves.map(|curve| curve.map(|curve| long_line(40, 12, curve)));
    lines.chain(straights()).collect()
}

/// The curves; the refused one has this place.
fn named_curves(place: usize) -> Vec<Named<Curve>> {
    let halves = HALVES.map(|(division, curve)| (format!("{division:?} of a half"), curve));
    let below = BELOW_HALVES.map(|(division, curve)| (format!("{division:?} below a half"), curve));
    let both = halves.into_iter().chain(below);
    let curves = both.map(|(name, curve)| {
        let number = if curve == ARC_GONE_DOWN { 14 } else { 0 };
        let claim = Claim::accepted_or(number, place);
        named(format!("{name}, curve {curve}"), claim, curve)
    });
    curves.collect()
}

/// The least distance that leaves a straight, and 1 mm less: 999 and 0 µm.
fn straights() -> Vec<Named<Line>> {
    let edges = [
        (TANGENT_GONE_UP, 33_438, 0),
        (TANGENT_GONE_UP, 33_437, 15),
        (TANGENT_GONE_DOWN, 112_309, 0),
        (TANGENT_GONE_DOWN, 112_308, 15),
    ];
    let lines = edges.map(|(curve, distance, number)| {
        let line = Line::new(40, 12, 0, &[distance, GREATEST_DISTANCE], &[curve]);
        let name = format!("straight of distance {distance}, curve {curve}");
        named(name, Claim::accepted_or(number, 0), line)
    });
    lines.to_vec()
}

#[cfg(test)]
mod tests {
    use super::*;
    use crate::elements::{
        arc, cosine, elements, full_angle, half_angle, quotient, sine, spiral_angle, tan,
        working_rule, x_ratio, y_ratio, Elements, SCALE,
    };
    use crate::pegs::offsets;
    use crate::stations::{check, straight};
    use std::collections::BTreeSet;

    /// What is divided, and by what.
    fn divided(division: Division, curve: Curve) -> (i128, i128) {
        let t = spiral_angle(curve.l, curve.r);
        let [r, l] = [curve.r, curve.l].map(i128::from);
        match division {
            X => (l * x_ratio(t), 1_000_000),
            Y => (l * y_ratio(t), 1_000_000),
            SinePart => (r * sine(t), 1_000_000),
            CosinePart => (r * (SCALE - cosine(t)), 1_000_000),
            Arc => (r * full_angle(curve.a), 1_000_000),
            Tangent => {
                let Elements { p, .. } = working_rule(curve.a, curve.r, curve.l);
                ((1_000 * r + p) * tan(half_angle(curve.a)), SCALE)
            }
        }
    }

    /// What is divided by 10⁹ for x and for y at this length.
    fn divided_for_offsets(Curve { r, l: spiral, .. }: Curve, l: u64) -> [i128; 2] {
        let l = i128::from(l);
        let u = quotient(l * 1_000_000, i128::from(spiral));
        let angle = quotient(quotient(u * u, SCALE) * spiral_angle(spiral, r), SCALE);
        [x_ratio(angle) * l, y_ratio(angle) * l]
    }

    #[test]
    fn divisions_leave_one_half() {
        for (division, curve) in HALVES {
            let (upper, lower) = divided(division, curve);
            assert_eq!(upper % lower, lower / 2, "{division:?} of {curve}");
            let even = upper / lower % 2 == 0;
            assert_eq!(even, curve != ARC_GONE_UP, "{division:?} of {curve}");
        }
        for (division, curve) in BELOW_HALVES {
            let (upper, lower) = divided(division, curve);
            assert_eq!(upper % lower, lower / 2 - 1, "{division:?} of {curve}");
        }
    }

    #[test]
    fn every_division_is_there() {
        for halves in [&HALVES[..], &BELOW_HALVES] {
            let divisions: BTreeSet<Division> = halves.iter().map(|half| half.0).collect();
            assert_eq!(divisions, [X, Y, SinePart, CosinePart, Arc, Tangent].into());
        }
    }

    #[test]
    fn divisions_of_offsets_leave_one_half() {
        for (lengths, left) in [
            (HALF_LENGTHS, SCALE / 2),
            (BELOW_HALF_LENGTHS, SCALE / 2 - 1),
        ] {
            for (i, (curve, length)) in lengths.into_iter().enumerate() {
                let upper = divided_for_offsets(curve, length)[i];
                assert_eq!(upper % SCALE, left, "{curve} at {length}");
                assert_eq!(upper / SCALE % 2, 0, "{curve} at {length}");
            }
        }
    }

    /// A, R, L, then X, Y, k, p, D and TT, worked by another program.
    const WORKED: &str = "\
252000 107000 100000: 97838367 15335066 49638267 3863859 30725161 127265977
252000 105000 50000: 49717296 3952215 24952833 990058 78281700 99167871
108000 325000 60000: 59948896 1845031 29991481 461399 110169602 117198600
108000 125000 30000: 29956829 1198766 14992803 299845 35449847 48566795
7200 100000 0: 0 0 0 0 3490659 1745506
1438 4475000 31197: 31196962 36248 15598495 9062 1000 31197589
3600 125000 0: 0 0 0 0 2181662 1090859
300965 202000 184000: 180219754 27522842 91367532 6932000 110742138 278178857
38100 361000 0: 0 0 0 0 66681758 33436001
252000 49941 48137: 47030904 7605682 23883355 1917303 12877442 60194930
252000 54725 50083: 49044445 7525634 24867734 1895565 16776200 64513880
252000 52221 44731: 43917444 6302701 22229446 1586054 19068987 59905551
252000 54507 50493: 49420455 7677120 25067030 1934080 16099863 64587500
162000 440773 0: 0 0 0 0 346182304 182574154
5333 1334823 34511: 34510423 148708 17255404 37177 999 34512845
39180 525673 43300: 43292656 594369 21648777 148601 56551586 71739383
57547 692976 30000: 29998594 216450 14999765 54113 163337344 112308000
";

    #[test]
    fn elements_at_halves() {
        let rows = curves().into_iter().map(|named| {
            let Curve { a, r, l } = named.sample;
            let Elements { x, y, k, p, d, tt } = working_rule(a, r, l);
            format!("{a} {r} {l}: {x} {y} {k} {p} {d} {tt}\n")
        });
        assert_eq!(rows.collect::<String>(), WORKED);
    }

    #[test]
    fn offsets_at_halves() {
        let lengths = [HALF_LENGTHS, BELOW_HALF_LENGTHS].concat();
        let found: Vec<(i128, i128)> = lengths
            .into_iter()
            .map(|(curve, length)| offsets(curve, length))
            .collect();
        let expected = [
            (74_338_391, 7_393_533),
            (49_717_296, 3_952_215),
            (459_869_426, 61_585_092),
            (438_312_146, 55_452_098),
        ];
        assert_eq!(found, expected);
    }

    #[test]
    fn limits_of_14_and_15() {
        let arcs = [ARC_GONE_UP, ARC_GONE_DOWN].map(|Curve { a, r, l }| arc(a, r, l));
        assert_eq!(arcs, [1_000, 999]);
        let straights: Vec<i128> = straights()
            .iter()
            .map(|named| straight(&named.sample, 0))
            .collect();
        assert_eq!(straights, [1_999, 999, 1_000, 0]);
    }

    #[test]
    fn each_is_answered_as_claimed() {
        for named in curves() {
            let Curve { a, r, l } = named.sample;
            assert!(named.holds(&[14], &elements(a, r, l)), "{named:?}");
        }
        for named in lines() {
            assert!(named.holds(&[14, 15], &check(&named.sample)), "{named:?}");
        }
    }
}
