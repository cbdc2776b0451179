//! The elements of one curve in fractions, in the order and words of document
//! 01, Clerk's sums, and of document 02, Interchange ramps.
//!
//! As in the working rule's module, the paper's capital X and Y are
//! [`ExactElements::x`] and [`ExactElements::y`].

use super::fraction::Fraction;
use crate::curve::Curve;

/// Terms of the power series: through power 15 of the sine and 14 of the cosine
/// (document 01, Clerk's sums).
pub const TERMS: u32 = 8;

/// The elements of one curve in fractions, mm.
#[derive(Clone, Debug, PartialEq, Eq)]
pub struct ExactElements {
    /// X of the spiral's end.
    pub x: Fraction,
    /// Y of the spiral's end.
    pub y: Fraction,
    /// Shift k along the tangent.
    pub k: Fraction,
    /// Shift p of the arc.
    pub p: Fraction,
    /// Length D of the arc.
    pub d: Fraction,
    /// Tangent length TT, from TS to PI.
    pub tt: Fraction,
}

/// All six elements of a curve whose fields are in range (document 01, Clerk's
/// sums; document 02, Interchange ramps).
pub fn exact_elements(curve: Curve) -> ExactElements {
    elements_with_terms(curve, TERMS)
}

/// The same with this many terms of sine and cosine.
pub fn elements_with_terms(curve: Curve, terms: u32) -> ExactElements {
    let s = spiral_angle(curve);
    let [r, l] = [curve.r, curve.l].map(Fraction::from);

    let x = &l * x_ratio(&s);
    let y = &l * y_ratio(&s);
    let k = &x - &r * sine(&s, terms);
    let p = &y - &r * (Fraction::from(1) - cosine(&s, terms));
    let d = exact_arc(curve);
    let half_angle = half_angle(curve.a);
    let tan = sine(&half_angle, terms) / cosine(&half_angle, terms);
    let tt = &k + (&r + &p) * tan;
    ExactElements { x, y, k, p, d, tt }
}

/// π: 3,141,592,653,589,793 / 10¹⁵ (document 01, Clerk's sums).
fn pi() -> Fraction {
    Fraction::from(3_141_592_653_589_793_u64) / 1_000_000_000_000_000_u64
}

/// The angle A × π / 648,000 (document 01, Clerk's sums).
fn full_angle(a: u32) -> Fraction {
    pi() * a / 648_000
}

/// The half angle A × π / 1,296,000 (document 01, Clerk's sums).
fn half_angle(a: u32) -> Fraction {
    pi() * a / 1_296_000
}

/// The spiral angle s = L / 2R (document 01, Clerk's sums).
pub(super) fn spiral_angle(Curve { r, l, .. }: Curve) -> Fraction {
    Fraction::from(l) / (Fraction::from(2) * r)
}

/// Sine of q, its power series through power 2 × terms − 1 (document 01,
/// Clerk's sums): q(1 − z/(2 × 3) × (1 − z/(4 × 5) × (1 − ..))) with z = q²,
/// which is the same sum and keeps the numbers short.
pub(super) fn sine(q: &Fraction, terms: u32) -> Fraction {
    let z = q * q;
    let mut sum = Fraction::from(1);
    for j in (1..terms).rev() {
        sum = Fraction::from(1) - &z * sum / ((2 * j) * (2 * j + 1));
    }
    q * sum
}

/// Cosine of q, its power series through power 2 × terms − 2 (document 01,
/// Clerk's sums): 1 − z/(1 × 2) × (1 − z/(3 × 4) × (1 − ..)) with z = q².
pub(super) fn cosine(q: &Fraction, terms: u32) -> Fraction {
    let z = q * q;
    let mut sum = Fraction::from(1);
    for j in (1..terms).rev() {
        sum = Fraction::from(1) - &z * sum / ((2 * j - 1) * (2 * j));
    }
    sum
}

/// X over L: 1 − s²/10 + s⁴/216 (document 01, Clerk's sums) − s⁶/9360: "X now
/// loses L × s⁶/9360" (document 02, Interchange ramps).
pub fn x_ratio(s: &Fraction) -> Fraction {
    let s2 = s * s;
    let s4 = &s2 * &s2;
    let s6 = &s4 * &s2;
    Fraction::from(1) - s2 / 10 + s4 / 216 - s6 / 9_360
}

/// Y over L: s/3 − s³/42 (document 01, Clerk's sums) + s⁵/1320: "Y gains L ×
/// s⁵/1320" (document 02, Interchange ramps).
pub fn y_ratio(s: &Fraction) -> Fraction {
    let s2 = s * s;
    let s3 = &s2 * s;
    let s5 = &s3 * &s2;
    s / 3 - s3 / 42 + s5 / 1_320
}

/// D = R × A × π / 648,000 − L, which may be below zero (document 01, Clerk's
/// sums).
pub fn exact_arc(Curve { a, r, l }: Curve) -> Fraction {
    full_angle(a) * r - l
}

#[cfg(test)]
mod tests {
    use super::*;

    const CASE_1: Curve = Curve::new(177_764, 350_000, 40_000);

    fn fraction(upper: i128, lower: i128) -> Fraction {
        Fraction::from(upper) / lower
    }

    /// q to this power.
    fn power(q: &Fraction, times: u32) -> Fraction {
        (0..times).fold(Fraction::from(1), |product, _| product * q)
    }

    /// The term qⁿ / n! with the series' sign: plus for 0 and 1, minus for 2
    /// and 3, and so on.
    fn term(q: &Fraction, n: u32) -> Fraction {
        let factorial: i128 = (1..=i128::from(n)).product();
        let sign = [1, 1, -1, -1][(n % 4) as usize];
        power(q, n) * sign / factorial
    }

    /// The sum of the terms of these powers.
    fn series(q: &Fraction, powers: impl Iterator<Item = u32>) -> Fraction {
        powers.fold(Fraction::from(0), |sum, n| sum + term(q, n))
    }

    #[test]
    fn sine_and_cosine_of_1() {
        // Over 15! and 14!.
        let one = Fraction::from(1);
        let sine_of_1 = fraction(1_100_370_038_249, 1_307_674_368_000);
        assert_eq!(sine(&one, TERMS), sine_of_1);
        let cosine_of_1 = fraction(47_102_631_757, 87_178_291_200);
        assert_eq!(cosine(&one, TERMS), cosine_of_1);
    }

    #[test]
    fn sine_and_cosine_are_sums_of_their_terms() {
        for q in [fraction(0, 1), fraction(1, 3), fraction(-5, 7)] {
            assert_eq!(sine(&q, 8), series(&q, (1..=15).step_by(2)));
            assert_eq!(cosine(&q, 8), series(&q, (0..=14).step_by(2)));
            assert_eq!(sine(&q, 2), series(&q, (1..=3).step_by(2)));
            assert_eq!(cosine(&q, 1), Fraction::from(1));
        }
    }

    #[test]
    fn angles() {
        // Half a turn, and half of it.
        assert_eq!(full_angle(648_000), pi());
        assert_eq!(half_angle(648_000), fraction(1, 2) * pi());
        assert_eq!(pi().to_f64(), std::f64::consts::PI);
        assert_eq!(spiral_angle(CASE_1), fraction(2, 35));
    }

    /// X, Y, k, p, D and TT.
    fn list(elements: ExactElements) -> [Fraction; 6] {
        let ExactElements { x, y, k, p, d, tt } = elements;
        [x, y, k, p, d, tt]
    }

    /// Checks the elements against numbers in 10⁻¹² mm, rounded down.
    fn check(curve: Curve, expected: [i128; 6]) {
        for (element, picometres) in list(exact_elements(curve)).into_iter().zip(expected) {
            let scaled = element * 1_000_000_000_000_u64;
            assert!(scaled >= Fraction::from(picometres));
            assert!(scaled < Fraction::from(picometres + 1));
        }
    }

    /// The numbers are worked by another program's fractions.
    #[test]
    fn digits_of_the_elements() {
        let case_1 = [
            39_986_940_749_847_359,
            761_727_076_632_932,
            19_997_823_326_689_660,
            190_453_979_048_918,
            261_638_467_230_644_424,
            180_989_278_939_951_492,
        ];
        check(CASE_1, case_1);
        let greatest = [
            499_875_014_466_757_923,
            8_331_845_356_466_450,
            249_979_168_113_366_279,
            2_083_147_331_297_683,
            9_971_975_511_965_976_666,
            8_913_841_322_976_874_792,
        ];
        check(Curve::new(432_000, 5_000_000, 500_000), greatest);
        let below_zero = [
            19_505_753_650_284_900,
            3_274_283_008_658_008,
            9_917_242_878_200_840,
            825_934_246_465_462,
            -19_999_903_037_263_779,
            9_917_293_361_690_063,
        ];
        check(Curve::new(1, 20_000, 20_000), below_zero);
        let longest_ramp = [
            487_643_841_257_122_507,
            81_857_075_216_450_216,
            247_931_071_955_021_006,
            20_648_356_161_636_574,
            547_197_551_196_597_666,
            1_149_720_477_704_365_174,
        ];
        check(Curve::new(432_000, 500_000, 500_000), longest_ramp);
    }

    #[test]
    fn simple_curve() {
        let [x, y, k, p, ..] = list(exact_elements(Curve::new(177_764, 350_000, 0)));
        assert!([x, y, k, p]
            .iter()
            .all(|element| *element == Fraction::from(0)));
    }

    /// Powers above 15 change no element by 0.01 µm.
    #[test]
    fn terms_suffice() {
        for curve in [CASE_1, Curve::new(432_000, 5_000_000, 500_000)] {
            let more = list(elements_with_terms(curve, 12));
            for (element, more) in list(exact_elements(curve)).into_iter().zip(more) {
                let change = element - more;
                assert!(change < fraction(1, 100_000) && change > fraction(-1, 100_000));
            }
        }
    }
}
