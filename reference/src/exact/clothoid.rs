//! The elements of the clothoid itself, whose first terms the papers take, in
//! fractions: every series is carried so far that what follows is below 10⁻⁴⁰, and π
//! has 36 decimals.

use super::elements::{cosine, sine, spiral_angle};
use super::fraction::Fraction;
use crate::curve::Curve;

/// Terms of each series. The spiral angle is 1/2 at most, half the deflection π/3.
const TERMS: u32 = 18;

/// The elements that hang on the spiral, mm.
#[derive(Clone, Debug)]
pub struct ClothoidElements {
    /// X of the spiral's end.
    pub x: Fraction,
    /// Y of the spiral's end.
    pub y: Fraction,
    /// Shift k along the tangent.
    pub k: Fraction,
    /// Shift p of the arc.
    pub p: Fraction,
    /// Tangent length TT, from TS to PI.
    pub tt: Fraction,
}

/// The elements of a curve whose fields are in range: X and Y are the integrals of the
/// cosine and the sine of l² / (2RL) over the spiral, the others as in document 01,
/// Clerk's sums.
pub fn clothoid_elements(curve: Curve) -> ClothoidElements {
    elements_with_terms(curve, TERMS)
}

fn elements_with_terms(curve: Curve, terms: u32) -> ClothoidElements {
    let s = spiral_angle(curve);
    let [r, l] = [curve.r, curve.l].map(Fraction::from);

    let x = &l * x_ratio(&s, terms);
    let y = &l * y_ratio(&s, terms);
    let k = &x - &r * sine(&s, terms);
    let p = &y - &r * (Fraction::from(1) - cosine(&s, terms));
    let half_angle = pi() * curve.a / 1_296_000;
    let tan = sine(&half_angle, terms) / cosine(&half_angle, terms);
    let tt = &k + (&r + &p) * tan;
    ClothoidElements { x, y, k, p, tt }
}

/// π to 36 decimals.
fn pi() -> Fraction {
    Fraction::from(3_141_592_653_589_793_238_462_643_383_279_502_884_i128) / 10_i128.pow(36)
}

/// X and Y over L at the spiral angle s, 1/2 at most.
pub fn ratios(s: &Fraction) -> [Fraction; 2] {
    [x_ratio(s, TERMS), y_ratio(s, TERMS)]
}

/// X over L, the sum of (−1)ⁿ s²ⁿ / ((4n + 1) (2n)!): 1 − z/(1 × 2) × (1/5 − z/(3 × 4)
/// × (1/9 − ..)) with z = s².
fn x_ratio(s: &Fraction, terms: u32) -> Fraction {
    let z = s * s;
    let mut sum = Fraction::from(0);
    for n in (0..terms).rev() {
        let first = Fraction::from(1) / (4 * n + 1);
        sum = first - &z * sum / ((2 * n + 1) * (2 * n + 2));
    }
    sum
}

/// Y over L, the sum of (−1)ⁿ s²ⁿ⁺¹ / ((4n + 3) (2n + 1)!): s(1/3 − z/(2 × 3) × (1/7 −
/// z/(4 × 5) × (1/11 − ..))) with z = s².
fn y_ratio(s: &Fraction, terms: u32) -> Fraction {
    let z = s * s;
    let mut sum = Fraction::from(0);
    for n in (0..terms).rev() {
        let first = Fraction::from(1) / (4 * n + 3);
        sum = first - &z * sum / ((2 * n + 2) * (2 * n + 3));
    }
    s * sum
}

#[cfg(test)]
mod tests {
    use super::*;
    use crate::exact::elements;

    fn fraction(upper: i128, lower: i128) -> Fraction {
        Fraction::from(upper) / lower
    }

    fn list(elements: ClothoidElements) -> [Fraction; 5] {
        let ClothoidElements { x, y, k, p, tt } = elements;
        [x, y, k, p, tt]
    }

    /// Numbers in 10⁻²⁰ mm, rounded down, worked by another program: X and Y by
    /// numerical integration, the others from them, in 50 decimal digits.
    #[test]
    fn digits_of_the_elements() {
        let worked: [(Curve, [i128; 5]); 4] = [
            (
                Curve::new(177_764, 350_000, 40_000),
                [
                    3_998_694_074_984_736_634_626_538,
                    76_172_707_663_187_994_342_134,
                    1_999_782_332_668_966_757_960_437,
                    19_045_397_904_786_578_081_335,
                    18_098_927_893_995_102_887_615_173,
                ],
            ),
            (
                Curve::new(432_000, 500_000, 500_000),
                [
                    48_764_384_410_017_227_248_766_675,
                    8_185_702_368_785_029_262_664_577,
                    24_793_107_479_807_077_235_102_278,
                    2_064_830_463_303_665_068_478_656,
                    114_972_039_129_708_874_044_947_975,
                ],
            ),
            (
                Curve::new(432_000, 5_000_000, 500_000),
                [
                    49_987_501_446_675_795_228_300_375,
                    833_184_535_646_128_336_073_224,
                    24_997_916_811_336_630_830_867_875,
                    208_314_733_129_251_617_508_629,
                    891_384_132_297_520_293_015_587_384,
                ],
            ),
            (
                Curve::new(300_000, 20_000, 5_000),
                [
                    499_219_314_936_602_557_815_224,
                    20_810_093_401_773_634_288_669,
                    249_869_848_166_147_177_900_339,
                    5_205_427_860_431_740_586_863,
                    2_034_351_158_724_718_066_521_887,
                ],
            ),
        ];
        for (curve, expected) in worked {
            let found = list(clothoid_elements(curve)).into_iter();
            for (element, digits) in found.zip(expected) {
                let scaled = element * 10_i128.pow(20);
                assert!(scaled >= Fraction::from(digits), "{curve}");
                assert!(scaled < Fraction::from(digits + 1), "{curve}");
            }
        }
    }

    /// The terms of document 01 and that of document 02 come first.
    #[test]
    fn first_terms_are_the_papers() {
        for s in [fraction(1, 2), fraction(2, 35)] {
            assert_eq!(x_ratio(&s, 4), elements::x_ratio(&s));
            assert_eq!(y_ratio(&s, 3), elements::y_ratio(&s));
        }
    }

    /// With further terms nothing changes at 30 decimals of a mm.
    #[test]
    fn terms_suffice() {
        let least = fraction(1, 10_i128.pow(30));
        let curves = [(500_000, 500_000), (5_000_000, 500_000), (5_000_000, 0)];
        for (r, l) in curves {
            let curve = Curve::new(432_000, r, l);
            let more = list(elements_with_terms(curve, TERMS + 4));
            for (element, more) in list(clothoid_elements(curve)).into_iter().zip(more) {
                let change = element - more;
                assert!(change < least && change * -1 < least, "{curve}");
            }
        }
    }
}
