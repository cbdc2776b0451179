//! The offsets on a spiral in fractions (document 02, Pegs along the line, and
//! Interchange ramps: "pegs follow").

use super::elements::{x_ratio, y_ratio};
use super::fraction::Fraction;
use crate::curve::Curve;

/// X and y on a spiral of a right curve, L above 0, at length l in µm from its
/// outer end: document 01's sums by the angle l² / (2RL) "at the same l".
pub fn exact_offsets(curve: Curve, l: u64) -> [Fraction; 2] {
    let l = Fraction::from(l) / 1_000;
    let s = angle(curve, &l);
    [&l * x_ratio(&s), &l * y_ratio(&s)]
}

/// The angle l² / (2RL), all in mm.
fn angle(Curve { r, l: spiral, .. }: Curve, l: &Fraction) -> Fraction {
    l * l / (Fraction::from(2) * r * spiral)
}

#[cfg(test)]
mod tests {
    use super::*;
    use crate::exact::elements::exact_elements;

    const CASE_1: Curve = Curve::new(177_764, 350_000, 40_000);

    fn fraction(upper: i128, lower: i128) -> Fraction {
        Fraction::from(upper) / lower
    }

    #[test]
    fn ends_of_the_spiral() {
        for curve in [CASE_1, Curve::new(432_000, 500_000, 500_000)] {
            assert_eq!(exact_offsets(curve, 0), [(); 2].map(|_| Fraction::from(0)));
            let elements = exact_elements(curve);
            let whole = 1_000 * u64::from(curve.l);
            assert_eq!(exact_offsets(curve, whole), [elements.x, elements.y]);
        }
    }

    /// Half of the spiral has a quarter of its angle 2/35.
    #[test]
    fn middle_of_case_1() {
        let s = angle(CASE_1, &Fraction::from(20_000));
        assert_eq!(s, fraction(1, 70));
        let [x, y] = exact_offsets(CASE_1, 20_000_000);
        let over = |number: i128, power: u32| fraction(1, number * 70_i128.pow(power));
        let ratio = fraction(1, 1) - over(10, 2) + over(216, 4) - over(9_360, 6);
        assert_eq!(x, ratio * 20_000);
        let ratio = over(3, 1) - over(42, 3) + over(1_320, 5);
        assert_eq!(y, ratio * 20_000);
    }
}
