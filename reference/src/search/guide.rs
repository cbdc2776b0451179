//! The differences of one curve in floating-point numbers, which guide the
//! climbs: quick, and right to less than 0.001 µm. What a climb reaches is
//! worked in fractions; no figure is taken from here.

use crate::accuracy::Differences;
use crate::curve::Curve;
use crate::elements::{working_rule, Elements};
use crate::exact::elements::TERMS;
use std::f64::consts::PI;

/// About what [`crate::accuracy::curve_differences`] gives.
pub fn rough_differences(Curve { a, r, l }: Curve) -> Differences {
    let rule = working_rule(a, r, l);
    let [a, r, l] = [a, r, l].map(f64::from);
    let s = l / (2.0 * r);
    let (sine_of_s, cosine_of_s) = sine_and_cosine(s, TERMS);
    let (sine, cosine) = sine_and_cosine(a * PI / 1_296_000.0, TERMS);

    let [s2, s3] = [s * s, s * s * s];
    let x = l * (1.0 - s2 / 10.0 + s2 * s2 / 216.0 - s3 * s3 / 9_360.0);
    let y = l * (s / 3.0 - s3 / 42.0 + s2 * s3 / 1_320.0);
    let k = x - r * sine_of_s;
    let p = y - r * (1.0 - cosine_of_s);
    let d = r * (a * PI / 648_000.0) - l;
    let tt = k + (r + p) * sine / cosine;
    let [x, y, k, p, d, tt] = subtract(rule, [x, y, k, p, d, tt]);
    [x, y, k, p, d, tt, d - 2.0 * tt]
}

/// The rule's elements, µm, less these, mm.
fn subtract(rule: Elements, elements: [f64; 6]) -> [f64; 6] {
    let Elements { x, y, k, p, d, tt } = rule;
    let mut differences = [x, y, k, p, d, tt].map(|element| element as f64);
    for (difference, element) in differences.iter_mut().zip(elements) {
        *difference -= 1_000.0 * element;
    }
    differences
}

/// Sine and cosine of q by this many terms of their power series: the library's may
/// differ from machine to machine.
pub fn sine_and_cosine(q: f64, terms: u32) -> (f64, f64) {
    let (mut sine, mut cosine) = (1.0, 1.0);
    for j in (1..terms).rev().map(f64::from) {
        sine = 1.0 - q * q * sine / (2.0 * j * (2.0 * j + 1.0));
        cosine = 1.0 - q * q * cosine / ((2.0 * j - 1.0) * 2.0 * j);
    }
    (q * sine, cosine)
}

#[cfg(test)]
mod tests {
    use super::super::random_curve;
    use super::*;
    use crate::accuracy::curve_differences;
    use crate::samples::dice::Dice;

    #[test]
    fn close_to_the_exact_differences() {
        let mut dice = Dice::new(1);
        for _ in 0..100 {
            let curve = random_curve(&mut dice);
            let exact = curve_differences(curve);
            let rough = rough_differences(curve);
            let mut pairs = rough.into_iter().zip(exact);
            assert!(pairs.all(|(rough, exact)| (rough - exact).abs() < 0.001));
        }
    }
}
