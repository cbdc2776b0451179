//! The elements of one curve, in the order and words of document 01, Working
//! rule, and of document 02, Nearest, not down, and Interchange ramps. All work is
//! in `i128`, so that no step can overflow.
//!
//! Capital X and Y of the paper are [`Elements::x`] and [`Elements::y`]; the
//! paper's small x and y are the functions [`x_ratio`] and [`y_ratio`].

use crate::refusal::{refuse, Refusal};

/// Greatest deflection A, seconds of arc (document 01, The line).
pub const GREATEST_DEFLECTION: u32 = 432_000;
/// Smallest radius R in range, mm (document 01, The line).
pub const SMALLEST_RADIUS: u32 = 20_000;
/// Greatest radius R, mm (document 01, The line).
pub const GREATEST_RADIUS: u32 = 5_000_000;
/// Greatest spiral length L, mm (document 01, The line).
pub const GREATEST_SPIRAL: u32 = 500_000;
/// Least arc D, µm (document 01, Refusal table, 14).
pub const LEAST_ARC: i128 = 1_000;

/// The scale 10⁹ (document 01, Working rule).
pub const SCALE: i128 = 1_000_000_000;
/// π at the scale 10⁹ (document 01, Working rule, full angle).
const PI: i128 = 3_141_592_654;
/// From mm at the scale 10⁹ to µm (document 01, Working rule, X and Y).
pub const TO_MICROMETRES: i128 = 1_000_000;

/// The elements of one curve, µm.
#[derive(Clone, Copy, Debug, PartialEq, Eq)]
pub struct Elements {
    /// X of the spiral's end.
    pub x: i128,
    /// Y of the spiral's end.
    pub y: i128,
    /// Shift k along the tangent.
    pub k: i128,
    /// Shift p of the arc.
    pub p: i128,
    /// Length D of the arc.
    pub d: i128,
    /// Tangent length TT, from TS to PI.
    pub tt: i128,
}

/// The elements of the curve with deflection `a` in seconds, radius `r` and
/// spiral length `l` in mm. Checks 9, 10, 11, 14 in this order, place 0
/// (document 01, Refusal table, Order).
pub fn elements(a: u32, r: u32, l: u32) -> Result<Elements, Refusal> {
    check_ranges(a, r, l)?;
    check_arc(a, r, l)?;
    Ok(working_rule(a, r, l))
}

/// Checks 9, 10 and 11, place 0 (document 01, Refusal table).
pub fn check_ranges(a: u32, r: u32, l: u32) -> Result<(), Refusal> {
    if !(1..=GREATEST_DEFLECTION).contains(&a) {
        return refuse(9, 0);
    }
    if !(SMALLEST_RADIUS..=GREATEST_RADIUS).contains(&r) {
        return refuse(10, 0);
    }
    if l > GREATEST_SPIRAL || l > r {
        return refuse(11, 0);
    }
    Ok(())
}

/// Check 14, place 0 (document 01, Refusal table).
pub fn check_arc(a: u32, r: u32, l: u32) -> Result<(), Refusal> {
    if arc(a, r, l) < LEAST_ARC {
        return refuse(14, 0);
    }
    Ok(())
}

/// Small x and y of a spiral angle.
#[derive(Clone, Copy)]
pub struct Ratios {
    pub x: fn(i128) -> i128,
    pub y: fn(i128) -> i128,
}

/// Those of the rule.
pub const RATIOS: Ratios = Ratios {
    x: x_ratio,
    y: y_ratio,
};

/// Those with the terms of source document 002 alone.
pub const SHORTER_RATIOS: Ratios = Ratios {
    x: shorter_x_ratio,
    y: shorter_y_ratio,
};

/// All six elements of a curve whose fields are in range (document 01, Working
/// rule; document 02, Nearest, not down, and Interchange ramps).
pub fn working_rule(a: u32, r: u32, l: u32) -> Elements {
    rule_with(RATIOS, a, r, l)
}

/// The same with these x and y.
pub fn rule_with(ratios: Ratios, a: u32, r: u32, l: u32) -> Elements {
    let t = spiral_angle(l, r);
    let d = arc(a, r, l);
    let (r, l) = (i128::from(r), i128::from(l));

    let x = nearest(l * (ratios.x)(t), TO_MICROMETRES);
    let y = nearest(l * (ratios.y)(t), TO_MICROMETRES);
    let k = x - nearest(r * sine(t), TO_MICROMETRES);
    let p = y - nearest(r * (SCALE - cosine(t)), TO_MICROMETRES);
    let tt = k + nearest((1_000 * r + p) * tan(half_angle(a)), SCALE);
    Elements { x, y, k, p, d, tt }
}

/// A quotient of numbers not below zero, rounded down (document 01, Working
/// rule).
pub fn quotient(upper: i128, lower: i128) -> i128 {
    debug_assert!(upper >= 0, "a quotient of a number below zero: {upper}");
    debug_assert!(lower > 0, "a quotient by a number not above zero: {lower}");
    upper / lower
}

/// A quotient of numbers not below zero, to the nearest whole number, halves up:
/// "the last division by 10⁶ in X, Y, the sine and cosine parts of k and p and the
/// arc, the division by 10⁹ in TT, and the last in peg offsets now go to the
/// nearest µm, halves up" (document 02, Nearest, not down).
pub fn nearest(upper: i128, lower: i128) -> i128 {
    quotient(2 * upper + lower, 2 * lower)
}

/// Full angle: A × 3,141,592,654 / 648,000 (document 01, Working rule).
pub fn full_angle(a: u32) -> i128 {
    quotient(i128::from(a) * PI, 648_000)
}

/// Half angle: the same over 1,296,000 (document 01, Working rule).
pub(crate) fn half_angle(a: u32) -> i128 {
    quotient(i128::from(a) * PI, 1_296_000)
}

/// Spiral angle t: L × 500,000,000 / R (document 01, Working rule).
pub fn spiral_angle(l: u32, r: u32) -> i128 {
    quotient(i128::from(l) * 500_000_000, i128::from(r))
}

/// Sine of q: terms q, then former × z / (10⁹ × 2j × (2j + 1)), j = 1 to 6,
/// signs alternating, first plus (document 01, Working rule).
pub fn sine(q: i128) -> i128 {
    let z = quotient(q * q, SCALE);
    let mut term = q;
    let mut sum = term;
    for j in 1..=6 {
        term = quotient(term * z, SCALE * (2 * j) * (2 * j + 1));
        sum += sign(j) * term;
    }
    sum
}

/// Cosine of q: terms 10⁹, then former × z / (10⁹ × (2j − 1) × 2j), j = 1 to
/// 6, signs alternating, first plus (document 01, Working rule).
pub fn cosine(q: i128) -> i128 {
    let z = quotient(q * q, SCALE);
    let mut term = SCALE;
    let mut sum = term;
    for j in 1..=6 {
        term = quotient(term * z, SCALE * (2 * j - 1) * (2 * j));
        sum += sign(j) * term;
    }
    sum
}

/// The sign of term j: minus for odd j, plus for even.
fn sign(j: i128) -> i128 {
    if j % 2 == 1 {
        -1
    } else {
        1
    }
}

/// t2 = t × t / 10⁹ (document 01, Working rule).
fn t2(t: i128) -> i128 {
    quotient(t * t, SCALE)
}

/// t3 = t2 × t / 10⁹ (document 01, Working rule).
fn t3(t: i128) -> i128 {
    quotient(t2(t) * t, SCALE)
}

/// t4 = t2 × t2 / 10⁹ (document 01, Working rule).
fn t4(t: i128) -> i128 {
    quotient(t2(t) * t2(t), SCALE)
}

/// t5 = t4 × t / 10⁹ (document 02, Interchange ramps).
fn t5(t: i128) -> i128 {
    quotient(t4(t) * t, SCALE)
}

/// t6 = t4 × t2 / 10⁹ (document 02, Interchange ramps).
fn t6(t: i128) -> i128 {
    quotient(t4(t) * t2(t), SCALE)
}

/// Small x: document 01's, and "in the rule x loses t6/9360" (document 02,
/// Interchange ramps).
pub fn x_ratio(t: i128) -> i128 {
    shorter_x_ratio(t) - quotient(t6(t), 9_360)
}

/// Small y: document 01's, and "y gains t5/1320" (document 02, Interchange ramps).
pub fn y_ratio(t: i128) -> i128 {
    shorter_y_ratio(t) + quotient(t5(t), 1_320)
}

/// Document 01's x = 10⁹ − t2/10 + t4/216 (Working rule).
pub fn shorter_x_ratio(t: i128) -> i128 {
    SCALE - quotient(t2(t), 10) + quotient(t4(t), 216)
}

/// Document 01's y = t/3 − t3/42 (Working rule).
pub fn shorter_y_ratio(t: i128) -> i128 {
    quotient(t, 3) - quotient(t3(t), 42)
}

/// D = R × full angle / 10⁶ − 1,000 × L, which may be below zero (document 01,
/// Working rule; document 02, Nearest, not down).
pub fn arc(a: u32, r: u32, l: u32) -> i128 {
    nearest(i128::from(r) * full_angle(a), TO_MICROMETRES) - 1_000 * i128::from(l)
}

/// tan = sine × 10⁹ / cosine (document 01, Working rule).
pub(crate) fn tan(q: i128) -> i128 {
    quotient(sine(q) * SCALE, cosine(q))
}

#[cfg(test)]
mod tests {
    use super::*;

    #[test]
    fn case_1() {
        let expected = Elements {
            x: 39_986_941,
            y: 761_727,
            k: 19_997_824,
            p: 190_454,
            d: 261_638_467,
            tt: 180_989_280,
        };
        assert_eq!(elements(177_764, 350_000, 40_000), Ok(expected));
    }

    #[test]
    fn case_6() {
        assert_eq!(arc(23_574, 350_000, 40_000), 1_492);
        assert_eq!(elements(23_574, 350_000, 40_000).unwrap().d, 1_492);
    }

    #[test]
    fn case_7() {
        assert_eq!(arc(23_573, 350_000, 40_000), -205);
        assert_eq!(elements(23_573, 350_000, 40_000), refuse(14, 0));
    }

    #[test]
    fn case_8() {
        assert_eq!(elements(1, 350_000, 0).unwrap().d, 1_697);
        assert_eq!(arc(1, 200_000, 0), 970);
        assert_eq!(elements(1, 200_000, 0), refuse(14, 0));
    }

    #[test]
    fn case_11() {
        for (a, r) in [(177_764, 350_000), (432_000, 20_000), (432_000, 5_000_000)] {
            let found = elements(a, r, 0).unwrap();
            assert_eq!((found.x, found.y, found.k, found.p), (0, 0, 0, 0));
        }
    }

    /// L = R has t = 5 × 10⁸, t2 250,000,000, t3 125,000,000, t4 62,500,000, t5
    /// 31,250,000 and t6 15,625,000: x = 10⁹ − 25,000,000 + 289,351 − 1,669, y =
    /// 166,666,666 − 2,976,190 + 23,674.
    #[test]
    fn ratios_of_a_spiral_as_long_as_the_radius() {
        let t = spiral_angle(60_000, 60_000);
        assert_eq!((x_ratio(t), y_ratio(t)), (975_287_682, 163_714_150));
        let shorter = (shorter_x_ratio(t), shorter_y_ratio(t));
        assert_eq!(shorter, (975_289_351, 163_690_476));
    }

    /// The numbers are worked by another program. The first has no arc.
    #[test]
    fn longest_ramps() {
        let found = working_rule(200_000, 500_000, 500_000);
        let [x, y, k, p] = [487_643_841, 81_857_075, 247_931_072, 20_648_355];
        let (d, tt) = (-15_186_319, 522_179_793);
        assert_eq!(found, Elements { x, y, k, p, d, tt });
        assert_eq!(elements(200_000, 500_000, 500_000), refuse(14, 0));
        let (d, tt) = (547_197_551, 1_149_720_476);
        let expected = Elements { x, y, k, p, d, tt };
        assert_eq!(elements(432_000, 500_000, 500_000), Ok(expected));
    }

    /// X and Y of the longest ramp by other terms than document 02's, worked by another
    /// program: none left out, of another sign or another number counts as the rule.
    #[test]
    fn other_terms_give_other_numbers() {
        let x_by = |x| Ratios { x, ..RATIOS };
        let y_by = |y| Ratios { y, ..RATIOS };
        let [x, y] = [487_643_841, 81_857_075];
        for (ratios, expected) in [
            (RATIOS, (x, y)),
            // Left out.
            (x_by(shorter_x_ratio), (487_644_676, y)),
            (y_by(shorter_y_ratio), (x, 81_845_238)),
            // With the other sign.
            (
                x_by(|t| 2 * shorter_x_ratio(t) - x_ratio(t)),
                (487_645_510, y),
            ),
            (
                y_by(|t| 2 * shorter_y_ratio(t) - y_ratio(t)),
                (x, 81_833_401),
            ),
            // Over 936 and 132.
            (
                x_by(|t| shorter_x_ratio(t) - quotient(t6(t), 936)),
                (487_636_329, y),
            ),
            (
                y_by(|t| shorter_y_ratio(t) + quotient(t5(t), 132)),
                (x, 81_963_609),
            ),
            // t6 from t4 × t, and t5 from t3 × t.
            (
                x_by(|t| shorter_x_ratio(t) - quotient(quotient(t4(t) * t, SCALE), 9_360)),
                (487_643_007, y),
            ),
            (
                y_by(|t| shorter_y_ratio(t) + quotient(quotient(t3(t) * t, SCALE), 1_320)),
                (x, 81_868_912),
            ),
        ] {
            let found = rule_with(ratios, 432_000, 500_000, 500_000);
            assert_eq!((found.x, found.y), expected);
        }
    }

    #[test]
    fn nearest_has_halves_up() {
        let found = [0, 1, 4, 5, 6, 14, 15, 16].map(|upper| nearest(upper, 10));
        assert_eq!(found, [0, 0, 0, 1, 1, 1, 2, 2]);
        // An odd divisor leaves no half: 3/7 is below one, 4/7 above.
        assert_eq!(
            [0, 3, 4, 10, 11].map(|upper| nearest(upper, 7)),
            [0, 0, 1, 1, 2]
        );
        let [before, half, after] =
            [499_999, 500_000, 500_001].map(|over| nearest(39_986_940_000_000 + over, 1_000_000));
        assert_eq!([before, half, after], [39_986_940, 39_986_941, 39_986_941]);
    }

    #[test]
    fn ranges_are_checked_in_order() {
        const MOST: u32 = u32::MAX;
        assert_eq!(elements(0, 0, MOST), refuse(9, 0));
        assert_eq!(elements(432_001, 0, MOST), refuse(9, 0));
        assert_eq!(elements(1, 19_999, MOST), refuse(10, 0));
        assert_eq!(elements(1, 5_000_001, MOST), refuse(10, 0));
        assert_eq!(elements(1, 5_000_000, 500_001), refuse(11, 0));
        assert_eq!(elements(1, 20_000, 20_001), refuse(11, 0));
        assert_eq!(elements(1, 20_000, 20_000), refuse(14, 0));
        assert_eq!(elements(MOST, MOST, MOST), refuse(9, 0));
    }
}
