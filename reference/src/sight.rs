//! The sight that a vertical curve must leave: source document 001's stopping
//! distance, and its least lengths of crests and sags, in fractions.

use crate::exact::fraction::Fraction;

/// Design speed, km/h, and "f = f_L", hundredths. "Speed 110, not in its table,
/// takes 0.25" (document 02).
const FRICTION: [(i64, i128); 9] = [
    (40, 37),
    (50, 35),
    (60, 33),
    (70, 31),
    (80, 30),
    (90, 29),
    (100, 28),
    (110, 25),
    (120, 25),
];

/// D at a design speed, m, "at level grade, rounded up to a metre", of
/// 0.7 V + V² / (255 f). None where the speed is not one of the nine.
pub fn stopping_distance(v: i64) -> Option<i128> {
    let (_, hundredths) = FRICTION.into_iter().find(|(speed, _)| *speed == v)?;
    let v = i128::from(v);
    // Over the common denominator 10 × 255 × 100 f.
    let upper = 7 * v * 255 * hundredths + 10 * v * v * 100;
    let lower = 10 * 255 * hundredths;
    Some(rounded_up(upper, lower))
}

fn rounded_up(upper: i128, lower: i128) -> i128 {
    -(-upper).div_euclid(lower)
}

/// Whether a curve of this length, mm, is no shorter than sight over the stopping
/// distance, m, needs. `g` is the incoming grade less the outgoing one, millionths:
/// above zero on a crest, below it in a sag; where it is zero every length passes.
///
/// A being the size of g in percent, the least length is D² A / 412 on a crest
/// where D is at most the length, else 2 D - 412 / A; in a sag 122 + 3.5 D takes
/// the place of 412.
pub fn is_long_enough(length: i128, g: i128, stopping_distance: i128) -> bool {
    let length = Fraction::from(length) / 1_000;
    let a = Fraction::from(g.abs()) / 10_000;
    let d = Fraction::from(stopping_distance);
    let factor = match g.signum() {
        1 => Fraction::from(412),
        -1 => Fraction::from(122) + &d * 7 / 2,
        _ => return true,
    };
    if d <= length {
        length >= &d * &d * a / factor
    } else {
        length >= d * 2 - factor / a
    }
}

#[cfg(test)]
mod tests {
    use super::*;
    use crate::road_tables::DesignSpeed;

    /// Worked by hand, in metres: 28 + 16.96, 35 + 28.01, 42 + 42.78, 49 + 61.99,
    /// 56 + 83.66, 63 + 109.53, 70 + 140.06, 77 + 189.80 and 84 + 225.88.
    #[test]
    fn stopping_distances() {
        let distances = FRICTION.map(|(v, _)| stopping_distance(v));
        let expected = [45, 64, 85, 111, 140, 173, 211, 267, 310];
        assert_eq!(distances, expected.map(Some));
    }

    #[test]
    fn speeds_are_the_nine() {
        for v in 0..1_000 {
            let known = DesignSpeed::of(v).is_some();
            assert_eq!(stopping_distance(i64::from(v)).is_some(), known, "{v}");
        }
        for v in [-40, -1, i64::MIN, i64::MAX, (1 << 32) + 40] {
            assert_eq!(stopping_distance(v), None);
        }
    }

    #[test]
    fn rounding_up() {
        assert_eq!([0, 1, 2, 3, 4].map(|n| rounded_up(n, 3)), [0, 1, 1, 1, 2]);
    }

    fn check_least(g: i128, d: i128, least: i128) {
        assert!(is_long_enough(least, g, d), "{g} {d} {least}");
        assert!(!is_long_enough(least - 1, g, d), "{g} {d} {least}");
    }

    /// By hand: 85² × 8.24 / 412 is 144.5 m; 64² × 6.4375 / 412 is 64 m, as is
    /// 2 × 64 - 412 / 6.4375; 2 × 45 - 412 / 5 is 7.6 m.
    #[test]
    fn least_lengths_of_crests() {
        check_least(82_400, 85, 144_500);
        check_least(64_375, 64, 64_000);
        check_least(50_000, 45, 7_600);
    }

    /// By hand: 122 + 3.5 × 64 is 346 and 64² × 17.3 / 346 is 204.8 m;
    /// 122 + 3.5 × 310 is 1207 and 2 × 310 - 1207 / 2.5 is 137.2 m.
    #[test]
    fn least_lengths_of_sags() {
        check_least(-173_000, 64, 204_800);
        check_least(-25_000, 310, 137_200);
    }

    /// 2 D - 412 / A is below zero where A is small.
    #[test]
    fn small_changes_need_no_length() {
        for d in [45, 310] {
            for g in [0, 1, -1, 6_000, -6_000] {
                assert!(is_long_enough(2, g, d), "{g} {d}");
            }
        }
    }
}
