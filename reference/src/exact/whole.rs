//! Whole numbers of any size, above and below zero.

use std::cmp::Ordering;
use std::ops::{Add, Mul, Neg, Sub};

/// A whole number: its sign, and its size in digits of base 2⁶⁴, the lowest
/// first and the highest not zero. Zero has no digits and is not below zero.
#[derive(Clone, Debug, PartialEq, Eq)]
pub struct Whole {
    below_zero: bool,
    digits: Vec<u64>,
}

impl Whole {
    /// The number of this sign and size, which may have zeros on top.
    fn new(below_zero: bool, mut digits: Vec<u64>) -> Whole {
        while digits.last() == Some(&0) {
            digits.pop();
        }
        let below_zero = below_zero && !digits.is_empty();
        Whole { below_zero, digits }
    }

    pub fn is_above_zero(&self) -> bool {
        !self.below_zero && !self.digits.is_empty()
    }

    pub fn is_below_zero(&self) -> bool {
        self.below_zero
    }

    /// The number over `lower`, which is not zero, as a floating-point number:
    /// right to 15 decimal digits whatever the sizes of the two.
    pub fn over(&self, lower: &Whole) -> f64 {
        let (upper_bits, upper_power) = self.leading_bits();
        let (lower_bits, lower_power) = lower.leading_bits();
        let size = times_power_of_two(
            upper_bits as f64 / lower_bits as f64,
            upper_power - lower_power,
        );
        if self.below_zero == lower.below_zero {
            size
        } else {
            -size
        }
    }

    /// Up to 64 leading bits b of the size, and p, so that the size is b × 2ᵖ
    /// and further bits below.
    fn leading_bits(&self) -> (u64, i64) {
        match self.digits[..] {
            [] => (0, 0),
            [only] => (only, 0),
            [.., next, top] => {
                let shift = top.leading_zeros();
                let two = u128::from(top) << 64 | u128::from(next);
                let bits = (two << shift) >> 64;
                let power = 64 * (self.digits.len() as i64 - 1) - i64::from(shift);
                (bits as u64, power)
            }
        }
    }
}

/// The number times 2 to this power. Every factor is a power of two, so that
/// nothing is rounded as long as the result is in range.
fn times_power_of_two(mut number: f64, power: i64) -> f64 {
    const FACTOR_POWER: i64 = 1_000;
    for _ in 0..power.abs() / FACTOR_POWER {
        number *= power_of_two(FACTOR_POWER * power.signum());
    }
    number * power_of_two(power % FACTOR_POWER)
}

/// 2 to a power from −1,022 to 1,023, by its bits.
fn power_of_two(power: i64) -> f64 {
    let exponent = u64::try_from(power + 1_023).expect("the power is in range");
    f64::from_bits(exponent << 52)
}

impl From<i128> for Whole {
    fn from(number: i128) -> Whole {
        let size = number.unsigned_abs();
        Whole::new(number < 0, vec![size as u64, (size >> 64) as u64])
    }
}

impl Add for &Whole {
    type Output = Whole;

    fn add(self, other: &Whole) -> Whole {
        if self.below_zero == other.below_zero {
            return Whole::new(self.below_zero, sum(&self.digits, &other.digits));
        }
        match compare(&self.digits, &other.digits) {
            Ordering::Less => Whole::new(other.below_zero, difference(&other.digits, &self.digits)),
            _ => Whole::new(self.below_zero, difference(&self.digits, &other.digits)),
        }
    }
}

impl Neg for Whole {
    type Output = Whole;

    fn neg(self) -> Whole {
        Whole::new(!self.below_zero, self.digits)
    }
}

impl Sub for &Whole {
    type Output = Whole;

    fn sub(self, other: &Whole) -> Whole {
        self + &-other.clone()
    }
}

impl Mul for &Whole {
    type Output = Whole;

    fn mul(self, other: &Whole) -> Whole {
        let below_zero = self.below_zero != other.below_zero;
        Whole::new(below_zero, product(&self.digits, &other.digits))
    }
}

impl Ord for Whole {
    fn cmp(&self, other: &Whole) -> Ordering {
        match (self.below_zero, other.below_zero) {
            (false, false) => compare(&self.digits, &other.digits),
            (true, true) => compare(&other.digits, &self.digits),
            (true, false) => Ordering::Less,
            (false, true) => Ordering::Greater,
        }
    }
}

impl PartialOrd for Whole {
    fn partial_cmp(&self, other: &Whole) -> Option<Ordering> {
        Some(self.cmp(other))
    }
}

/// Compares two sizes without zeros on top.
fn compare(a: &[u64], b: &[u64]) -> Ordering {
    let by_length = a.len().cmp(&b.len());
    by_length.then_with(|| a.iter().rev().cmp(b.iter().rev()))
}

/// The sum of two sizes.
fn sum(a: &[u64], b: &[u64]) -> Vec<u64> {
    let (long, short) = if a.len() < b.len() { (b, a) } else { (a, b) };
    let mut digits = long.to_vec();
    digits.push(0);
    add_at(&mut digits, short);
    digits
}

/// Adds the size `b` to the digits, which have room for the sum.
fn add_at(digits: &mut [u64], b: &[u64]) {
    let mut carry = false;
    for (i, digit) in digits.iter_mut().enumerate() {
        if i >= b.len() && !carry {
            return;
        }
        let (part, over) = digit.overflowing_add(b.get(i).copied().unwrap_or(0));
        let (part, over_by_carry) = part.overflowing_add(u64::from(carry));
        *digit = part;
        carry = over || over_by_carry;
    }
    debug_assert!(!carry, "no room for the sum");
}

/// Size `a` less size `b`, which is not larger.
fn difference(a: &[u64], b: &[u64]) -> Vec<u64> {
    let mut digits = a.to_vec();
    let mut borrow = false;
    for (i, digit) in digits.iter_mut().enumerate() {
        let (part, under) = digit.overflowing_sub(b.get(i).copied().unwrap_or(0));
        let (part, under_by_borrow) = part.overflowing_sub(u64::from(borrow));
        *digit = part;
        borrow = under || under_by_borrow;
    }
    debug_assert!(!borrow, "the larger size is taken from the smaller");
    digits
}

/// The product of two sizes, digit by digit.
fn product(a: &[u64], b: &[u64]) -> Vec<u64> {
    let mut digits = vec![0; a.len() + b.len()];
    for (i, &digit) in a.iter().enumerate() {
        let carry = add_multiple(&mut digits[i..], b, digit);
        digits[i + b.len()] = carry;
    }
    digits
}

/// Adds the size `b` times `digit` to the lowest digits, and gives the carry.
fn add_multiple(digits: &mut [u64], b: &[u64], digit: u64) -> u64 {
    let mut carry = 0;
    for (place, &other) in digits.iter_mut().zip(b) {
        let part = u128::from(digit) * u128::from(other) + u128::from(*place) + u128::from(carry);
        *place = part as u64;
        carry = (part >> 64) as u64;
    }
    carry
}

#[cfg(test)]
mod tests {
    use super::*;

    fn whole(number: i128) -> Whole {
        Whole::from(number)
    }

    /// The number to this power.
    fn power(number: i128, times: usize) -> Whole {
        (0..times).fold(whole(1), |product, _| &product * &whole(number))
    }

    /// Numbers of all signs whose sizes lie about 0, 2³¹, 2⁶² and 2⁶⁴.
    fn numbers() -> Vec<i128> {
        let mut numbers = Vec::new();
        for size in [0, 1 << 31, 1 << 62, 1 << 64] {
            for offset in -2..=2 {
                numbers.extend([size + offset, -size - offset]);
            }
        }
        numbers
    }

    #[test]
    fn sums_products_and_order_as_of_small_numbers() {
        // Sizes up to 2⁶⁴ + 2: products pass the greatest i128 and are left out.
        for a in numbers() {
            for b in numbers() {
                assert_eq!(&whole(a) + &whole(b), whole(a + b));
                assert_eq!(&whole(a) - &whole(b), whole(a - b));
                assert_eq!(whole(a).cmp(&whole(b)), a.cmp(&b));
                if let Some(product) = a.checked_mul(b) {
                    assert_eq!(&whole(a) * &whole(b), whole(product));
                }
            }
        }
    }

    #[test]
    fn zero_has_one_form() {
        let zero = whole(0);
        assert_eq!(-zero.clone(), zero);
        assert_eq!(&whole(-7) + &whole(7), zero);
        assert_eq!(&whole(-7) * &zero, zero);
        assert_eq!(&power(10, 50) - &power(10, 50), zero);
        assert!(!zero.is_above_zero() && !zero.is_below_zero());
    }

    #[test]
    fn ends_of_the_numbers_to_start_from() {
        let [least, greatest] = [whole(i128::MIN), whole(i128::MAX)];
        assert_eq!(&least + &greatest, whole(-1));
        assert_eq!(&greatest + &whole(1), power(2, 127));
        assert_eq!(-least, power(2, 127));
    }

    #[test]
    fn large_identities() {
        let [a, b] = [power(10, 70), power(-7, 81)];
        let square_of_sum = &(&a + &b) * &(&a + &b);
        let two_products = &whole(2) * &(&a * &b);
        assert_eq!(square_of_sum, &(&(&a * &a) + &two_products) + &(&b * &b));
        assert_eq!(&(&a + &b) * &(&a - &b), &(&a * &a) - &(&b * &b));
        assert_eq!(&power(2, 64) * &power(5, 64), power(10, 64));
        // Carries and borrows through many digits.
        let below = &power(2, 640) - &whole(1);
        assert_eq!(&below + &whole(1), power(2, 640));
        assert_eq!(
            &below * &below,
            &(&power(2, 1_280) - &power(2, 641)) + &whole(1)
        );
    }

    #[test]
    fn order_of_large_numbers() {
        let [a, b] = [power(10, 70), power(10, 71)];
        assert!(a < b && -b.clone() < -a.clone() && -b < a);
        assert!(a < &a + &whole(1) && -a.clone() > &-a.clone() - &whole(1));
    }

    #[test]
    fn over_is_right_whatever_the_sizes() {
        let close = |found: f64, expected: f64| (found / expected - 1.0).abs() < 1e-15;
        assert_eq!(whole(0).over(&whole(-5)), 0.0);
        assert_eq!(whole(-6).over(&whole(3)), -2.0);
        assert_eq!(power(2, 5_000).over(&power(2, 5_010)), 1.0 / 1_024.0);
        assert!(close(whole(1).over(&whole(3)), 1.0 / 3.0));
        assert!(close(power(10, 300).over(&power(-10, 297)), -1_000.0));
        assert!(close(power(10, 300).over(&whole(1)), 1e300));
        assert!(close(whole(-1).over(&power(10, 300)), -1e-300));
        assert!(close(power(10, 4_000).over(&power(10, 3_700)), 1e300));
        assert!(close(power(10, 3_700).over(&power(-10, 4_000)), 1e-300));
        // 3²⁰⁰ / 2³¹⁷, worked in 40 decimal digits.
        assert!(close(
            power(3, 200).over(&power(2, 317)),
            0.994_814_984_956_527_6
        ));
    }
}
