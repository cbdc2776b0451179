//! Fractions, nothing rounded (document 01, Clerk's sums). They are not reduced
//! by common factors, which would change no value: the numbers of one curve
//! stay below 60 digits of base 2⁶⁴ without it, those of a clothoid below 250.

use super::whole::Whole;
use std::cmp::Ordering;
use std::ops::{Add, Div, Mul, Sub};

/// A whole number over a whole number above zero (document 01, Clerk's sums).
#[derive(Clone, Debug)]
pub struct Fraction {
    upper: Whole,
    lower: Whole,
}

impl Fraction {
    /// `upper` over `lower`, which is not zero.
    fn new(upper: Whole, lower: Whole) -> Fraction {
        if lower.is_below_zero() {
            return Fraction::new(-upper, -lower);
        }
        assert!(lower.is_above_zero(), "a fraction over zero");
        Fraction { upper, lower }
    }

    /// The fraction as a floating-point number, right to 15 decimal digits.
    pub fn to_f64(&self) -> f64 {
        self.upper.over(&self.lower)
    }
}

/// Lets whole numbers of this type stand where a fraction is asked for.
macro_rules! whole_numbers {
    ($($number:ty),*) => {$(
        impl From<$number> for Fraction {
            fn from(number: $number) -> Fraction {
                Fraction::new(Whole::from(i128::from(number)), Whole::from(1))
            }
        }
    )*};
}

whole_numbers!(i32, u32, u64, i128);

impl From<&Fraction> for Fraction {
    fn from(fraction: &Fraction) -> Fraction {
        fraction.clone()
    }
}

/// Gives fractions an operator, worked by the function `worked`.
macro_rules! operator {
    ($operator:ident, $method:ident, $worked:ident) => {
        impl<T: Into<Fraction>> $operator<T> for &Fraction {
            type Output = Fraction;

            fn $method(self, other: T) -> Fraction {
                $worked(self, &other.into())
            }
        }

        impl<T: Into<Fraction>> $operator<T> for Fraction {
            type Output = Fraction;

            fn $method(self, other: T) -> Fraction {
                $worked(&self, &other.into())
            }
        }
    };
}

operator!(Add, add, sum);
operator!(Sub, sub, difference);
operator!(Mul, mul, product);
operator!(Div, div, quotient);

fn sum(a: &Fraction, b: &Fraction) -> Fraction {
    let upper = &(&a.upper * &b.lower) + &(&b.upper * &a.lower);
    Fraction::new(upper, &a.lower * &b.lower)
}

fn difference(a: &Fraction, b: &Fraction) -> Fraction {
    let upper = &(&a.upper * &b.lower) - &(&b.upper * &a.lower);
    Fraction::new(upper, &a.lower * &b.lower)
}

fn product(a: &Fraction, b: &Fraction) -> Fraction {
    Fraction::new(&a.upper * &b.upper, &a.lower * &b.lower)
}

fn quotient(a: &Fraction, b: &Fraction) -> Fraction {
    Fraction::new(&a.upper * &b.lower, &a.lower * &b.upper)
}

/// Compares by cross products (document 01, Clerk's sums).
impl Ord for Fraction {
    fn cmp(&self, other: &Fraction) -> Ordering {
        (&self.upper * &other.lower).cmp(&(&other.upper * &self.lower))
    }
}

impl PartialOrd for Fraction {
    fn partial_cmp(&self, other: &Fraction) -> Option<Ordering> {
        Some(self.cmp(other))
    }
}

impl PartialEq for Fraction {
    fn eq(&self, other: &Fraction) -> bool {
        self.cmp(other) == Ordering::Equal
    }
}

impl Eq for Fraction {}

#[cfg(test)]
mod tests {
    use super::*;

    /// `upper` over `lower`.
    fn fraction(upper: i128, lower: i128) -> Fraction {
        Fraction::from(upper) / lower
    }

    /// Fractions of all signs, small and large, some of them equal.
    fn fractions() -> Vec<Fraction> {
        let uppers = [0, 1, -1, 2, -6, 10, -(1 << 100), 10_i128.pow(38)];
        let lowers = [1, 2, 3, -3, 15, 1 << 64, -(10_i128.pow(37))];
        uppers
            .into_iter()
            .flat_map(|upper| lowers.map(|lower| fraction(upper, lower)))
            .collect()
    }

    #[test]
    fn four_operators() {
        let [half, third] = [fraction(1, 2), fraction(1, 3)];
        assert_eq!(&half + &third, fraction(5, 6));
        assert_eq!(&third - &half, fraction(-1, 6));
        assert_eq!(&half * &third, fraction(1, 6));
        assert_eq!(&half / &third, fraction(3, 2));
        assert_eq!(&half / -2, fraction(-1, 4));
        assert_eq!(half * 4 - 2_u32, Fraction::from(0));
    }

    #[test]
    fn identities() {
        for a in fractions() {
            assert_eq!(&a - &a, Fraction::from(0));
            for b in fractions() {
                assert_eq!(&a + &b, &b + &a);
                assert_eq!(&a + &b - &b, a);
                assert_eq!((&a + &b) * (&a - &b), &a * &a - &b * &b);
                if b != Fraction::from(0) {
                    assert_eq!(&a / &b * &b, a);
                }
            }
        }
    }

    #[test]
    fn signs_and_order() {
        assert_eq!(fraction(1, -3), fraction(-1, 3));
        assert_eq!(fraction(-2, -6), fraction(1, 3));
        assert!(fraction(1, -3) < fraction(0, -5));
        assert!(fraction(-1, 3) > fraction(-1, 2));
        assert!(fraction(1, 3) < fraction(1, 2));
        for a in fractions() {
            for b in fractions() {
                let zero = Fraction::from(0);
                assert_eq!(a.cmp(&b), (&a - &b).cmp(&zero));
                assert_eq!(a.cmp(&b), b.cmp(&a).reverse());
            }
        }
    }

    #[test]
    #[should_panic(expected = "a fraction over zero")]
    fn nothing_is_over_zero() {
        let _ = fraction(1, 2) / 0;
    }

    #[test]
    fn as_floating_point() {
        assert_eq!(fraction(-1, 8).to_f64(), -0.125);
        assert_eq!(fraction(0, 8).to_f64(), 0.0);
        // A small difference of large numbers keeps its digits.
        let large = fraction(10_i128.pow(38), 3);
        let slightly_more = &large + fraction(1, 7);
        assert!(((slightly_more - large).to_f64() * 7.0 - 1.0).abs() < 1e-15);
    }
}
