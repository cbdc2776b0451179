//! What is seen of one quantity over all lines. Whether its bound holds is
//! decided in fractions; the figures kept are for the table alone.

use reference::exact::fraction::Fraction;

/// The largest differences of a quantity either way, µm.
#[derive(Clone, Debug)]
pub struct Differences {
    pub name: &'static str,
    /// The most that it may differ either way, if that is claimed.
    pub bound: Option<u64>,
    /// The largest below, zero at most, and above, zero at least.
    pub below: f64,
    pub above: f64,
    /// Where the larger of both was seen.
    pub at: String,
}

impl Differences {
    pub fn new(name: &'static str, bound: Option<u64>) -> Differences {
        Differences {
            name,
            bound,
            below: 0.0,
            above: 0.0,
            at: String::new(),
        }
    }

    /// Takes a difference, or says that it breaks the bound.
    pub fn see(&mut self, difference: &Fraction, at: impl Fn() -> String) -> Result<(), String> {
        if !self.allows(difference) {
            let found = difference.to_f64();
            return Err(format!("{} at {}: {found} um", self.name, at()));
        }
        let difference = difference.to_f64();
        if difference.abs() > self.above.max(-self.below) {
            self.at = at();
        }
        self.below = self.below.min(difference);
        self.above = self.above.max(difference);
        Ok(())
    }

    fn allows(&self, difference: &Fraction) -> bool {
        self.bound.is_none_or(|bound| {
            let least = Fraction::from(-i128::from(bound));
            *difference >= least && *difference <= Fraction::from(bound)
        })
    }
}

/// What is claimed of lengths.
#[derive(Clone, Copy, Debug, PartialEq, Eq)]
pub enum Claim {
    /// Each is longer than so many tenths of mm.
    Longer(u32),
    /// Each is shorter.
    Shorter(u32),
}

/// The exact lengths of a kind, mm.
#[derive(Clone, Debug)]
pub struct Lengths {
    pub name: &'static str,
    pub claim: Claim,
    /// The one nearest to the bound, and where it was seen.
    pub nearest: Option<(f64, String)>,
}

impl Lengths {
    pub fn new(name: &'static str, claim: Claim) -> Lengths {
        Lengths {
            name,
            claim,
            nearest: None,
        }
    }

    /// Takes a length, or says that it breaks the claim.
    pub fn see(&mut self, length: &Fraction, at: impl Fn() -> String) -> Result<(), String> {
        let tenths = length * 10;
        let holds = match self.claim {
            Claim::Longer(bound) => tenths > Fraction::from(bound),
            Claim::Shorter(bound) => tenths < Fraction::from(bound),
        };
        let length = length.to_f64();
        if !holds {
            return Err(format!("{} at {}: {length} mm", self.name, at()));
        }
        let nearer = match (self.claim, &self.nearest) {
            (_, None) => true,
            (Claim::Longer(_), Some((nearest, _))) => length < *nearest,
            (Claim::Shorter(_), Some((nearest, _))) => length > *nearest,
        };
        if nearer {
            self.nearest = Some((length, at()));
        }
        Ok(())
    }
}

#[cfg(test)]
mod tests {
    use super::*;

    fn fraction(upper: i128, lower: i128) -> Fraction {
        Fraction::from(upper) / lower
    }

    #[test]
    fn largest_differences_either_way() {
        let mut differences = Differences::new("D", None);
        for number in [1, -3, 2, -2] {
            let at = || number.to_string();
            assert_eq!(differences.see(&fraction(number, 2), at), Ok(()));
        }
        assert_eq!((differences.below, differences.above), (-1.5, 1.0));
        assert_eq!(differences.at, "-3");
    }

    /// Too little over the bound for floating-point numbers.
    #[test]
    fn bounds_of_differences_are_exact() {
        let mut differences = Differences::new("D", Some(6));
        let little = fraction(1, 10_i128.pow(30));
        for sign in [1, -1] {
            let bound = fraction(6 * sign, 1);
            assert!(differences.see(&bound, String::new).is_ok());
            let over = bound + &little * sign;
            assert!((over.to_f64().abs() - 6.0).abs() < 1e-14);
            assert!(differences.see(&over, String::new).is_err());
        }
        assert!(Differences::new("END", Some(0))
            .see(&little, String::new)
            .is_err());
    }

    #[test]
    fn bounds_of_lengths_are_exact_and_not_reached() {
        let little = fraction(1, 10_i128.pow(30));
        let bound = fraction(16, 10);
        let sees =
            |claim, length: Fraction| Lengths::new("", claim).see(&length, String::new).is_ok();
        for (claim, sign) in [(Claim::Longer(16), 1), (Claim::Shorter(16), -1)] {
            assert!(sees(claim, &bound + &little * sign));
            assert!(!sees(claim, bound.clone()));
            assert!(!sees(claim, &bound - &little * sign));
        }
    }

    #[test]
    fn nearest_lengths_are_kept() {
        let mut longer = Lengths::new("", Claim::Longer(4));
        let mut shorter = Lengths::new("", Claim::Shorter(16));
        for number in [3, 2, 1, 2] {
            for lengths in [&mut longer, &mut shorter] {
                let at = || number.to_string();
                assert_eq!(lengths.see(&fraction(number, 2), at), Ok(()));
            }
        }
        assert_eq!(longer.nearest, Some((0.5, "1".to_string())));
        assert_eq!(shorter.nearest, Some((1.5, "3".to_string())));
    }
}
