//! The editions of the packed sheet (document 01, Packed sheet; document 02, Roads
//! past kilometre 200).

use crate::refusal::{refuse, Refusal};

/// An edition: all that is its own.
#[derive(Clone, Copy, Debug, PartialEq, Eq)]
pub struct Edition {
    pub number: u32,
    /// Width of the start, bits.
    pub start_bits: u32,
    /// Greatest start station, mm.
    pub greatest_start: u32,
}

pub const FIRST: Edition = Edition {
    number: 1,
    start_bits: 28,
    greatest_start: 200_000_000,
};
pub const SECOND: Edition = Edition {
    number: 2,
    start_bits: 32,
    greatest_start: 4_000_000_000,
};

/// Both of them.
pub const EDITIONS: [Edition; 2] = [FIRST, SECOND];

impl Edition {
    /// The edition with this number, or refusal 2.
    pub fn of(number: u32) -> Result<Edition, Refusal> {
        let known = EDITIONS.iter().find(|edition| edition.number == number);
        known.map_or(refuse(2, 0), |edition| Ok(*edition))
    }

    /// The other one.
    pub fn other(self) -> Edition {
        if self == FIRST {
            SECOND
        } else {
            FIRST
        }
    }
}

#[cfg(test)]
mod tests {
    use super::*;

    #[test]
    fn only_1_and_2_are_known() {
        assert_eq!([1, 2].map(Edition::of), EDITIONS.map(Ok));
        for number in [0, 3, 15, 16, 17, 18, 1 << 31, u32::MAX] {
            assert_eq!(Edition::of(number), refuse(2, 0));
        }
    }

    #[test]
    fn each_is_the_other_of_the_other() {
        assert_eq!(EDITIONS.map(Edition::other), [SECOND, FIRST]);
    }

    #[test]
    fn starts_fit_their_fields() {
        for edition in EDITIONS {
            assert!(u64::from(edition.greatest_start) < 1 << edition.start_bits);
        }
    }
}
