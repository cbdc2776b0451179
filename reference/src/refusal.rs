//! A refusal (document 01, Refusal table; document 02 adds 17 to 25).

use std::fmt;

/// A refusal: its number and place.
#[derive(Clone, Copy, Debug, PartialEq, Eq)]
pub struct Refusal {
    pub number: u8,
    pub place: usize,
}

impl Refusal {
    /// The same refusal at another place.
    pub fn at(self, place: usize) -> Refusal {
        Refusal { place, ..self }
    }
}

impl fmt::Display for Refusal {
    fn fmt(&self, f: &mut fmt::Formatter) -> fmt::Result {
        write!(f, "REFUSED {} {}", self.number, self.place)
    }
}

/// Refuses with this number and place.
pub fn refuse<T>(number: u8, place: usize) -> Result<T, Refusal> {
    Err(Refusal { number, place })
}
