//! A curve, printed as `A R L`.

use std::fmt;

/// One curve: deflection A in seconds, radius R and spiral length L in mm, in
/// range or not.
#[derive(Clone, Copy, Debug, PartialEq, Eq)]
pub struct Curve {
    pub a: u32,
    pub r: u32,
    pub l: u32,
}

impl Curve {
    pub const fn new(a: u32, r: u32, l: u32) -> Curve {
        Curve { a, r, l }
    }
}

impl fmt::Display for Curve {
    fn fmt(&self, f: &mut fmt::Formatter) -> fmt::Result {
        write!(f, "{} {} {}", self.a, self.r, self.l)
    }
}
