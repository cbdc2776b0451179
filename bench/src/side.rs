//! What is timed: the calls that library and reference both have.

use reference::curve::Curve;
use reference::samples::surveys::Survey;

/// Number and place of a refusal.
#[derive(Clone, Copy, Debug, PartialEq, Eq)]
pub struct Refused {
    pub number: u32,
    pub place: usize,
}

pub type Answer<T> = Result<T, Refused>;

/// One of the two. It keeps the buffers that its calls fill; they are used again
/// and not cleared between calls.
pub trait Side {
    /// The sheet's line in numbers.
    fn read(&mut self, sheet: &[u8]) -> Answer<&[u32]>;

    /// The sheet of a line in numbers, in edition 1.
    fn write(&mut self, line: &[u32]) -> Answer<&[u8]>;

    /// The edition of a sheet.
    fn edition(&mut self, sheet: &[u8]) -> Answer<u32>;

    /// The sheet in the edition asked for.
    fn convert(&mut self, sheet: &[u8], edition: u32) -> Answer<&[u8]>;

    /// The sheet read and written again.
    fn rewrite(&mut self, sheet: &[u8]) -> Answer<&[u8]>;

    /// The sheet's stations, µm.
    fn stations(&mut self, sheet: &[u8]) -> Answer<&[u64]>;

    /// The element under a station, µm, and its offsets.
    fn peg(&mut self, sheet: &[u8], station: u64) -> Answer<&[i64]>;

    /// How many stations the sheet has.
    fn check(&mut self, sheet: &[u8]) -> Answer<usize>;

    /// What the station program prints for the sheet.
    fn text(&mut self, sheet: &[u8]) -> Answer<&[u8]>;

    /// The line through points in numbers.
    fn line_from_points(&mut self, survey: &Survey) -> Answer<&[u32]>;

    /// The height of a profile, mm, at a station.
    fn height(&mut self, profile: &[i64], station: u64) -> Answer<&[i64]>;

    /// X and Y of a spiral, µm, from the unit spiral table.
    fn unit_spiral(&mut self, thousandth: u32, length: u32) -> Answer<&[u64]>;

    /// The unit spiral table.
    fn unit_spiral_table(&mut self) -> Answer<&[u64]>;

    /// Works out the elements of a curve and keeps them.
    fn elements(&mut self, curve: Curve) -> Answer<()>;

    /// X, Y, k, p, D, TT of the last curve, µm.
    fn kept_elements(&self) -> [i128; 6];
}
