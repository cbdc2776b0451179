//! A line in numbers, as the library reads and writes it.

use crate::edition::WIDEST;
use pokyandi::line::{curve, distance, CROSSFALL, CURVES, SPEED, START};
use pokyandi::{Refusal, ELEMENT_NUMBERS, LINE_NUMBERS, SHEET_BYTES};

/// The points of a curve, in the order of the library's stations.
pub const POINTS: [&str; 4] = ["TS", "SC", "CS", "ST"];

/// The numbers of a line, in the order of the library; they need not be in range.
#[derive(Clone, Debug, PartialEq, Eq)]
pub struct Line {
    pub numbers: Vec<u64>,
}

#[derive(Clone, Copy, Debug, PartialEq, Eq)]
pub struct Curve {
    pub left: bool,
    pub deflection: u64,
    pub radius: u64,
    pub spiral: u64,
}

impl Line {
    /// The line of a sheet, or the first of refusals 1 to 11.
    pub fn of_sheet(sheet: &[u8]) -> Result<Line, Refusal> {
        let mut numbers = [0; LINE_NUMBERS];
        let count = pokyandi::read(sheet, &mut numbers)?;
        Ok(Line::of_numbers(&numbers[..count]))
    }

    /// The line that the library answers in these numbers.
    pub fn of_numbers(numbers: &[u32]) -> Line {
        let numbers = numbers.iter().copied().map(u64::from).collect();
        Line { numbers }
    }

    /// The sheet of the line in an edition, or the first of refusals 2 to 6 and 8 to 11.
    pub fn sheet(&self, edition: u32) -> Result<Vec<u8>, Refusal> {
        let mut sheet = [0; SHEET_BYTES];
        let numbers: Vec<u32> = self.numbers.iter().copied().map(library_number).collect();
        let count = pokyandi::write(edition, &numbers, &mut sheet)?;
        Ok(sheet[..count].to_vec())
    }

    /// Whether the calculator accepts the line, else the first refusal.
    pub fn check(&self) -> Result<usize, Refusal> {
        pokyandi::check(&self.sheet(WIDEST)?)
    }

    pub fn curve_count(&self) -> usize {
        self.numbers[CURVES] as usize
    }

    pub fn speed(&self) -> u64 {
        self.numbers[SPEED]
    }

    pub fn crossfall(&self) -> u64 {
        self.numbers[CROSSFALL]
    }

    pub fn start(&self) -> u64 {
        self.numbers[START]
    }

    /// Distance i, 0 to n.
    pub fn distance(&self, i: usize) -> u64 {
        self.numbers[distance(i)]
    }

    /// Curve i, 1 to n.
    pub fn curve(&self, i: usize) -> Curve {
        let numbers = &self.numbers[curve(i)..];
        Curve {
            left: numbers[pokyandi::curve::SIDE] == u64::from(pokyandi::curve::LEFT),
            deflection: numbers[pokyandi::curve::DEFLECTION],
            radius: numbers[pokyandi::curve::RADIUS],
            spiral: numbers[pokyandi::curve::SPIRAL],
        }
    }

    /// The line with another number at this index.
    pub fn with(&self, index: usize, number: u64) -> Line {
        let mut line = self.clone();
        line.numbers[index] = number;
        line
    }
}

impl Curve {
    pub fn side(self) -> &'static str {
        match self.left {
            true => "left",
            false => "right",
        }
    }

    /// X, Y, k, p, D and TT in µm, or the first of refusals 9, 10, 11 and 14.
    pub fn elements(self) -> Result<[u64; ELEMENT_NUMBERS], Refusal> {
        let mut numbers = [0; ELEMENT_NUMBERS];
        let [a, r, l] = [self.deflection, self.radius, self.spiral].map(library_number);
        pokyandi::elements(a, r, l, &mut numbers)?;
        Ok(numbers)
    }
}

/// A number as the library takes it. One that does not fit 32 bits becomes their
/// greatest, which is outside of every range.
pub fn library_number(number: u64) -> u32 {
    u32::try_from(number).unwrap_or(u32::MAX)
}

/// Document 01's case 1: a line of one curve that is accepted.
#[rustfmt::skip]
pub fn example() -> Line {
    Line { numbers: vec![1, 70, 8, 0, 500_000, 0, 177_764, 350_000, 40_000, 400_000] }
}
