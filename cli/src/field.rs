//! The fields of a line: how each is read, written and limited.

use crate::limits;
use crate::quantity::{angle, degrees, kilometres, length, metres_of_mm, number, Quantity};
use pokyandi::line::{distance, CROSSFALL};

#[derive(Clone, Copy, Debug, PartialEq, Eq)]
pub enum Field {
    Speed,
    Crossfall,
    /// The start in this edition.
    Start(u32),
    Distance,
    Deflection,
    Radius,
    Spiral,
}

impl Field {
    pub fn name(self) -> &'static str {
        match self {
            Field::Speed => "speed",
            Field::Crossfall => "crossfall",
            Field::Start(_) => "start",
            Field::Distance => "distance",
            Field::Deflection => "deflection",
            Field::Radius => "radius",
            Field::Spiral => "spiral",
        }
    }

    /// The value of a word, in the unit of the sheet.
    pub fn read(self, word: &str) -> Result<Quantity, String> {
        let value = match self {
            Field::Speed => number(word, "km/h"),
            Field::Crossfall => number(word, "%"),
            Field::Deflection => angle(word),
            Field::Start(_) | Field::Distance | Field::Radius | Field::Spiral => length(word),
        };
        value.map_err(|fault| format!("{}: {fault}; it may be {}", self.name(), self.range()))
    }

    /// A value in the unit that people read.
    pub fn written(self, value: u64) -> String {
        match self {
            Field::Speed => format!("{value} km/h"),
            Field::Crossfall => format!("{value} %"),
            Field::Start(_) => format!("{} km", kilometres(value, 3)),
            Field::Deflection => degrees(value),
            Field::Distance | Field::Radius | Field::Spiral => metres_of_mm(value),
        }
    }

    /// The values that are taken.
    fn range(self) -> String {
        let (low, high) = match self {
            Field::Speed => return speeds(),
            Field::Crossfall => limits::range(CROSSFALL),
            Field::Start(edition) => limits::start_range(edition),
            Field::Distance => limits::range(distance(0)),
            Field::Deflection => limits::range(limits::DEFLECTION),
            Field::Radius => limits::radius_range(),
            Field::Spiral => (0, limits::greatest_spiral(limits::radius_range().1)),
        };
        format!("{} to {}", self.written(low), self.written(high))
    }

    /// That a value misses its range.
    pub fn missed(self, value: u64) -> String {
        format!(
            "the {} is {}; it may be {}",
            self.name(),
            self.written(value),
            self.range()
        )
    }
}

fn speeds() -> String {
    let speeds: Vec<String> = limits::speeds().iter().map(u64::to_string).collect();
    format!("{} km/h", speeds.join(", "))
}
