//! The fields of a profile: how each is read, written and limited.

use crate::limits;
use crate::quantity::{grade, kilometres, length, number, percent, signed_length};
use crate::quantity::{metres_of_signed_mm, Quantity};
use pokyandi::profile::{vertex, GRADE, HEIGHT, START};
use pokyandi::Reason;

#[derive(Clone, Copy, Debug, PartialEq, Eq)]
pub enum ProfileField {
    Speed,
    Start,
    Height,
    Grade,
    /// Of a vertex.
    Station,
    /// Of a curve.
    Length,
}

impl ProfileField {
    pub fn name(self) -> &'static str {
        match self {
            ProfileField::Speed => "speed",
            ProfileField::Start => "start",
            ProfileField::Height => "height",
            ProfileField::Grade => "grade",
            ProfileField::Station => "station",
            ProfileField::Length => "length",
        }
    }

    /// The value of a word, in the unit of the library.
    pub fn read(self, word: &str) -> Result<Quantity<i64>, String> {
        let value = match self {
            ProfileField::Speed => number(word, "km/h").and_then(|speed| signed(speed, word)),
            ProfileField::Height => signed_length(word),
            ProfileField::Grade => grade(word).map(|value| Quantity {
                value,
                has_unit: true,
            }),
            ProfileField::Start | ProfileField::Station | ProfileField::Length => {
                length(word).and_then(|length| signed(length, word))
            }
        };
        value.map_err(|fault| format!("{}: {fault}; it may be {}", self.name(), self.range()))
    }

    /// A value in the unit that people read.
    pub fn written(self, value: i64) -> String {
        match self {
            ProfileField::Speed => format!("{value} km/h"),
            ProfileField::Start | ProfileField::Station => station(value),
            ProfileField::Height | ProfileField::Length => metres_of_signed_mm(value),
            ProfileField::Grade => percent(value),
        }
    }

    /// The values that are taken.
    fn range(self) -> String {
        if self == ProfileField::Speed {
            let speeds: Vec<String> = limits::profile_speeds()
                .iter()
                .map(i64::to_string)
                .collect();
            return format!("{} km/h", speeds.join(", "));
        }
        let (low, high) = self.limits();
        format!("{} to {}", self.written(low), self.written(high))
    }

    /// The least and the greatest value.
    fn limits(self) -> (i64, i64) {
        match self {
            ProfileField::Speed => {
                let speeds = limits::profile_speeds();
                (speeds[0], speeds[speeds.len() - 1])
            }
            ProfileField::Start => limits::profile_range(START, Reason::Start),
            ProfileField::Height => limits::profile_range(HEIGHT, Reason::Start),
            ProfileField::Grade => limits::profile_range(GRADE, Reason::Grade),
            ProfileField::Station => {
                limits::profile_range(vertex(1) + pokyandi::vertex::STATION, Reason::Start)
            }
            ProfileField::Length => limits::curve_lengths(),
        }
    }

    /// Whether a value lies below the least or above the greatest.
    pub fn is_missed_by(self, value: i64) -> bool {
        let (low, high) = self.limits();
        !(low..=high).contains(&value)
    }

    /// That a value misses its range.
    pub fn missed(self, value: i64) -> String {
        format!(
            "the {} is {}; it may be {}",
            self.name(),
            self.written(value),
            self.range()
        )
    }
}

/// A quantity as the library's signed number.
fn signed(Quantity { value, has_unit }: Quantity, word: &str) -> Result<Quantity<i64>, String> {
    let value = i64::try_from(value).map_err(|_| format!("{word} is too large"))?;
    Ok(Quantity { value, has_unit })
}

/// A station of mm; one below zero is written in metres.
pub fn station(mm: i64) -> String {
    match u64::try_from(mm) {
        Ok(mm) => format!("{} km", kilometres(mm, 3)),
        Err(_) => metres_of_signed_mm(mm),
    }
}
