//! The refusals of documents 01 and 02.

use std::error::Error;
use std::fmt;

/// Why a call refused, and where.
#[derive(Clone, Copy, Debug, PartialEq, Eq)]
pub struct Refusal {
    pub reason: Reason,
    /// The index of a distance (0 to n) for [`Reason::Distance`] and
    /// [`Reason::ShortStraight`], the number of a curve (1 to n) for the reasons
    /// between them, [`Reason::NoTurn`] and [`Reason::WideTurn`], the number of a
    /// vertex (1 to n) for [`Reason::VerticalCurve`], [`Reason::Grade`] (0 for the
    /// first grade) and [`Reason::Sight`], else 0.
    pub place: u32,
}

/// The reasons of documents 01 and 02; a later library may have more.
#[derive(Clone, Copy, Debug, PartialEq, Eq)]
#[non_exhaustive]
pub enum Reason {
    Truncated,
    Edition,
    CurveCount,
    Speed,
    Crossfall,
    Start,
    Trailing,
    Distance,
    Deflection,
    Radius,
    Spiral,
    LeastRadius,
    LeastSpiral,
    ShortArc,
    ShortStraight,
    SmallBuffer,
    Station,
    Coordinate,
    NoTurn,
    WideTurn,
    VerticalCurve,
    Grade,
    Sight,
    FarStart,
    Thousandth,
    /// A number that this crate does not know.
    Unknown(u32),
}

impl Reason {
    /// The known reasons, in the order of their numbers.
    pub const ALL: &'static [Reason] = &[
        Reason::Truncated,
        Reason::Edition,
        Reason::CurveCount,
        Reason::Speed,
        Reason::Crossfall,
        Reason::Start,
        Reason::Trailing,
        Reason::Distance,
        Reason::Deflection,
        Reason::Radius,
        Reason::Spiral,
        Reason::LeastRadius,
        Reason::LeastSpiral,
        Reason::ShortArc,
        Reason::ShortStraight,
        Reason::SmallBuffer,
        Reason::Station,
        Reason::Coordinate,
        Reason::NoTurn,
        Reason::WideTurn,
        Reason::VerticalCurve,
        Reason::Grade,
        Reason::Sight,
        Reason::FarStart,
        Reason::Thousandth,
    ];

    /// The reason with this number; 0 is none.
    pub fn of(number: u32) -> Option<Reason> {
        let known = || Reason::ALL.iter().find(|reason| reason.number() == number);
        match number {
            0 => None,
            _ => Some(known().copied().unwrap_or(Reason::Unknown(number))),
        }
    }

    /// The number in those documents, 1 to 25, or the unknown one.
    pub fn number(self) -> u32 {
        match self {
            Reason::Truncated => 1,
            Reason::Edition => 2,
            Reason::CurveCount => 3,
            Reason::Speed => 4,
            Reason::Crossfall => 5,
            Reason::Start => 6,
            Reason::Trailing => 7,
            Reason::Distance => 8,
            Reason::Deflection => 9,
            Reason::Radius => 10,
            Reason::Spiral => 11,
            Reason::LeastRadius => 12,
            Reason::LeastSpiral => 13,
            Reason::ShortArc => 14,
            Reason::ShortStraight => 15,
            Reason::SmallBuffer => 16,
            Reason::Station => 17,
            Reason::Coordinate => 18,
            Reason::NoTurn => 19,
            Reason::WideTurn => 20,
            Reason::VerticalCurve => 21,
            Reason::Grade => 22,
            Reason::Sight => 23,
            Reason::FarStart => 24,
            Reason::Thousandth => 25,
            Reason::Unknown(number) => number,
        }
    }

    /// What is wrong, in the words of `pokyandi_words` in C.
    pub fn words(self) -> &'static str {
        match self {
            Reason::Truncated => "under 7 bytes, or fewer than n curves need",
            Reason::Edition => "edition other than 1 and 2, or, to convert, not the other one",
            Reason::CurveCount => {
                "over 64 curves or 32 vertices, fewer than 2 or over 66 points, or other than \
                 5 + 5 x n numbers of a line, 2 of each point and PI, 4 + 3 x n of a profile"
            }
            Reason::Speed => "design speed other than 40, 50, .. 120 km/h",
            Reason::Crossfall => "crossfall outside 2 to 12 percent",
            Reason::Start => {
                "start over 200,000,000 mm in edition 1 or 4,000,000,000 mm in edition 2, \
                 profile's start or vertex over 200,000,000 mm, \
                 or start height beyond 10,000,000 mm either way"
            }
            Reason::Trailing => "more bytes than n curves need, or a fill bit set",
            Reason::Distance => "distance outside 1 to 20,000,000 mm",
            Reason::Deflection => {
                "deflection outside 1 to 432,000 seconds, or side other than 0 and 1"
            }
            Reason::Radius => "radius outside 20,000 to 5,000,000 mm",
            Reason::Spiral => "spiral over 500,000 mm, or longer than the radius",
            Reason::LeastRadius => "radius below the least for design speed and crossfall",
            Reason::LeastSpiral => "spiral below the least for design speed and radius",
            Reason::ShortArc => "arc under 1 mm",
            Reason::ShortStraight => "straight under 1 mm",
            Reason::SmallBuffer => "buffer too small for the answer",
            Reason::Station => {
                "station below the start or beyond the end: \
                 the line's own, or 200,000,000 mm of a profile"
            }
            Reason::Coordinate => "coordinate beyond 10,000,000 mm either way",
            Reason::NoTurn => "no turn of a second at the PI; leave the point out",
            Reason::WideTurn => "turn over 216,000 seconds (60 degrees) at the PI",
            Reason::VerticalCurve => {
                "vertical curve of odd length, outside 2 to 2,000,000 mm, \
                 or reaching past the curve before it or the start"
            }
            Reason::Grade => "grade beyond 120,000 millionths (12 percent) either way",
            Reason::Sight => "vertical curve shorter than the stopping distance needs",
            Reason::FarStart => "start over 200,000,000 mm, the greatest of edition 1",
            Reason::Thousandth => {
                "spiral angle over 500 thousandths of a radian; take a row of the table, 0 to 500"
            }
            Reason::Unknown(_) => "unknown refusal",
        }
    }
}

impl fmt::Display for Refusal {
    fn fmt(&self, f: &mut fmt::Formatter) -> fmt::Result {
        let Refusal { reason, place } = self;
        write!(
            f,
            "refused {} at place {place}: {}",
            reason.number(),
            reason.words()
        )
    }
}

impl Error for Refusal {}

/// What an answer of the library says that is a count of entries.
pub(crate) fn counted(answer: u64) -> Result<usize, Refusal> {
    answered(answer).map(|count| count as usize)
}

/// What an answer of the library says: its upper 32 bits are 0 and the lower
/// ones a number, or they are a refusal's number and its place.
pub(crate) fn answered(answer: u64) -> Result<u32, Refusal> {
    let upper = (answer >> 32) as u32;
    let lower = answer as u32;
    match Reason::of(upper) {
        None => Ok(lower),
        Some(reason) => Err(Refusal {
            reason,
            place: lower,
        }),
    }
}

#[cfg(test)]
mod tests {
    use super::*;

    #[test]
    fn the_reasons_stand_in_the_order_of_their_numbers() {
        for (i, reason) in Reason::ALL.iter().enumerate() {
            assert_eq!(reason.number() as usize, i + 1);
            assert_eq!(Reason::of(reason.number()), Some(*reason));
        }
    }

    #[test]
    fn an_answer_is_a_count_or_a_refusal() {
        assert_eq!(counted(257), Ok(257));
        let refusal = Refusal {
            reason: Reason::ShortStraight,
            place: 64,
        };
        assert_eq!(counted(15 << 32 | 64), Err(refusal));
    }

    #[test]
    fn an_unknown_refusal_keeps_its_number() {
        for number in [26, 27, u32::MAX] {
            let refusal = counted(u64::from(number) << 32 | 5).unwrap_err();
            assert_eq!(refusal.reason, Reason::Unknown(number));
            let words = format!("refused {number} at place 5: unknown refusal");
            assert_eq!(refusal.to_string(), words);
        }
        assert_eq!(Reason::of(0), None);
    }
}
