//! What the library's answers to lines from coordinates have in common: north
//! negated changes only the sides, moving all points by the same amount changes
//! nothing, and a line that is answered passes the other calls.

use crate::side::{line_of, Answer, Side};
use reference::edition::SECOND;
use reference::line::LEFT;
use reference::points::GREATEST_COORDINATE;
use reference::samples::surveys::Survey;
use std::ops::RangeInclusive;

/// Where coordinates are in range.
const LIMITS: RangeInclusive<i64> = -GREATEST_COORDINATE..=GREATEST_COORDINATE;

/// The first law that the library breaks for this survey.
pub fn broken_law(library: &dyn Side, survey: &Survey) -> Option<&'static str> {
    let line = line_of(library, survey);
    let mirrored = line_of(library, &survey.mirrored());
    if mirrored != line.clone().map(with_other_sides) {
        return Some("north negated changes more than the sides");
    }
    if survey.points.iter().all(|at| LIMITS.contains(at)) {
        let mut moved = in_corners(survey).into_iter();
        if moved.any(|moved| line_of(library, &moved) != line) {
            return Some("moving all points by the same amount changes the line");
        }
    }
    let line = line.ok()?;
    let checked = checked_count(library, &line);
    (checked != Ok(4 * survey.curve_count() + 1)).then_some("the other calls refuse the line")
}

fn with_other_sides(mut line: Vec<u32>) -> Vec<u32> {
    for side in line.iter_mut().skip(5).step_by(5) {
        *side = LEFT - *side;
    }
    line
}

/// The points moved as far to the south-west, and to the north-east, as they may
/// be.
fn in_corners(survey: &Survey) -> [Survey; 2] {
    let (east, north) = (survey.ends(0), survey.ends(1));
    let limit = GREATEST_COORDINATE;
    [
        survey.moved(-limit - east.0, -limit - north.0),
        survey.moved(limit - east.1, limit - north.1),
    ]
}

/// What `check` answers to the sheet of edition 2, which holds every start, that
/// `write` makes of the line.
fn checked_count(library: &dyn Side, line: &[u32]) -> Answer {
    let mut sheet = [0; pokyandi::SHEET_BYTES];
    let length = library.write(SECOND.number, line, &mut sheet)?;
    library.check(&sheet[..length])
}

#[cfg(test)]
mod tests {
    use super::*;
    use crate::side::{Library, Reference};
    use crate::spoilt::Spoilt;
    use reference::samples::point_edges::{case_1, staircase};

    fn surveys() -> Vec<Survey> {
        let mut refused = case_1();
        refused.points[0] = i64::MIN;
        vec![case_1(), staircase(0), staircase(64), refused]
    }

    #[test]
    fn laws_hold() {
        for survey in surveys() {
            assert_eq!(broken_law(&Reference, &survey), None);
            assert_eq!(broken_law(&Library, &survey), None);
        }
    }

    #[test]
    fn broken_laws_are_found() {
        let survey = staircase(2);
        let one_side = Spoilt {
            points: |heading, points, curves, line| {
                let count = Reference.line_from_points(heading, points, curves, line)?;
                line[5] = LEFT;
                Ok(count)
            },
            ..Spoilt::NOT
        };
        let by_place = Spoilt {
            points: |heading, points, curves, line| {
                let count = Reference.line_from_points(heading, points, curves, line)?;
                line[4] += u32::from(points.contains(&GREATEST_COORDINATE));
                Ok(count)
            },
            ..Spoilt::NOT
        };
        let without_radius = Spoilt {
            points: |heading, points, curves, line| {
                let count = Reference.line_from_points(heading, points, curves, line)?;
                line[7] = 0;
                Ok(count)
            },
            ..Spoilt::NOT
        };
        for (library, word) in [
            (one_side, "sides"),
            (by_place, "moving"),
            (without_radius, "refuse"),
        ] {
            let law = broken_law(&library, &survey).unwrap();
            assert!(law.contains(word), "{law}");
        }
    }
}
