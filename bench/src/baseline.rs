//! Plain C: the elements of one curve in f64 without checks (`c/baseline.c`), and
//! with every check a line from points (`c/from_points.c`), a sheet read and written
//! again, in its edition or the other (`c/rewrite.c`), and the height of a profile (`c/height.c`).

use crate::side::{Answer, Refused};
use pokyandi::{HEIGHT_NUMBERS, LINE_NUMBERS, SHEET_BYTES};
use reference::curve::Curve;
use reference::samples::surveys::Survey;

extern "C" {
    fn baseline_elements(deflection: u32, radius: u32, spiral: u32, elements: *mut f64);

    fn baseline_from_points(
        speed: u32,
        crossfall: u32,
        start: u32,
        points: *const i64,
        point_numbers: usize,
        curves: *const u32,
        curve_numbers: usize,
        line: *mut u32,
        line_numbers: usize,
    ) -> u64;

    fn baseline_rewrite(
        sheet: *const u8,
        sheet_bytes: usize,
        bytes: *mut u8,
        bytes_room: usize,
    ) -> u64;

    fn baseline_convert(
        sheet: *const u8,
        sheet_bytes: usize,
        asked: u32,
        bytes: *mut u8,
        bytes_room: usize,
    ) -> u64;

    fn baseline_height(
        profile: *const i64,
        profile_numbers: usize,
        station: u64,
        height: *mut i64,
        height_numbers: usize,
    ) -> u64;
}

/// It keeps the buffers that its calls fill, as a [`crate::side::Side`] does.
pub struct Baseline {
    elements: [f64; 6],
    line: [u32; LINE_NUMBERS],
    bytes: [u8; SHEET_BYTES],
    height: [i64; HEIGHT_NUMBERS],
}

impl Baseline {
    pub fn new() -> Baseline {
        Baseline {
            elements: [0.0; 6],
            line: [0; LINE_NUMBERS],
            bytes: [0; SHEET_BYTES],
            height: [0; HEIGHT_NUMBERS],
        }
    }

    /// X, Y, k, p, D, TT of a curve, µm.
    pub fn elements(&mut self, Curve { a, r, l }: Curve) -> &[f64; 6] {
        // SAFETY: the call writes six numbers, and reads none.
        unsafe { baseline_elements(a, r, l, self.elements.as_mut_ptr()) }
        &self.elements
    }

    /// The line through points in numbers.
    pub fn line_from_points(&mut self, survey: &Survey) -> Answer<&[u32]> {
        let count = from_points(survey, &mut self.line)?;
        Ok(&self.line[..count])
    }

    /// The sheet read and written again.
    pub fn rewrite(&mut self, sheet: &[u8]) -> Answer<&[u8]> {
        let count = rewrite(sheet, &mut self.bytes)?;
        Ok(&self.bytes[..count])
    }

    /// The sheet in the edition asked for.
    pub fn convert(&mut self, sheet: &[u8], edition: u32) -> Answer<&[u8]> {
        let count = convert(sheet, edition, &mut self.bytes)?;
        Ok(&self.bytes[..count])
    }

    /// The height of a profile, mm, at a station.
    pub fn height(&mut self, profile: &[i64], station: u64) -> Answer<&[i64]> {
        let count = height(profile, station, &mut self.height)?;
        Ok(&self.height[..count])
    }
}

fn from_points(survey: &Survey, line: &mut [u32]) -> Answer<usize> {
    let Survey {
        heading,
        points,
        curves,
    } = survey;
    // SAFETY: pointers and lengths are those of slices; the line is borrowed alone.
    let answer = unsafe {
        baseline_from_points(
            heading.v,
            heading.e,
            heading.start,
            points.as_ptr(),
            points.len(),
            curves.as_ptr(),
            curves.len(),
            line.as_mut_ptr(),
            line.len(),
        )
    };
    answered(answer)
}

fn rewrite(sheet: &[u8], bytes: &mut [u8]) -> Answer<usize> {
    // SAFETY: pointers and lengths are those of slices; the bytes are borrowed alone.
    let answer =
        unsafe { baseline_rewrite(sheet.as_ptr(), sheet.len(), bytes.as_mut_ptr(), bytes.len()) };
    answered(answer)
}

fn convert(sheet: &[u8], edition: u32, bytes: &mut [u8]) -> Answer<usize> {
    // SAFETY: pointers and lengths are those of slices; the bytes are borrowed alone.
    let answer = unsafe {
        baseline_convert(
            sheet.as_ptr(),
            sheet.len(),
            edition,
            bytes.as_mut_ptr(),
            bytes.len(),
        )
    };
    answered(answer)
}

fn height(profile: &[i64], station: u64, height: &mut [i64]) -> Answer<usize> {
    // SAFETY: pointers and lengths are those of slices; the height is borrowed alone.
    let answer = unsafe {
        baseline_height(
            profile.as_ptr(),
            profile.len(),
            station,
            height.as_mut_ptr(),
            height.len(),
        )
    };
    answered(answer)
}

/// What an answer in C says: its upper 32 bits are 0 and the lower ones a count,
/// or they are a refusal's number and its place.
fn answered(answer: u64) -> Answer<usize> {
    match (answer >> 32) as u32 {
        0 => Ok(answer as usize),
        number => Err(Refused {
            number,
            place: answer as u32 as usize,
        }),
    }
}

#[cfg(test)]
mod tests {
    use super::*;
    use reference::points;
    use reference::profile;
    use reference::samples::convert_edges::{self, ConvertCall};
    use reference::samples::dice::Dice;
    use reference::samples::point_edges::{edges, SurveyCall};
    use reference::samples::profile_edges::{self, ProfileCall};
    use reference::samples::profiles::random_profile;
    use reference::samples::roads::road;
    use reference::samples::sheet_edges;
    use reference::samples::sheet_fields::{edition_said, flip, sheet_of_either};
    use reference::samples::sheets::{any_bytes, any_bytes_of_an_edition, any_entries};
    use reference::sheet;
    use std::collections::BTreeSet;

    /// At every edge, refused or not, C does what the reference does.
    #[test]
    fn edges_of_points() {
        for edge in edges() {
            let SurveyCall { survey, room } = edge.sample;
            let mut lines = [vec![7; room], vec![7; room]];
            let answer = from_points(&survey, &mut lines[0]);
            let Survey {
                heading,
                points,
                curves,
            } = survey;
            let expected = points::from_points(heading, &points, &curves, &mut lines[1]);
            assert_eq!(answer, expected.map_err(Refused::from), "{}", edge.name);
            assert_eq!(lines[0], lines[1], "{}", edge.name);
        }
    }

    fn check_height(name: &str, numbers: &[i64], station: u64, room: usize) {
        let mut heights = [vec![7; room], vec![7; room]];
        let answer = height(numbers, station, &mut heights[0]);
        let expected = profile::height(numbers, station, &mut heights[1]);
        assert_eq!(answer, expected.map_err(Refused::from), "{name}");
        assert_eq!(heights[0], heights[1], "{name}");
    }

    #[test]
    fn edges_of_profiles() {
        for edge in profile_edges::edges(&mut Dice::new(1)) {
            let ProfileCall {
                profile,
                station,
                room,
            } = edge.sample;
            check_height(&edge.name, &profile, station, room);
        }
    }

    /// Profiles of every count with stations all over them, and with a number less,
    /// more or far away.
    #[test]
    fn random_profiles() {
        let mut dice = Dice::new(1);
        for n in (0..=32).cycle().take(33 * 30) {
            let profile = random_profile(&mut dice, n);
            let mut numbers = profile.numbers();
            let end = profile
                .vertices
                .last()
                .map_or(200_000_000, |last| last.end());
            for _ in 0..8 {
                let station = dice.long(profile.start as u64, end as u64);
                check_height("random", &numbers, station, 1);
            }
            let place = dice.index(0, numbers.len() - 1);
            let any = dice.long(0, u64::MAX) as i64;
            numbers[place] += dice.one_of(&[-2, -1, 1, 2, any >> 32]);
            check_height("damaged", &numbers, profile.start as u64, 1);
        }
    }

    /// In buffers of several sizes, C answers as the reference does and leaves the
    /// same bytes. Gives the numbers of the refusals.
    fn check_rewrite(sheet: &[u8]) -> BTreeSet<u32> {
        let length = sheet.len();
        let rooms = [0, length.saturating_sub(1), length, length + 1, length + 9];
        let refusals = rooms.map(|room| {
            let mut bytes = [vec![7; room], vec![7; room]];
            let answer = rewrite(sheet, &mut bytes[0]);
            let expected = sheet::rewrite(sheet, &mut bytes[1]);
            assert_eq!(answer, expected.map_err(Refused::from), "{sheet:02x?}");
            assert_eq!(bytes[0], bytes[1], "{sheet:02x?}");
            answer.map_or_else(|refused| refused.number, |_| 0)
        });
        refusals.into()
    }

    /// The same of the converter.
    fn check_convert(sheet: &[u8], asked: u32, room: usize) -> u32 {
        let mut bytes = [vec![7; room], vec![7; room]];
        let answer = convert(sheet, asked, &mut bytes[0]);
        let expected = sheet::convert(sheet, asked, &mut bytes[1]);
        assert_eq!(answer, expected.map_err(Refused::from), "{sheet:02x?}");
        assert_eq!(bytes[0], bytes[1], "{sheet:02x?}");
        answer.map_or_else(|refused| refused.number, |_| 0)
    }

    #[test]
    fn edges_of_conversions() {
        let edges = convert_edges::edges(&mut Dice::new(1)).into_iter();
        let answers = edges.map(|edge| {
            let ConvertCall { sheet, asked, room } = edge.sample;
            check_convert(&sheet, asked, room)
        });
        let mut every_answer = every_answer();
        every_answer.insert(24);
        assert_eq!(answers.collect::<BTreeSet<_>>(), every_answer);
    }

    /// Sheets of every count and either edition, as they are and with a bit changed.
    #[test]
    fn random_conversions() {
        let mut dice = Dice::new(1);
        for n in (0..=64).cycle().take(65 * 20) {
            let road = road(&mut dice, n);
            let mut sheet = sheet_of_either(&mut dice, &road);
            for _ in 0..2 {
                let asked = edition_said(&sheet).other().number;
                check_convert(&sheet, asked, 706);
                let bit = dice.index(0, 8 * sheet.len() - 1);
                flip(&mut sheet, bit);
            }
        }
    }

    /// 0 for an accepted sheet, and all that a rewrite can be refused for.
    fn every_answer() -> BTreeSet<u32> {
        (0..=11).chain([16]).collect()
    }

    #[test]
    fn edges_of_sheets() {
        let edges = sheet_edges::edges(&mut Dice::new(1));
        let answers = edges.iter().flat_map(|edge| check_rewrite(&edge.sample));
        assert_eq!(answers.collect::<BTreeSet<_>>(), every_answer());
    }

    /// Sheets of every count as they are, with bits changed, cut and lengthened, and
    /// sheets of any bits.
    #[test]
    fn damaged_sheets() {
        let mut dice = Dice::new(1);
        let mut answers = BTreeSet::new();
        for n in (0..=64).cycle().take(65 * 20) {
            let road = road(&mut dice, n);
            let mut sheet = sheet_of_either(&mut dice, &road);
            answers.extend(check_rewrite(&sheet));
            answers.extend(check_rewrite(&sheet[..dice.index(0, sheet.len() - 1)]));
            answers.extend(check_rewrite(&[&sheet[..], &[0]].concat()));
            for _ in 0..4 {
                let bit = dice.index(0, 8 * sheet.len() - 1);
                flip(&mut sheet, bit);
                answers.extend(check_rewrite(&sheet));
            }
            for any in [any_bytes, any_bytes_of_an_edition, any_entries] {
                answers.extend(check_rewrite(&any(&mut dice)));
            }
        }
        assert_eq!(answers, every_answer());
    }
}
