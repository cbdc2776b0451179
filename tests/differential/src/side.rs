//! The two sides of the comparison: the library and the reference.

use reference::curve::Curve;
use reference::elements::{elements, Elements};
use reference::lent::fill;
use reference::line_numbers;
use reference::pegs::{peg, stretches, Stretch};
use reference::points::{from_points, Heading};
use reference::profile::height;
use reference::refusal::Refusal;
use reference::report::report;
use reference::samples::surveys::Survey;
use reference::sheet;
use reference::stations::stations;
use reference::unit_spiral::{unit_spiral, unit_spiral_table};

/// The count of entries that a call wrote, or its refusal.
pub type Answer = Result<usize, Refusal>;

/// The calls of `include/pokyandi.h` that take a sheet, a curve, a line, points or a
/// profile, and those of the unit spiral table.
pub trait Side {
    fn stations(&self, sheet: &[u8], row: &mut [u64]) -> Answer;
    fn check(&self, sheet: &[u8]) -> Answer;
    fn rewrite(&self, sheet: &[u8], bytes: &mut [u8]) -> Answer;
    fn elements(&self, curve: Curve, numbers: &mut [u64]) -> Answer;
    fn text(&self, sheet: &[u8], text: &mut [u8]) -> Answer;
    fn read(&self, sheet: &[u8], line: &mut [u32]) -> Answer;
    fn write(&self, edition: u32, line: &[u32], bytes: &mut [u8]) -> Answer;
    /// The edition as a count.
    fn edition(&self, sheet: &[u8]) -> Answer;
    fn convert(&self, sheet: &[u8], edition: u32, bytes: &mut [u8]) -> Answer;
    fn peg(&self, sheet: &[u8], station: u64, numbers: &mut [i64]) -> Answer;
    fn line_from_points(
        &self,
        heading: Heading,
        points: &[i64],
        curves: &[u32],
        line: &mut [u32],
    ) -> Answer;
    fn height(&self, profile: &[i64], station: u64, numbers: &mut [i64]) -> Answer;
    fn unit_spiral(&self, thousandth: u32, length: u32, offsets: &mut [u64]) -> Answer;
    fn unit_spiral_table(&self, ratios: &mut [u64]) -> Answer;
}

/// The static library, called by way of its Rust crate.
pub struct Library;

impl Side for Library {
    fn stations(&self, sheet: &[u8], row: &mut [u64]) -> Answer {
        answer_of(pokyandi::stations(sheet, row))
    }

    fn check(&self, sheet: &[u8]) -> Answer {
        answer_of(pokyandi::check(sheet))
    }

    fn rewrite(&self, sheet: &[u8], bytes: &mut [u8]) -> Answer {
        answer_of(pokyandi::rewrite(sheet, bytes))
    }

    fn elements(&self, Curve { a, r, l }: Curve, numbers: &mut [u64]) -> Answer {
        answer_of(pokyandi::elements(a, r, l, numbers))
    }

    fn text(&self, sheet: &[u8], text: &mut [u8]) -> Answer {
        answer_of(pokyandi::text(sheet, text))
    }

    fn read(&self, sheet: &[u8], line: &mut [u32]) -> Answer {
        answer_of(pokyandi::read(sheet, line))
    }

    fn write(&self, edition: u32, line: &[u32], bytes: &mut [u8]) -> Answer {
        answer_of(pokyandi::write(edition, line, bytes))
    }

    fn edition(&self, sheet: &[u8]) -> Answer {
        answer_of(pokyandi::edition(sheet).map(|edition| edition as usize))
    }

    fn convert(&self, sheet: &[u8], edition: u32, bytes: &mut [u8]) -> Answer {
        answer_of(pokyandi::convert(sheet, edition, bytes))
    }

    fn peg(&self, sheet: &[u8], station: u64, numbers: &mut [i64]) -> Answer {
        answer_of(pokyandi::peg(sheet, station, numbers))
    }

    fn line_from_points(
        &self,
        Heading { v, e, start }: Heading,
        points: &[i64],
        curves: &[u32],
        line: &mut [u32],
    ) -> Answer {
        answer_of(pokyandi::from_points(v, e, start, points, curves, line))
    }

    fn height(&self, profile: &[i64], station: u64, numbers: &mut [i64]) -> Answer {
        answer_of(pokyandi::height(profile, station, numbers))
    }

    fn unit_spiral(&self, thousandth: u32, length: u32, offsets: &mut [u64]) -> Answer {
        answer_of(pokyandi::unit_spiral(thousandth, length, offsets))
    }

    fn unit_spiral_table(&self, ratios: &mut [u64]) -> Answer {
        answer_of(pokyandi::unit_spiral_table(ratios))
    }
}

/// An answer of the library's crate as one of the reference.
fn answer_of(answer: Result<usize, pokyandi::Refusal>) -> Answer {
    answer.map_err(|pokyandi::Refusal { reason, place }| Refusal {
        number: u8::try_from(reason.number()).expect("a refusal has a small number"),
        place: place as usize,
    })
}

/// The calls composed of the reference's functions.
pub struct Reference;

impl Side for Reference {
    fn stations(&self, sheet: &[u8], row: &mut [u64]) -> Answer {
        stations(&sheet::line_of(sheet)?, row)
    }

    fn check(&self, sheet: &[u8]) -> Answer {
        self.stations(sheet, &mut [0; pokyandi::ROW_NUMBERS])
    }

    fn rewrite(&self, sheet: &[u8], bytes: &mut [u8]) -> Answer {
        sheet::rewrite(sheet, bytes)
    }

    fn elements(&self, Curve { a, r, l }: Curve, numbers: &mut [u64]) -> Answer {
        fill_elements(elements(a, r, l)?, numbers)
    }

    fn text(&self, sheet: &[u8], text: &mut [u8]) -> Answer {
        fill(text, text_of(sheet).as_bytes())
    }

    fn read(&self, sheet: &[u8], line: &mut [u32]) -> Answer {
        line_numbers::read(sheet, line)
    }

    fn write(&self, edition: u32, line: &[u32], bytes: &mut [u8]) -> Answer {
        line_numbers::write(edition, line, bytes)
    }

    fn edition(&self, sheet: &[u8]) -> Answer {
        Ok(sheet::edition_of(sheet)?.number as usize)
    }

    fn convert(&self, sheet: &[u8], edition: u32, bytes: &mut [u8]) -> Answer {
        sheet::convert(sheet, edition, bytes)
    }

    fn peg(&self, sheet: &[u8], station: u64, numbers: &mut [i64]) -> Answer {
        peg(&sheet::line_of(sheet)?, station, numbers)
    }

    fn line_from_points(
        &self,
        heading: Heading,
        points: &[i64],
        curves: &[u32],
        line: &mut [u32],
    ) -> Answer {
        from_points(heading, points, curves, line)
    }

    fn height(&self, profile: &[i64], station: u64, numbers: &mut [i64]) -> Answer {
        height(profile, station, numbers)
    }

    fn unit_spiral(&self, thousandth: u32, length: u32, offsets: &mut [u64]) -> Answer {
        unit_spiral(thousandth, length, offsets)
    }

    fn unit_spiral_table(&self, ratios: &mut [u64]) -> Answer {
        unit_spiral_table(ratios)
    }
}

/// The elements of an accepted curve at the front of the lent numbers.
pub fn fill_elements(elements: Elements, numbers: &mut [u64]) -> Answer {
    let Elements { x, y, k, p, d, tt } = elements;
    let found = [x, y, k, p, d, tt].map(|length| {
        u64::try_from(length).expect("no element of an accepted curve is below zero")
    });
    fill(numbers, &found)
}

/// The text of a sheet of any length. `report` looks at 707 bytes only, as the
/// station program does; no sheet that is read has more than 706.
pub fn text_of(sheet: &[u8]) -> String {
    match sheet::read(sheet) {
        Ok(_) => report(sheet),
        Err(refusal) => format!("{refusal}\n"),
    }
}

/// The elements of a sheet's line, from its start to its end; none where the
/// sheet is refused.
pub fn stretches_of(sheet: &[u8]) -> Vec<Stretch> {
    let stretches = sheet::line_of(sheet).and_then(|line| stretches(&line));
    stretches.unwrap_or_default()
}

/// The numbers of the line that a side makes of a survey.
pub fn line_of(side: &dyn Side, survey: &Survey) -> Result<Vec<u32>, Refusal> {
    let Survey {
        heading,
        points,
        curves,
    } = survey;
    let mut line = [0; pokyandi::LINE_NUMBERS];
    let count = side.line_from_points(*heading, points, curves, &mut line)?;
    Ok(line[..count].to_vec())
}

/// X and Y that a side looks up.
pub fn offsets_of(side: &dyn Side, thousandth: u32, length: u32) -> Result<[u64; 2], Refusal> {
    let mut offsets = [0; pokyandi::OFFSET_NUMBERS];
    side.unit_spiral(thousandth, length, &mut offsets)?;
    Ok(offsets)
}

/// The height that a side gives of a profile.
pub fn height_of(side: &dyn Side, profile: &[i64], station: u64) -> Result<i64, Refusal> {
    let mut numbers = [0; pokyandi::HEIGHT_NUMBERS];
    side.height(profile, station, &mut numbers)?;
    Ok(numbers[0])
}

#[cfg(test)]
mod tests {
    use super::*;
    use reference::edition::{EDITIONS, FIRST, SECOND};
    use reference::line::Line;
    use reference::refusal::refuse;
    use reference::samples::call::Callee::Writer;
    use reference::samples::call_edges::road_for;
    use reference::samples::dice::Dice;
    use reference::samples::point_edges::case_1;
    use reference::samples::sheet_fields::{
        sheet_in, sheet_of, start, COUNT, CROSSFALL, EDITION, SPEED,
    };

    /// Case 1 of document 01.
    fn check_case_1(side: &dyn Side) {
        let sheet = sheet_of(&Line::case_1());
        let stations = [
            319_010_720,
            359_010_720,
            620_649_187,
            660_649_187,
            879_659_907,
        ];
        let elements = [
            39_986_941,
            761_727,
            19_997_824,
            190_454,
            261_638_467,
            180_989_280,
        ];

        let mut row = [7; 6];
        assert_eq!(side.stations(&sheet, &mut row), Ok(5));
        assert_eq!(row[..5], stations);
        assert_eq!(row[5], 7);
        assert_eq!(side.stations(&sheet, &mut row[..4]), refuse(16, 0));
        assert_eq!(side.check(&sheet), Ok(5));

        let mut bytes = [7; 22];
        assert_eq!(side.rewrite(&sheet, &mut bytes), Ok(21));
        assert_eq!(bytes[..21], sheet);
        assert_eq!(side.rewrite(&sheet, &mut bytes[..20]), refuse(16, 0));

        let curve = Line::case_1().curve(1);
        let mut numbers = [7; 7];
        assert_eq!(side.elements(curve, &mut numbers), Ok(6));
        assert_eq!(numbers[..6], elements);
        assert_eq!(side.elements(curve, &mut numbers[..5]), refuse(16, 0));

        let mut text = [7; 200];
        let length = side.text(&sheet, &mut text).unwrap();
        assert!(text[..length].starts_with(b"POINT CURVE STATION\nTS 1 319.010720\n"));
        assert!(text[..length].ends_with(b"END 0 879.659907\n"));
        assert_eq!(text[length], 7);
        assert_eq!(side.text(&sheet, &mut text[..length - 1]), refuse(16, 0));

        let line = [1, 70, 8, 0, 500_000, 0, 177_764, 350_000, 40_000, 400_000];
        let mut numbers = [7; 11];
        assert_eq!(side.read(&sheet, &mut numbers), Ok(10));
        assert_eq!(numbers[..10], line);
        assert_eq!(numbers[10], 7);
        assert_eq!(side.read(&sheet, &mut numbers[..9]), refuse(16, 0));

        let mut bytes = [7; 22];
        assert_eq!(side.write(1, &line, &mut bytes), Ok(21));
        assert_eq!(bytes[..21], sheet);
        assert_eq!(bytes[21], 7);
        assert_eq!(side.write(1, &line, &mut bytes[..20]), refuse(16, 0));
        assert_eq!(side.write(1, &line[..9], &mut bytes), refuse(3, 0));
        assert_eq!(side.write(3, &line[..9], &mut bytes), refuse(2, 0));

        let mut second = [7; 22];
        assert_eq!(side.convert(&sheet, 2, &mut second), Ok(21));
        assert_eq!(second[..21], sheet_in(SECOND, &Line::case_1()));
        assert_eq!(second[21], 7);
        assert_eq!(side.convert(&sheet, 2, &mut second[..20]), refuse(16, 0));
        assert_eq!(side.convert(&sheet, 1, &mut bytes), refuse(2, 0));
        assert_eq!(
            [&sheet, &second[..21]].map(|sheet| side.edition(sheet)),
            [Ok(1), Ok(2)]
        );
        assert_eq!(side.edition(&sheet[..20]), refuse(1, 0));
        assert_eq!(side.write(2, &line, &mut bytes), Ok(21));
        assert_eq!(bytes[..21], second[..21]);
        assert_eq!(side.convert(&second[..21], 1, &mut bytes), Ok(21));
        assert_eq!(bytes[..21], sheet);
        let far = start(SECOND).with(&second[..21], 200_000_001);
        assert_eq!(side.convert(&far, 1, &mut bytes), refuse(24, 0));

        let [_, _, cs, _, end] = stations;
        let mut peg = [7; 6];
        assert_eq!(side.peg(&sheet, cs, &mut peg), Ok(5));
        assert_eq!(peg, [3, 1, 40_000_000, 39_986_941, 761_727, 7]);
        assert_eq!(side.peg(&sheet, end, &mut peg), Ok(5));
        assert_eq!(peg, [0, 1, 219_010_720, 0, 0, 7]);
        assert_eq!(side.peg(&sheet, end, &mut peg[..4]), refuse(16, 0));
        assert_eq!(side.peg(&sheet, end + 1, &mut peg[..4]), refuse(17, 0));

        let Survey {
            heading,
            points,
            curves,
        } = case_1();
        let from_points = |points: &[i64], line: &mut [u32]| {
            let answer = side.line_from_points(heading, points, &curves, line);
            answer.map(|count| line[..count].to_vec())
        };
        assert_eq!(from_points(&points, &mut [7; 11]), Ok(line.to_vec()));
        assert_eq!(from_points(&points, &mut [7; 9]), refuse(16, 0));
        assert_eq!(from_points(&points[1..], &mut [7; 11]), refuse(3, 0));
    }

    #[test]
    fn case_1_of_both_sides() {
        check_case_1(&Reference);
        check_case_1(&Library);
    }

    /// 2 % up and 3 % down on a curve of 100 m: its ends, its vertex and its highest
    /// point, as worked by hand.
    #[test]
    fn crest_of_both_sides() {
        let profile = [40, 0, 100_000, 20_000, 200_000, -30_000, 100_000];
        for side in [&Reference as &dyn Side, &Library] {
            let height = |station| height_of(side, &profile, station);
            let heights = [0, 150_000, 190_000, 200_000, 250_000].map(height);
            let expected = [100_000, 103_000, 103_400, 103_375, 102_500];
            assert_eq!(heights, expected.map(Ok));
            assert_eq!(height(200_000_001), refuse(17, 0));
            let mut numbers = [7; 2];
            assert_eq!(side.height(&profile, 0, &mut numbers), Ok(1));
            assert_eq!(numbers, [100_000, 7]);
            assert_eq!(side.height(&profile, 0, &mut []), refuse(16, 0));
            assert_eq!(height_of(side, &profile[..6], 0), refuse(3, 0));
        }
    }

    /// Rows 0, 250 and 500 as worked by hand, and spirals of 48 m and 500 m.
    #[test]
    fn unit_spiral_of_both_sides() {
        for side in [&Reference as &dyn Side, &Library] {
            let offsets = |thousandth, length| offsets_of(side, thousandth, length);
            assert_eq!(offsets(0, 48_000), Ok([48_000_000, 0]));
            assert_eq!(offsets(250, 48_000), Ok([47_700_867, 3_982_178]));
            assert_eq!(offsets(500, 48_000), Ok([46_813_809, 7_858_279]));
            assert_eq!(offsets(500, 500_000), Ok([487_643_841, 81_857_075]));
            assert_eq!(offsets(501, 500_001), refuse(25, 0));
            assert_eq!(offsets(500, 500_001), refuse(11, 0));
            let mut lent = [7; 3];
            assert_eq!(side.unit_spiral(500, 1, &mut lent[..1]), refuse(16, 0));
            assert_eq!(side.unit_spiral(500, 1, &mut lent), Ok(2));
            assert_eq!(lent, [975, 164, 7]);

            let mut ratios = [7; 1_003];
            let small = side.unit_spiral_table(&mut ratios[..1_001]);
            assert_eq!((small, ratios), (refuse(16, 0), [7; 1_003]));
            assert_eq!(side.unit_spiral_table(&mut ratios), Ok(1_002));
            assert_eq!(ratios[..4], [1_000_000_000, 0, 999_999_900, 333_333]);
            assert_eq!(ratios[500..502], [993_768_058, 82_962_049]);
            assert_eq!(ratios[1_000..], [975_287_682, 163_714_150, 7]);
        }
    }

    /// Whatever stands behind byte 707 changes nothing: the sheet is refused by
    /// its heading, or 7.
    #[test]
    fn text_of_sheets_that_are_longer_than_any() {
        let mut dice = Dice::new(1);
        for n in [0, 1, 63, 64] {
            let road = road_for(&mut dice, Writer(FIRST), n);
            for edition in EDITIONS {
                let road = sheet_in(edition, &road);
                let headings = [
                    road.clone(),
                    EDITION.with(&road, 3),
                    COUNT.with(&road, 65),
                    SPEED.with(&road, 45),
                    CROSSFALL.with(&road, 1),
                    start(edition).with(&road, edition.greatest_start + 1),
                ];
                for (mut sheet, refusal) in headings.into_iter().zip([7, 2, 3, 4, 5, 6]) {
                    for length in [707, 708, 3_000] {
                        sheet.resize(length, 0xA5);
                        assert_eq!(text_of(&sheet), format!("REFUSED {refusal} 0\n"));
                        assert_eq!(text_of(&sheet), report(&sheet));
                    }
                }
            }
        }
    }
}
