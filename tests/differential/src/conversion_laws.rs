//! What the library's answers to conversions have in common, whatever was asked for: a
//! sheet of edition 1 that is read is converted, one of edition 2 goes back where
//! edition 1 holds its start; edition, line and text are those expected, and there and
//! back are the same bytes.

use crate::side::{Answer, Side};
use reference::edition::FIRST;
use reference::refusal::Refusal;

/// Where the start stands among the numbers of a line.
const START: usize = 3;

/// The first law that the library breaks for this sheet.
pub fn broken_conversion_law(library: &dyn Side, sheet: &[u8]) -> Option<&'static str> {
    // What is not read has no edition, and is not converted.
    let edition = library.edition(sheet).ok()? as u32;
    let asked = 3 - edition;
    let line = line_read(library, sheet);
    let Ok(other) = converted(library, sheet, asked) else {
        let held = line.is_ok_and(|line| line[START] <= FIRST.greatest_start);
        return held.then_some("a sheet whose start the other edition holds is not converted");
    };
    if library.edition(&other) != Ok(asked as usize) {
        return Some("the converted sheet is not of the edition asked for");
    }
    if line_read(library, &other) != line {
        return Some("the converted sheet has another line");
    }
    if text_of(library, &other) != text_of(library, sheet) {
        return Some("the converted sheet has another text");
    }
    let back = converted(library, &other, edition);
    (back != Ok(sheet.to_vec())).then_some("there and back are other bytes")
}

/// The sheet in the edition asked for.
pub fn converted(library: &dyn Side, sheet: &[u8], asked: u32) -> Result<Vec<u8>, Refusal> {
    filled(pokyandi::SHEET_BYTES, |bytes| {
        library.convert(sheet, asked, bytes)
    })
}

/// The numbers of the sheet's line.
fn line_read(library: &dyn Side, sheet: &[u8]) -> Result<Vec<u32>, Refusal> {
    filled(pokyandi::LINE_NUMBERS, |line| library.read(sheet, line))
}

fn text_of(library: &dyn Side, sheet: &[u8]) -> Result<Vec<u8>, Refusal> {
    filled(pokyandi::TEXT_BYTES, |text| library.text(sheet, text))
}

/// What a call that is lent `most` entries fills of them.
fn filled<T: Clone + Default>(
    most: usize,
    call: impl FnOnce(&mut [T]) -> Answer,
) -> Result<Vec<T>, Refusal> {
    let mut lent = vec![T::default(); most];
    let count = call(&mut lent)?;
    lent.truncate(count);
    Ok(lent)
}

#[cfg(test)]
mod tests {
    use super::*;
    use crate::inputs::any_sheet;
    use crate::side::{Library, Reference};
    use crate::spoilt::Spoilt;
    use reference::edition::{EDITIONS, SECOND};
    use reference::line::Line;
    use reference::refusal::refuse;
    use reference::samples::dice::Dice;
    use reference::samples::ranges::sheet_in_range;
    use reference::samples::sheet_fields::{sheet_in, sheet_of};

    /// Most sheets of an archive.
    const MOST_SHEETS: usize = 600;

    #[test]
    fn laws_hold() {
        let far = Line {
            start: 200_000_001,
            ..Line::case_1()
        };
        let mut sheets = EDITIONS
            .map(|edition| sheet_in(edition, &Line::case_1()))
            .to_vec();
        sheets.extend([sheet_of(&far), vec![], vec![0x20; 21]]);
        for sheet in sheets {
            assert_eq!(broken_conversion_law(&Reference, &sheet), None);
            assert_eq!(broken_conversion_law(&Library, &sheet), None);
        }
    }

    /// An archive of any size: sheets of both editions in range, and any others.
    fn archive(dice: &mut Dice) -> Vec<Vec<u8>> {
        let count = dice.index(0, MOST_SHEETS);
        let mut sheets = Vec::new();
        for _ in 0..count {
            let edition = dice.one_of(&EDITIONS);
            let n = dice.index(0, 12);
            sheets.push(match dice.between(0, 3) {
                0 => any_sheet(dice),
                _ => sheet_in_range(dice, edition, n),
            });
        }
        sheets
    }

    /// The archive in another edition: what is refused stays as it is.
    fn archive_in(library: &dyn Side, archive: &[Vec<u8>], asked: u32) -> Vec<Vec<u8>> {
        let sheets = archive.iter().map(|sheet| {
            let converted = converted(library, sheet, asked);
            converted.unwrap_or_else(|_| sheet.clone())
        });
        sheets.collect()
    }

    /// How many sheets of an archive are of this edition.
    fn count_of(library: &dyn Side, archive: &[Vec<u8>], edition: usize) -> usize {
        let of_the_edition = archive
            .iter()
            .filter(|sheet| library.edition(sheet) == Ok(edition));
        of_the_edition.count()
    }

    /// Whole archives there and back, by both sides.
    #[test]
    fn archives_there_and_back() {
        let mut dice = Dice::new(1);
        let mut sheets = [0; 2];
        for _ in 0..12 {
            let first = archive(&mut dice);
            for library in [&Library as &dyn Side, &Reference] {
                let counts = [1, 2].map(|edition| count_of(library, &first, edition));
                let all_second = archive_in(library, &first, 2);
                assert_eq!(count_of(library, &all_second, 1), 0);
                assert_eq!(count_of(library, &all_second, 2), counts[0] + counts[1]);
                // Those that were of edition 1 come back; so do others with a near start.
                let back = archive_in(library, &all_second, 1);
                for (sheet, back) in first.iter().zip(&back) {
                    let same = match library.edition(sheet) {
                        Ok(1) | Err(_) => back == sheet,
                        Ok(_) => {
                            let near = converted(library, sheet, 1);
                            *back == near.unwrap_or_else(|_| sheet.clone())
                        }
                    };
                    assert!(same, "{sheet:02x?}");
                }
                let again = archive_in(library, &back, 2);
                assert_eq!(again, all_second);
                sheets = [0, 1].map(|i| sheets[i] + counts[i]);
            }
        }
        assert!(sheets.iter().all(|count| *count >= 2_000), "{sheets:?}");
    }

    #[test]
    fn broken_laws_are_found() {
        let far_back = Spoilt {
            convert: |sheet, edition, bytes| match edition {
                1 => refuse(24, 0),
                _ => Reference.convert(sheet, edition, bytes),
            },
            ..Spoilt::NOT
        };
        let same_number = Spoilt {
            convert: |sheet, _, bytes| Reference.rewrite(sheet, bytes),
            ..Spoilt::NOT
        };
        let other_line = Spoilt {
            convert: |sheet, edition, bytes| {
                let mut line = [0; pokyandi::LINE_NUMBERS];
                let count = Reference.read(sheet, &mut line)?;
                line[4] += 1;
                Reference.write(edition, &line[..count], bytes)
            },
            ..Spoilt::NOT
        };
        let other_text = Spoilt {
            text: |sheet, text| match Reference.edition(sheet) {
                Ok(2) => refuse(16, 0),
                _ => Reference.text(sheet, text),
            },
            ..Spoilt::NOT
        };
        let other_bytes = Spoilt {
            convert: |sheet, edition, bytes| {
                let count = Reference.convert(sheet, edition, bytes)?;
                bytes[count - 1] |= u8::from(edition == 1);
                Ok(count)
            },
            ..Spoilt::NOT
        };
        let sheet = sheet_in(FIRST, &Line::case_1());
        for (library, word) in [
            (far_back, "there and back"),
            (same_number, "edition asked for"),
            (other_line, "line"),
            (other_text, "text"),
            (other_bytes, "there and back"),
        ] {
            let law = broken_conversion_law(&library, &sheet).unwrap();
            assert!(law.contains(word), "{law}");
        }
        let never = Spoilt {
            convert: |_, _, _| refuse(16, 0),
            ..Spoilt::NOT
        };
        for edition in [FIRST, SECOND] {
            let sheet = sheet_in(edition, &Line::case_1());
            let law = broken_conversion_law(&never, &sheet).unwrap();
            assert!(law.contains("not converted"), "{law}");
        }
    }
}
