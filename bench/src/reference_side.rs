//! The reference. It has no call of its own for a check, which is reading and
//! calculating there; the numbers of a line, its text, a profile and the unit spiral
//! table, whose rows it works out, it allocates for each call.

use crate::side::{Answer, Refused, Side};
use pokyandi::TABLE_NUMBERS;
use pokyandi::{HEIGHT_NUMBERS, LINE_NUMBERS, OFFSET_NUMBERS, ROW_NUMBERS, SHEET_BYTES};
use reference::curve::Curve;
use reference::edition::FIRST;
use reference::elements::{elements, Elements};
use reference::line_numbers;
use reference::pegs::{peg, PEG_NUMBERS};
use reference::points::from_points;
use reference::profile::height;
use reference::refusal::Refusal;
use reference::report::report;
use reference::samples::surveys::Survey;
use reference::sheet;
use reference::stations::stations;
use reference::unit_spiral::{unit_spiral, unit_spiral_table};

pub struct Reference {
    line: [u32; LINE_NUMBERS],
    bytes: [u8; SHEET_BYTES],
    row: [u64; ROW_NUMBERS],
    peg: [i64; PEG_NUMBERS],
    height: [i64; HEIGHT_NUMBERS],
    text: String,
    offsets: [u64; OFFSET_NUMBERS],
    ratios: [u64; TABLE_NUMBERS],
    elements: Elements,
}

impl Reference {
    pub fn new() -> Reference {
        Reference {
            line: [0; LINE_NUMBERS],
            bytes: [0; SHEET_BYTES],
            row: [0; ROW_NUMBERS],
            peg: [0; PEG_NUMBERS],
            height: [0; HEIGHT_NUMBERS],
            text: String::new(),
            offsets: [0; OFFSET_NUMBERS],
            ratios: [0; TABLE_NUMBERS],
            elements: Elements {
                x: 0,
                y: 0,
                k: 0,
                p: 0,
                d: 0,
                tt: 0,
            },
        }
    }
}

impl From<Refusal> for Refused {
    fn from(refusal: Refusal) -> Refused {
        Refused {
            number: refusal.number.into(),
            place: refusal.place,
        }
    }
}

impl Side for Reference {
    fn read(&mut self, sheet: &[u8]) -> Answer<&[u32]> {
        let count = line_numbers::read(sheet, &mut self.line)?;
        Ok(&self.line[..count])
    }

    fn write(&mut self, line: &[u32]) -> Answer<&[u8]> {
        let count = line_numbers::write(FIRST.number, line, &mut self.bytes)?;
        Ok(&self.bytes[..count])
    }

    fn edition(&mut self, sheet: &[u8]) -> Answer<u32> {
        Ok(sheet::edition_of(sheet)?.number)
    }

    fn convert(&mut self, sheet: &[u8], edition: u32) -> Answer<&[u8]> {
        let count = sheet::convert(sheet, edition, &mut self.bytes)?;
        Ok(&self.bytes[..count])
    }

    fn rewrite(&mut self, sheet: &[u8]) -> Answer<&[u8]> {
        let count = sheet::rewrite(sheet, &mut self.bytes)?;
        Ok(&self.bytes[..count])
    }

    fn stations(&mut self, sheet: &[u8]) -> Answer<&[u64]> {
        let line = sheet::line_of(sheet)?;
        let count = stations(&line, &mut self.row)?;
        Ok(&self.row[..count])
    }

    fn peg(&mut self, sheet: &[u8], station: u64) -> Answer<&[i64]> {
        let line = sheet::line_of(sheet)?;
        let count = peg(&line, station, &mut self.peg)?;
        Ok(&self.peg[..count])
    }

    fn check(&mut self, sheet: &[u8]) -> Answer<usize> {
        Ok(self.stations(sheet)?.len())
    }

    fn text(&mut self, sheet: &[u8]) -> Answer<&[u8]> {
        self.text = report(sheet);
        Ok(self.text.as_bytes())
    }

    fn line_from_points(&mut self, survey: &Survey) -> Answer<&[u32]> {
        let (points, curves) = (&survey.points, &survey.curves);
        let count = from_points(survey.heading, points, curves, &mut self.line)?;
        Ok(&self.line[..count])
    }

    fn height(&mut self, profile: &[i64], station: u64) -> Answer<&[i64]> {
        let count = height(profile, station, &mut self.height)?;
        Ok(&self.height[..count])
    }

    fn unit_spiral(&mut self, thousandth: u32, length: u32) -> Answer<&[u64]> {
        let count = unit_spiral(thousandth, length, &mut self.offsets)?;
        Ok(&self.offsets[..count])
    }

    fn unit_spiral_table(&mut self) -> Answer<&[u64]> {
        let count = unit_spiral_table(&mut self.ratios)?;
        Ok(&self.ratios[..count])
    }

    fn elements(&mut self, Curve { a, r, l }: Curve) -> Answer<()> {
        self.elements = elements(a, r, l)?;
        Ok(())
    }

    fn kept_elements(&self) -> [i128; 6] {
        let Elements { x, y, k, p, d, tt } = self.elements;
        [x, y, k, p, d, tt]
    }
}
