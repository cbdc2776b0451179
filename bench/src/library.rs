//! The proved library.

use crate::side::{Answer, Refused, Side};
use pokyandi::{Refusal, ELEMENT_NUMBERS, HEIGHT_NUMBERS, LINE_NUMBERS, PEG_NUMBERS};
use pokyandi::{OFFSET_NUMBERS, ROW_NUMBERS, SHEET_BYTES, TABLE_NUMBERS, TEXT_BYTES};
use reference::curve::Curve;
use reference::edition::FIRST;
use reference::points::Heading;
use reference::samples::surveys::Survey;

pub struct Library {
    line: [u32; LINE_NUMBERS],
    bytes: [u8; SHEET_BYTES],
    row: [u64; ROW_NUMBERS],
    peg: [i64; PEG_NUMBERS],
    height: [i64; HEIGHT_NUMBERS],
    text: [u8; TEXT_BYTES],
    offsets: [u64; OFFSET_NUMBERS],
    ratios: [u64; TABLE_NUMBERS],
    elements: [u64; ELEMENT_NUMBERS],
}

impl Library {
    pub fn new() -> Library {
        Library {
            line: [0; LINE_NUMBERS],
            bytes: [0; SHEET_BYTES],
            row: [0; ROW_NUMBERS],
            peg: [0; PEG_NUMBERS],
            height: [0; HEIGHT_NUMBERS],
            text: [0; TEXT_BYTES],
            offsets: [0; OFFSET_NUMBERS],
            ratios: [0; TABLE_NUMBERS],
            elements: [0; ELEMENT_NUMBERS],
        }
    }
}

impl From<Refusal> for Refused {
    fn from(refusal: Refusal) -> Refused {
        Refused {
            number: refusal.reason.number(),
            place: refusal.place as usize,
        }
    }
}

impl Side for Library {
    fn read(&mut self, sheet: &[u8]) -> Answer<&[u32]> {
        let count = pokyandi::read(sheet, &mut self.line)?;
        Ok(&self.line[..count])
    }

    fn write(&mut self, line: &[u32]) -> Answer<&[u8]> {
        let count = pokyandi::write(FIRST.number, line, &mut self.bytes)?;
        Ok(&self.bytes[..count])
    }

    fn edition(&mut self, sheet: &[u8]) -> Answer<u32> {
        Ok(pokyandi::edition(sheet)?)
    }

    fn convert(&mut self, sheet: &[u8], edition: u32) -> Answer<&[u8]> {
        let count = pokyandi::convert(sheet, edition, &mut self.bytes)?;
        Ok(&self.bytes[..count])
    }

    fn rewrite(&mut self, sheet: &[u8]) -> Answer<&[u8]> {
        let count = pokyandi::rewrite(sheet, &mut self.bytes)?;
        Ok(&self.bytes[..count])
    }

    fn stations(&mut self, sheet: &[u8]) -> Answer<&[u64]> {
        let count = pokyandi::stations(sheet, &mut self.row)?;
        Ok(&self.row[..count])
    }

    fn peg(&mut self, sheet: &[u8], station: u64) -> Answer<&[i64]> {
        let count = pokyandi::peg(sheet, station, &mut self.peg)?;
        Ok(&self.peg[..count])
    }

    fn check(&mut self, sheet: &[u8]) -> Answer<usize> {
        Ok(pokyandi::check(sheet)?)
    }

    fn text(&mut self, sheet: &[u8]) -> Answer<&[u8]> {
        let count = pokyandi::text(sheet, &mut self.text)?;
        Ok(&self.text[..count])
    }

    fn line_from_points(&mut self, survey: &Survey) -> Answer<&[u32]> {
        let Heading { v, e, start } = survey.heading;
        let (points, curves) = (&survey.points, &survey.curves);
        let count = pokyandi::from_points(v, e, start, points, curves, &mut self.line)?;
        Ok(&self.line[..count])
    }

    fn height(&mut self, profile: &[i64], station: u64) -> Answer<&[i64]> {
        let count = pokyandi::height(profile, station, &mut self.height)?;
        Ok(&self.height[..count])
    }

    fn unit_spiral(&mut self, thousandth: u32, length: u32) -> Answer<&[u64]> {
        let count = pokyandi::unit_spiral(thousandth, length, &mut self.offsets)?;
        Ok(&self.offsets[..count])
    }

    fn unit_spiral_table(&mut self) -> Answer<&[u64]> {
        let count = pokyandi::unit_spiral_table(&mut self.ratios)?;
        Ok(&self.ratios[..count])
    }

    fn elements(&mut self, Curve { a, r, l }: Curve) -> Answer<()> {
        pokyandi::elements(a, r, l, &mut self.elements)?;
        Ok(())
    }

    fn kept_elements(&self) -> [i128; 6] {
        self.elements.map(i128::from)
    }
}
