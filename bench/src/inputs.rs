//! The sheets, stations, curves, spirals, points and profiles that the jobs go through,
//! the same in every run. All are accepted.

use crate::profiles::Profiles;
use crate::surveys::Surveys;
use reference::curve::Curve;
use reference::edition::{FIRST, SECOND};
use reference::elements::GREATEST_SPIRAL;
use reference::line::{Line, MOST_CURVES};
use reference::pegs::stretches;
use reference::samples::call::Callee::Writer;
use reference::samples::call_edges::road_for;
use reference::samples::dice::Dice;
use reference::samples::sheet_fields::sheet_in;
use reference::samples::station_cases::named_sheets;
use reference::sheet;
use reference::unit_spiral::GREATEST_THOUSANDTH;
use std::cell::LazyCell;

const SEED: u64 = 5;
/// How many sheets of 64 curves, of 8, of one and of none.
const FULL_SHEETS: usize = 32;
const EIGHT_SHEETS: usize = 128;
const SINGLE_SHEETS: usize = 256;
const STRAIGHT_SHEETS: usize = 256;
/// How many spirals are looked up.
const SPIRALS: usize = 2_048;

pub struct Inputs {
    /// Those of 64 curves; the first is the mountain road of the samples.
    pub full: Vec<Road>,
    /// Those of 8 curves.
    pub eight: Vec<Road>,
    /// Those of one curve.
    pub single: Vec<Road>,
    /// Those of no curve.
    pub straight: Vec<Road>,
    /// The curves of the full ones.
    pub curves: Vec<Curve>,
    /// Spirals that are looked up, over all rows and lengths.
    pub spirals: Vec<Spiral>,
    /// Lines by their points. The reference's table of sines, with which they are
    /// made, takes long: only jobs that use them wait for it.
    pub surveys: LazyCell<Surveys>,
    pub profiles: Profiles,
}

/// A sheet of edition 1, the same in edition 2, its line in numbers, and the station
/// of its peg.
pub struct Road {
    pub sheet: Vec<u8>,
    pub second: Vec<u8>,
    pub line: Vec<u32>,
    pub station: u64,
}

/// A spiral's angle in thousandths of a radian, and its length in mm.
#[derive(Clone, Copy)]
pub struct Spiral {
    pub thousandth: u32,
    pub length: u32,
}

impl Inputs {
    pub fn make() -> Inputs {
        let mut dice = Dice::new(SEED);
        let mut full = vec![mountain_road()];
        full.extend(random_sheets(&mut dice, MOST_CURVES, FULL_SHEETS - 1));
        let full = roads_of(full);
        let single = roads_of(random_sheets(&mut dice, 1, SINGLE_SHEETS));
        let eight = roads_of(random_sheets(&mut dice, 8, EIGHT_SHEETS));
        let straight = roads_of(random_sheets(&mut dice, 0, STRAIGHT_SHEETS));
        let curves = full.iter().flat_map(|road| line_of(&road.sheet).curves);
        Inputs {
            curves: curves.collect(),
            spirals: (0..SPIRALS).map(|_| random_spiral(&mut dice)).collect(),
            full,
            eight,
            single,
            straight,
            surveys: LazyCell::new(Surveys::make),
            profiles: Profiles::make(),
        }
    }

    /// What the inputs are, in words.
    pub fn words(&self) -> String {
        let simple = self.curves.iter().filter(|curve| curve.l == 0).count();
        format!(
            "sheets, {} of 64 curves, {} of 8, {} of 1 and {} of none; \
             {} curves ({simple} without spirals); {} spirals to look up; \
             lines, {} of 66 points and {} of 3; profiles, {} of 32 vertices, {} of 4 and {} of none",
            self.full.len(),
            self.eight.len(),
            self.single.len(),
            self.straight.len(),
            self.curves.len(),
            self.spirals.len(),
            self.surveys.full.len(),
            self.surveys.single.len(),
            self.profiles.full.len(),
            self.profiles.four.len(),
            self.profiles.straight.len(),
        )
    }
}

pub fn mountain_road() -> Vec<u8> {
    let mut sheets = named_sheets().into_iter();
    let named = sheets.find(|named| named.name == "mountain-road");
    named.expect("the samples have the mountain road").sheet
}

fn random_sheets(dice: &mut Dice, curves: usize, count: usize) -> Vec<Vec<u8>> {
    (0..count).map(|_| random_sheet(dice, curves)).collect()
}

/// The sheet of a road in edition 1.
pub fn random_sheet(dice: &mut Dice, curves: usize) -> Vec<u8> {
    sheet_in(FIRST, &road_for(dice, Writer(FIRST), curves))
}

fn random_spiral(dice: &mut Dice) -> Spiral {
    Spiral {
        thousandth: dice.between(0, GREATEST_THOUSANDTH),
        length: dice.between(0, GREATEST_SPIRAL),
    }
}

fn roads_of(sheets: Vec<Vec<u8>>) -> Vec<Road> {
    let roads = sheets.into_iter().enumerate();
    roads.map(|(i, sheet)| road_of(i, sheet)).collect()
}

fn road_of(i: usize, sheet: Vec<u8>) -> Road {
    let line = line_of(&sheet);
    Road {
        sheet,
        second: sheet_in(SECOND, &line),
        station: station_of(i, &line),
        line: line.numbers(),
    }
}

/// The middle of an element of the line that is road `i`: five eighths of the
/// elements further than on the road before, so that all kinds have their turn, at
/// the beginning of a line as at its end.
fn station_of(i: usize, line: &Line) -> u64 {
    let mut elements = stretches(line).expect("the road is accepted");
    elements.retain(|element| element.begin < element.end);
    let count = elements.len();
    let element = elements[i * (5 * count / 8) % count];
    (element.begin + element.end) / 2
}

fn line_of(sheet: &[u8]) -> Line {
    sheet::line_of(sheet).expect("the sheet is accepted")
}

#[cfg(test)]
mod tests {
    use super::*;
    use reference::pegs::peg_under;

    /// Each kind on a tenth of the roads at least; of the long ones in each
    /// quarter of the line.
    #[test]
    fn pegs_of_every_kind_all_over_the_line() {
        let inputs = Inputs::make();
        let mut quarters = [0; 4];
        for roads in [&inputs.full, &inputs.single] {
            let mut kinds = [0; 4];
            for road in roads {
                let element = peg_under(&line_of(&road.sheet), road.station)
                    .expect("the station is on the line")
                    .element;
                kinds[element.kind() as usize] += 1;
                if road.line[0] as usize == MOST_CURVES {
                    quarters[4 * element.number() / (MOST_CURVES + 1)] += 1;
                }
            }
            assert!(
                kinds.iter().all(|times| 10 * times >= roads.len()),
                "{kinds:?}"
            );
        }
        assert!(quarters.iter().all(|times| *times >= 5), "{quarters:?}");
    }
}
