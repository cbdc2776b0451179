//! Sheets with a name for the station program: document 01's cases, one sheet
//! for each refusal, a mountain road, an interchange ramp, and sheets of edition 2.

use super::lines::{with_curve, with_first_distance};
use super::mountain_road::mountain_road;
use super::sheet_fields::{
    deflection, distance, radius, sheet_in, sheet_of, spiral, start, Field, COUNT, CROSSFALL,
    EDITION, SPEED,
};
use crate::curve::Curve;
use crate::edition::{Edition, EDITIONS, FIRST, SECOND};
use crate::elements::{GREATEST_DEFLECTION, SMALLEST_RADIUS};
use crate::line::{Line, LEFT, MOST_CURVES};

/// A sheet and its name.
pub struct NamedSheet {
    pub name: &'static str,
    pub sheet: Vec<u8>,
}

/// All the sheets.
pub fn named_sheets() -> Vec<NamedSheet> {
    let mut sheets = document_cases();
    sheets.extend(refused_sheets());
    sheets.push(named("mountain-road", sheet_of(&mountain_road())));
    sheets.push(named("ramp", sheet_of(&ramp())));
    sheets.push(named("empty", Vec::new()));
    sheets.extend(sheets_of_edition_2());
    sheets.extend(start_edges());
    sheets.extend(other_numbers());
    sheets
}

/// Document 01's cases 1 to 11. Those of a single curve hold it in case 1's
/// line; case 5 has no spiral, so that only the radius decides.
pub fn document_cases() -> Vec<NamedSheet> {
    let curve = |a, r, l| sheet_of(&with_curve(Curve::new(a, r, l)));
    let case_9 = sheet_of(&Line::case_9());
    let mut filled = case_9.clone();
    filled[9] = 0x01;
    let cut = case_9[..9].to_vec();
    vec![
        named("case-01", sheet_of(&Line::case_1())),
        named("case-02", sheet_of(&with_first_distance(180_991))),
        named("case-03", sheet_of(&with_first_distance(180_990))),
        named("case-04", curve(177_764, 350_000, 39_999)),
        named("case-05-passes", curve(177_764, 167_751, 0)),
        named("case-05-refused", curve(177_764, 167_750, 0)),
        named("case-06", curve(23_574, 350_000, 40_000)),
        named("case-07", curve(23_573, 350_000, 40_000)),
        named("case-08-passes", curve(1, 350_000, 0)),
        named("case-08-refused", curve(1, 200_000, 0)),
        named("case-09", case_9),
        named("case-10-fill", filled),
        named("case-10-cut", cut),
        named("case-11", curve(177_764, 350_000, 0)),
    ]
}

/// One sheet for each refusal: 1 to 6 from case 1, the others from the mountain
/// road, several at its last place.
fn refused_sheets() -> Vec<NamedSheet> {
    let line = sheet_of(&Line::case_1());
    let road = sheet_of(&mountain_road());
    let longer = [&road[..], &[0; 2]].concat();
    let case_1 = |field: Field, value| field.with(&line, value);
    let road = |field: Field, value| field.with(&road, value);
    let last = MOST_CURVES;
    vec![
        named("refusal-01", line[..6].to_vec()),
        named("refusal-02", case_1(EDITION, 3)),
        named("refusal-03", case_1(COUNT, 65)),
        named("refusal-04", case_1(SPEED, 75)),
        named("refusal-05", case_1(CROSSFALL, 13)),
        named("refusal-06", case_1(start(FIRST), FIRST.greatest_start + 1)),
        named("refusal-07", longer),
        named("refusal-08", road(distance(FIRST, last), 0)),
        named(
            "refusal-09",
            road(deflection(FIRST, 1), GREATEST_DEFLECTION + 1),
        ),
        named("refusal-10", road(radius(FIRST, last), SMALLEST_RADIUS - 1)),
        named("refusal-11", road(spiral(FIRST, 32), 500_001)),
        named("refusal-12", road(radius(FIRST, 12), 45_000)),
        named("refusal-13", road(spiral(FIRST, last), 29_999)),
        named("refusal-14", road(deflection(FIRST, 33), 3_600)),
        named("refusal-15", road(distance(FIRST, last), 20_000)),
    ]
}

/// An interchange ramp: a loop to the right and one to the left, each with spirals as
/// long as its radius (document 02, Interchange ramps).
fn ramp() -> Line {
    let curves = [
        Curve::new(396_000, 60_000, 60_000),
        Curve::new(378_000, 50_000, 50_000),
    ];
    let mut line = Line::new(40, 8, 350_000, &[150_000, 260_000, 120_000], &curves);
    line.sides[1] = LEFT;
    line
}

/// Cases 1, 9 and 10 and the mountain road in edition 2, and a road that only
/// edition 2 holds.
fn sheets_of_edition_2() -> Vec<NamedSheet> {
    let case_9 = sheet_in(SECOND, &Line::case_9());
    let mut filled = case_9.clone();
    filled[9] = 0x01;
    let road = sheet_in(SECOND, &mountain_road());
    let longer = [&road[..], &[0; 2]].concat();
    vec![
        named("edition-2-case-01", sheet_in(SECOND, &Line::case_1())),
        named("edition-2-case-09", case_9.clone()),
        named("edition-2-case-10-fill", filled),
        named("edition-2-case-10-cut", case_9[..9].to_vec()),
        named("edition-2-mountain-road", road),
        named("edition-2-refusal-07", longer),
        named("federal-road", sheet_of(&federal_road())),
    ]
}

/// A fast road that starts as far out as may be.
fn federal_road() -> Line {
    let curves = [
        Curve::new(72_000, 1_500_000, 120_000),
        Curve::new(90_000, 1_200_000, 100_000),
        Curve::new(54_000, 2_000_000, 0),
    ];
    let distances = [2_500_000, 3_000_000, 3_500_000, 1_800_000];
    let mut line = Line::new(110, 8, SECOND.greatest_start, &distances, &curves);
    line.sides[1] = LEFT;
    line
}

/// Case 1 from the greatest start of edition 1 and from 1 mm more, in both editions,
/// and from that of edition 2 and 1 mm more. Edition 1 refuses 1 mm more in
/// `refusal-06`.
fn start_edges() -> Vec<NamedSheet> {
    let case_1 = |edition: Edition, from: u32| {
        let sheet = sheet_in(edition, &Line::case_1());
        start(edition).with(&sheet, from)
    };
    vec![
        named("edition-1-start-200000000", case_1(FIRST, 200_000_000)),
        named("edition-2-start-200000000", case_1(SECOND, 200_000_000)),
        named("edition-2-start-200000001", case_1(SECOND, 200_000_001)),
        named("edition-2-start-4000000000", case_1(SECOND, 4_000_000_000)),
        named("edition-2-start-4000000001", case_1(SECOND, 4_000_000_001)),
    ]
}

/// Cases 1 and 9 of each edition with the other's number in the first four bits.
/// What was case 9 is another line then.
fn other_numbers() -> Vec<NamedSheet> {
    let names = [
        ["edition-1-case-01-as-2", "edition-1-case-09-as-2"],
        ["edition-2-case-01-as-1", "edition-2-case-09-as-1"],
    ];
    let mut sheets = Vec::new();
    for (edition, names) in EDITIONS.into_iter().zip(names) {
        for (name, line) in names.into_iter().zip([Line::case_1(), Line::case_9()]) {
            let sheet = sheet_in(edition, &line);
            sheets.push(named(name, EDITION.with(&sheet, edition.other().number)));
        }
    }
    sheets
}

fn named(name: &'static str, sheet: Vec<u8>) -> NamedSheet {
    NamedSheet { name, sheet }
}

#[cfg(test)]
mod tests {
    use super::*;
    use crate::report::{row, MOST_READ};
    use crate::sheet::line_of;
    use std::collections::BTreeSet;

    fn sheet(name: &str) -> Vec<u8> {
        let mut sheets = named_sheets().into_iter();
        sheets.find(|sheet| sheet.name == name).unwrap().sheet
    }

    /// Number and place of the refusal of the sheet with this name.
    fn refusal(name: &str) -> Option<(u8, usize)> {
        let refusal = row(&sheet(name)).err()?;
        Some((refusal.number, refusal.place))
    }

    #[test]
    fn document_cases_are_answered_as_printed() {
        for name in [
            "case-01",
            "case-02",
            "case-05-passes",
            "case-06",
            "case-08-passes",
            "case-09",
            "case-11",
        ] {
            assert_eq!(refusal(name), None, "{name}");
        }
        assert_eq!(refusal("case-03"), Some((15, 0)));
        assert_eq!(refusal("case-04"), Some((13, 1)));
        assert_eq!(refusal("case-05-refused"), Some((12, 1)));
        assert_eq!(refusal("case-07"), Some((14, 1)));
        assert_eq!(refusal("case-08-refused"), Some((14, 1)));
        assert_eq!(refusal("case-10-fill"), Some((7, 0)));
        assert_eq!(refusal("case-10-cut"), Some((1, 0)));
    }

    /// No sheet is refused 16 to 24: they are for buffers, pegs, coordinates, profiles
    /// and conversions.
    #[test]
    fn every_refusal_at_its_place() {
        let places = [0, 0, 0, 0, 0, 0, 0, 64, 1, 64, 32, 12, 64, 33, 64];
        for (number, place) in (1..=15).zip(places) {
            let name = format!("refusal-{number:02}");
            assert_eq!(refusal(&name), Some((number, place)), "{name}");
        }
        assert_eq!(refusal("empty"), Some((1, 0)));
        assert_eq!(refusal("mountain-road"), None);
    }

    /// By TT of 118,979,279 and 92,645,322 µm and arcs of 55,191,731 and 41,629,786,
    /// worked by another program.
    #[test]
    fn stations_of_the_ramp() {
        let first = [381_020_721, 441_020_721, 496_212_452, 556_212_452];
        let second = [604_587_851, 654_587_851, 696_217_637, 746_217_637];
        let expected = [&first[..], &second, &[773_572_315]].concat();
        assert_eq!(row(&sheet("ramp")), Ok(expected));
    }

    /// A program that reads one byte fewer accepts it.
    #[test]
    fn refusal_7_is_longer_than_what_is_read() {
        for (name, road) in [
            ("refusal-07", "mountain-road"),
            ("edition-2-refusal-07", "edition-2-mountain-road"),
        ] {
            let longer = sheet(name);
            assert_eq!(longer.len(), MOST_READ + 1);
            assert_eq!(longer[..MOST_READ - 1], sheet(road));
            assert_eq!(refusal(name), Some((7, 0)));
        }
    }

    /// Edition 2's sheet of a line has the stations of edition 1's.
    #[test]
    fn editions_have_the_same_stations() {
        for name in ["case-01", "case-09", "mountain-road"] {
            let [first, second] = [sheet(name), sheet(&format!("edition-2-{name}"))];
            assert_ne!(first, second);
            assert!(row(&first).is_ok());
            assert_eq!(row(&first), row(&second));
        }
        assert_eq!(refusal("edition-2-case-10-fill"), Some((7, 0)));
        assert_eq!(refusal("edition-2-case-10-cut"), Some((1, 0)));
    }

    #[test]
    fn starts_of_both_editions() {
        let first_station = |name| row(&sheet(name)).map(|row| row[0]);
        for (name, start) in [
            ("edition-1-start-200000000", 200_000_000),
            ("edition-2-start-200000000", 200_000_000),
            ("edition-2-start-200000001", 200_000_001),
            ("edition-2-start-4000000000", 4_000_000_000),
        ] {
            let straight = 319_010_720;
            assert_eq!(first_station(name), Ok(1_000 * start + straight), "{name}");
        }
        assert_eq!(refusal("edition-2-start-4000000001"), Some((6, 0)));
        assert_eq!(refusal("federal-road"), None);
        assert_eq!(
            line_of(&sheet("federal-road")).unwrap().start,
            4_000_000_000
        );
    }

    /// Case 9 has another end.
    #[test]
    fn numbers_of_the_other_edition() {
        assert_eq!(refusal("edition-1-case-01-as-2"), Some((10, 1)));
        assert_eq!(refusal("edition-2-case-01-as-1"), Some((13, 1)));
        let end = |name| row(&sheet(name)).unwrap();
        assert_eq!(end("edition-1-case-09-as-2"), [8_000_000_000]);
        assert_eq!(end("edition-2-case-09-as-1"), [31_250_000]);
    }

    #[test]
    fn names_differ() {
        let sheets = named_sheets();
        let names: BTreeSet<&str> = sheets.iter().map(|sheet| sheet.name).collect();
        assert_eq!(names.len(), sheets.len());
    }
}
