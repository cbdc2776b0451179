//! The sample sheets for the station program: document 01's cases, the edges of
//! the reader's and the calculator's checks, then random sheets.

use super::call::Callee::Writer;
use super::call_edges::road_for;
use super::dice::Dice;
use super::named::{named, Claim};
use super::near_limits::{
    near_least_arc, near_least_radius, near_least_spiral, near_least_straight,
};
use super::roads::road;
use super::sheet_edges::NamedSheet;
use super::sheet_faults::{cut, flip_any, lengthen};
use super::sheet_fields::{edition_in_turn, sheet_in, sheet_of_any, sheet_of_either};
use super::sheets::{any_bytes, any_bytes_of_an_edition, any_entries};
use super::station_cases::document_cases;
use super::station_faults::{any_fault, any_place, faulty_sheet, first_place};
use super::{line_edges, sheet_edges};
use crate::edition::{Edition, EDITIONS};
use crate::hexadecimal::MOST_BYTES;
use crate::line::{Line, MOST_CURVES};
use crate::refusal::Refusal;
use crate::report::MOST_READ;
use crate::sheet::sheet_length;

/// The first `count` sample sheets of the seed's endless list.
pub fn sample_station_sheets(seed: u64, count: usize) -> impl Iterator<Item = Vec<u8>> {
    let mut dice = Dice::new(seed);
    let edges = edges(&mut dice);
    let random = std::iter::repeat_with(move || random_round(&mut dice)).flatten();
    document_cases()
        .into_iter()
        .map(|case| case.sheet)
        .chain(edges)
        .chain(random)
        .take(count)
}

/// Both sides of every check of the reader and of the calculator, and several
/// faults at once; of the calculator's, those that fit a sheet, in the editions
/// that take them by turns.
fn edges(dice: &mut Dice) -> Vec<Vec<u8>> {
    let mut lines: Vec<Line> = line_edges::edges(dice)
        .into_iter()
        .map(|edge| edge.sample.line)
        .collect();
    // The row's lengths make no difference here.
    lines.dedup();
    let without_names = |edges: Vec<NamedSheet>| edges.into_iter().map(|edge| edge.sample);
    let mut sheets: Vec<Vec<u8>> = without_names(sheet_edges::edges(dice)).collect();
    let lines = lines.iter().enumerate();
    sheets.extend(lines.filter_map(|(i, line)| sheet_of_any(edition_in_turn(i, line), line)));
    sheets.extend(without_names(full_length_edges(dice)));
    sheets
}

/// Sheets of few curves and of the most, in both editions, made as long as the
/// program reads, one byte less and more, and longer.
pub fn full_length_edges(dice: &mut Dice) -> Vec<NamedSheet> {
    EDITIONS
        .into_iter()
        .flat_map(|edition| full_length_edges_of(dice, edition))
        .collect()
}

fn full_length_edges_of(dice: &mut Dice, edition: Edition) -> Vec<NamedSheet> {
    let mut sheets = Vec::new();
    for n in [0, 1, 63, MOST_CURVES] {
        for length in LENGTHS {
            let whole = length == sheet_length(edition, n);
            let claim = Claim::accepted_or(if whole { 0 } else { 7 }, 0);
            for byte in [0x00, 0xFF] {
                let mut sheet = sheet_in(edition, &road_for(dice, Writer(edition), n));
                sheet.resize(length, byte);
                let name = format!(
                    "edition {}, road of {n} curves, with {byte:02x} to {length} bytes",
                    edition.number
                );
                sheets.push(named(name, claim, sheet));
            }
        }
    }
    sheets
}

/// Lengths around the most that the program reads, and the longest of a list.
const LENGTHS: [usize; 4] = [MOST_READ - 1, MOST_READ, MOST_READ + 1, MOST_BYTES];

/// One round of random sheets, some of each kind.
fn random_round(dice: &mut Dice) -> Vec<Vec<u8>> {
    [
        roads(dice),
        roads_near_limits(dice),
        faults_of_each_curve_check(dice),
        faulty_roads(dice),
        damaged_sheets(dice),
    ]
    .concat()
}

/// Roads that are accepted.
fn roads(dice: &mut Dice) -> Vec<Vec<u8>> {
    let counts = [
        (0, 0),
        (0, 0),
        (1, 1),
        (1, 1),
        (1, 1),
        (2, 2),
        (2, 2),
        (2, 2),
        (3, 10),
        (3, 10),
        (3, 10),
        (3, 10),
        (11, 63),
        (MOST_CURVES, MOST_CURVES),
    ];
    counts
        .map(|(least, most)| {
            let road = road_of(dice, least, most);
            sheet_of_either(dice, &road)
        })
        .to_vec()
}

/// A road of `least` to `most` curves.
fn road_of(dice: &mut Dice, least: usize, most: usize) -> Line {
    let n = dice.index(least, most);
    road(dice, n)
}

/// Roads at the limits of checks 12 to 15.
fn roads_near_limits(dice: &mut Dice) -> Vec<Vec<u8>> {
    [
        near_least_radius,
        near_least_spiral,
        near_least_arc,
        near_least_arc,
        near_least_straight,
        near_least_straight,
    ]
    .map(|road| {
        let road = road(dice);
        sheet_of_either(dice, &road)
    })
    .to_vec()
}

/// Refusals 12, 13 and 14, each at the first, a middle or the last curve.
fn faults_of_each_curve_check(dice: &mut Dice) -> Vec<Vec<u8>> {
    [12, 13, 14]
        .map(|number| {
            let road = any_road(dice, 1);
            let n = road.curve_count();
            let place = dice.one_of(&[first_place(number), n.div_ceil(2), n]);
            faulty_sheet(dice, road, &[Refusal { number, place }])
        })
        .to_vec()
}

/// A road of `least` curves or a few more, or a full one.
fn any_road(dice: &mut Dice, least: usize) -> Line {
    if dice.once_in(12) {
        road(dice, MOST_CURVES)
    } else {
        road_of(dice, least, 6)
    }
}

/// Roads with one fault, two and three; a long one with a fault at any place.
fn faulty_roads(dice: &mut Dice) -> Vec<Vec<u8>> {
    let mut sheets = Vec::new();
    for count in [1, 1, 1, 1, 1, 1, 2, 2, 2, 3] {
        let road = any_road(dice, 0);
        let n = road.curve_count();
        let faults: Vec<Refusal> = (0..count).map(|_| any_fault(dice, n)).collect();
        sheets.push(faulty_sheet(dice, road, &faults));
    }
    let road = road_of(dice, 7, MOST_CURVES);
    let number = dice.one_of(&[8, 9, 10, 11, 12, 13, 14, 15]);
    let fault = any_place(dice, number, road.curve_count());
    sheets.push(faulty_sheet(dice, road, &[fault]));
    sheets
}

/// Sheets with a bit changed, cut, lengthened; and any bytes.
fn damaged_sheets(dice: &mut Dice) -> Vec<Vec<u8>> {
    let [mut flipped, mut also_flipped, mut short, mut long, mut resized] = [(); 5].map(|_| {
        let road = any_road(dice, 0);
        sheet_of_either(dice, &road)
    });
    flip_any(dice, &mut flipped);
    flip_any(dice, &mut also_flipped);
    cut(dice, &mut short);
    lengthen(dice, &mut long);
    resized.resize(dice.one_of(&LENGTHS), dice.byte());
    let bytes = match dice.between(0, 2) {
        0 => any_bytes(dice),
        1 => any_bytes_of_an_edition(dice),
        _ => any_entries(dice),
    };
    vec![flipped, also_flipped, short, long, resized, bytes]
}

#[cfg(test)]
mod tests {
    use super::super::sheet_fields::edition_said;
    use super::*;
    use crate::report::row;
    use crate::sheet::edition_of;
    use std::collections::BTreeSet;
    use std::sync::LazyLock;

    /// The list that make-samples stores.
    static LIST: LazyLock<Vec<Vec<u8>>> = LazyLock::new(|| list(2, 6_000));

    /// Count of stations, or refusal, of each sheet.
    static ANSWERS: LazyLock<Vec<Result<usize, Refusal>>> = LazyLock::new(|| {
        let answer = |sheet: &Vec<u8>| row(sheet).map(|row| row.len());
        LIST.iter().map(answer).collect()
    });

    fn list(seed: u64, count: usize) -> Vec<Vec<u8>> {
        sample_station_sheets(seed, count).collect()
    }

    /// The places of this refusal, one for each time.
    fn places(number: u8) -> Vec<usize> {
        ANSWERS
            .iter()
            .filter_map(|answer| answer.err())
            .filter(|refusal| refusal.number == number)
            .map(|refusal| refusal.place)
            .collect()
    }

    #[test]
    fn count_and_seed() {
        assert_eq!(list(2, 0).len(), 0);
        assert_eq!(LIST.len(), 6_000);
        assert_eq!(list(2, 1_500)[..], LIST[..1_500]);
        assert_ne!(list(3, 1_500)[..], LIST[..1_500]);
    }

    #[test]
    fn most_are_random() {
        let fixed = document_cases().len() + edges(&mut Dice::new(2)).len();
        assert!(LIST.len() >= fixed + 4_000, "{fixed} are not random");
    }

    #[test]
    fn full_length_edges_are_answered_as_claimed() {
        for edge in full_length_edges(&mut Dice::new(1)) {
            assert!(edge.holds(&[7], &row(&edge.sample)), "{}", edge.name);
        }
    }

    #[test]
    fn accepted_counts_of_curves() {
        let accepted: Vec<usize> = ANSWERS
            .iter()
            .filter_map(|answer| answer.ok())
            .map(|count| (count - 1) / 4)
            .collect();
        assert!(3 * accepted.len() >= LIST.len(), "{}", accepted.len());
        let full = accepted.iter().filter(|n| **n == 64).count();
        assert!(full >= 100, "{full} full ones");
        let counts: BTreeSet<usize> = accepted.into_iter().collect();
        assert!((0..=10).chain([64]).all(|n| counts.contains(&n)));
        assert!(counts.len() >= 50, "{counts:?}");
    }

    /// Of the sheets that say so, and of those that are accepted.
    #[test]
    fn both_editions_often() {
        for edition in EDITIONS {
            let says = |sheet: &&Vec<u8>| {
                sheet
                    .first()
                    .is_some_and(|_| edition_said(sheet) == edition)
            };
            let times = LIST.iter().filter(says).count();
            assert!(
                times >= 2_400,
                "edition {} only {times} times",
                edition.number
            );
            let reads = |sheet: &&Vec<u8>| edition_of(sheet) == Ok(edition);
            let times = LIST.iter().filter(reads).count();
            assert!(times >= 1_200, "{times} of edition {} read", edition.number);
        }
    }

    #[test]
    fn every_refusal_often() {
        for number in 1..=15 {
            let times = places(number).len();
            assert!(times >= 60, "{number} only {times} times");
        }
    }

    #[test]
    fn refusals_at_many_places() {
        for number in 8..=15 {
            let places: BTreeSet<usize> = places(number).into_iter().collect();
            assert!(places.len() >= 12, "{number} only at {places:?}");
            assert!(places.contains(&first_place(number)));
            assert!(places.contains(&64));
        }
    }

    #[test]
    fn lengths_around_the_most_that_is_read() {
        let times = |length: usize| LIST.iter().filter(|sheet| sheet.len() == length).count();
        for length in LENGTHS {
            assert!(times(length) >= 20, "{length}: {}", times(length));
        }
        assert!(times(0) >= 3);
        assert!(LIST.iter().all(|sheet| sheet.len() <= MOST_BYTES));
    }
}
