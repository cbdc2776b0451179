//! Calls that look up the unit spiral table: every row, both sides of both limits,
//! divisions that leave one half or 1 less, spirals of curves, and rooms; and rooms for
//! the whole table.

use super::dice::Dice;
use super::named::{named, Claim, Named};
use super::roads::any_number;
use crate::elements::{GREATEST_SPIRAL, TO_MICROMETRES};
use crate::unit_spiral::{row, GREATEST_THOUSANDTH, ROW_NUMBERS, TABLE_NUMBERS};
use std::ops::RangeInclusive;

/// A thousandth, a length and the room that is lent.
#[derive(Clone, Copy, Debug)]
pub struct LookUp {
    pub thousandth: u32,
    pub length: u32,
    pub room: usize,
}

/// Lengths that are looked up in every row.
const LENGTHS: [u32; 4] = [1, 40_000, 499_999, GREATEST_SPIRAL];

/// Thousandths about the limit, and those whose lower bits are below it.
const THOUSANDTHS: [u32; 14] = [
    0,
    1,
    2,
    499,
    500,
    501,
    502,
    511,
    512,
    1_000,
    1 << 16,
    (1 << 16) + 500,
    1 << 31,
    u32::MAX,
];

/// Lengths about the limit, and those whose lower bits are below it.
const LENGTH_EDGES: [u32; 10] = [
    0,
    1,
    2,
    499_999,
    500_000,
    500_001,
    1 << 19,
    1 << 31,
    (1 << 31) + 40_000,
    u32::MAX,
];

/// Rooms for X and Y.
const ROOMS: [usize; 5] = [0, 1, 2, 3, 4];

/// Rooms for the table.
pub const TABLE_ROOMS: [usize; 8] = [0, 1, 2, 501, 1_001, 1_002, 1_003, 1_010];

/// Thousandths and lengths at which the division of X leaves one half, then those of Y,
/// then those of both. Without its half the quotient is even in some, odd in others.
pub const HALVES: [(u32, u32); 11] = [
    (422, 75_000),
    (429, 100_000),
    (1, 5_000),
    (10, 50),
    (431, 187_500),
    (403, 62_500),
    (2, 250_000),
    (179, 2_000),
    (432, 500_000),
    (323, 50_000),
    (21, 25_000),
];

/// The same with 1 less than half: first of X, then of Y.
pub const BELOW_HALVES: [(u32, u32); 6] = [
    (431, 25_069),
    (475, 494_449),
    (91, 7_447),
    (424, 9_503),
    (480, 476_559),
    (13, 66_879),
];

/// What a 500th of a radius may be, mm, for a spiral of any row, which has r of them:
/// both are in range.
pub const PARTS: RangeInclusive<u32> = 40..=1_000;

/// All calls that look up.
pub fn edges() -> Vec<Named<LookUp>> {
    [every_row(), limits(), halves(), spirals_of_curves()].concat()
}

/// The rooms for the table, each with its name.
pub fn table_rooms() -> Vec<Named<usize>> {
    let rooms = TABLE_ROOMS.map(|room| {
        let number = if room < TABLE_NUMBERS { 16 } else { 0 };
        named(format!("room {room}"), Claim::accepted_or(number, 0), room)
    });
    rooms.to_vec()
}

/// A call, with what is refused first.
fn edge(kind: &str, thousandth: u32, length: u32, room: usize) -> Named<LookUp> {
    let number = if thousandth > GREATEST_THOUSANDTH {
        25
    } else if length > GREATEST_SPIRAL {
        11
    } else if room < ROW_NUMBERS {
        16
    } else {
        0
    };
    let name = format!("{kind}, row {thousandth}, {length} mm, room {room}");
    let call = LookUp {
        thousandth,
        length,
        room,
    };
    named(name, Claim::accepted_or(number, 0), call)
}

/// Every row, and the one behind the last.
fn every_row() -> Vec<Named<LookUp>> {
    let rows = 0..=GREATEST_THOUSANDTH + 1;
    let calls = rows.flat_map(|thousandth| {
        LENGTHS.map(|length| edge("every row", thousandth, length, ROW_NUMBERS))
    });
    calls.collect()
}

/// Both limits together, with every room: 25 comes before 11, and 16 comes last.
fn limits() -> Vec<Named<LookUp>> {
    let mut edges = Vec::new();
    for thousandth in THOUSANDTHS {
        for length in LENGTH_EDGES {
            edges.extend(ROOMS.map(|room| edge("limits", thousandth, length, room)));
        }
    }
    edges
}

fn halves() -> Vec<Named<LookUp>> {
    let of = |kind, (thousandth, length)| edge(kind, thousandth, length, ROW_NUMBERS);
    let halves = HALVES.map(|call| of("half", call));
    let below = BELOW_HALVES.map(|call| of("below a half", call));
    [&halves[..], &below].concat()
}

/// Spirals whose angle is a row's, of radii from 20 to 500 m.
fn spirals_of_curves() -> Vec<Named<LookUp>> {
    let mut edges = Vec::new();
    for thousandth in [1, 2, 57, 100, 250, 333, 499, 500] {
        for part in [*PARTS.start(), 123, 700, *PARTS.end()] {
            let length = thousandth * part;
            edges.push(edge("spiral of a curve", thousandth, length, ROW_NUMBERS));
        }
    }
    edges
}

/// A random thousandth and length: mostly in range, halves and spirals of curves
/// frequent.
pub fn any_look_up(dice: &mut Dice) -> (u32, u32) {
    let thousandth = dice.between(0, GREATEST_THOUSANDTH);
    let length = dice.between(0, GREATEST_SPIRAL);
    match dice.between(0, 13) {
        0..=3 => (thousandth, length),
        4 => (thousandth, dice.spread(1, GREATEST_SPIRAL)),
        5..=6 => (thousandth, half_length(dice, thousandth).unwrap_or(length)),
        7..=8 => {
            let part = dice.between(*PARTS.start(), *PARTS.end());
            (thousandth, thousandth * part)
        }
        9 => (
            about(dice, GREATEST_THOUSANDTH),
            about(dice, GREATEST_SPIRAL),
        ),
        10 => (dice.one_of(&THOUSANDTHS), dice.one_of(&LENGTH_EDGES)),
        11 => (any_number(dice), length),
        12 => (thousandth, any_number(dice)),
        _ => (any_number(dice), any_number(dice)),
    }
}

/// The limit, or up to 2 less or more.
fn about(dice: &mut Dice, limit: u32) -> u32 {
    dice.between(limit - 2, limit + 2)
}

/// A length at which the division of X or of Y of this row leaves one half, if there is
/// one: half of 10⁶ over what 10⁶ and the ratio have in common, times an odd number.
fn half_length(dice: &mut Dice, thousandth: u32) -> Option<u32> {
    let ratio = u128::from(dice.one_of(&row(thousandth)));
    let scale = TO_MICROMETRES as u128;
    let common = common_divisor(ratio, scale);
    if scale / 2 % common != 0 {
        return None;
    }
    let most = u32::try_from(common).ok()? - 1;
    let odd = dice.between(0, most / 2) * 2 + 1;
    u32::try_from(scale / 2 / common).ok()?.checked_mul(odd)
}

/// The greatest number that divides both.
fn common_divisor(a: u128, b: u128) -> u128 {
    match b {
        0 => a,
        _ => common_divisor(b, a % b),
    }
}

#[cfg(test)]
mod tests {
    use super::*;
    use crate::unit_spiral::{unit_spiral, unit_spiral_table};
    use std::collections::{BTreeMap, BTreeSet};

    #[test]
    fn each_is_answered_as_claimed() {
        let mut claimed = BTreeSet::new();
        for edge in edges() {
            let LookUp {
                thousandth,
                length,
                room,
            } = edge.sample;
            let answer = unit_spiral(thousandth, length, &mut vec![0; room]);
            assert!(
                edge.holds(&[11, 16, 25], &answer),
                "{}: {answer:?}",
                edge.name
            );
            if let Claim::Refused(refusal) = edge.claim {
                claimed.insert(refusal.number);
            }
        }
        assert_eq!(claimed, BTreeSet::from([11, 16, 25]));
        for room in table_rooms() {
            let answer = unit_spiral_table(&mut vec![0; room.sample]);
            assert!(room.holds(&[16], &answer), "{}: {answer:?}", room.name);
        }
    }

    /// What the divisions of X and Y leave, and whether their quotients are odd.
    fn rests((thousandth, length): (u32, u32)) -> [(u64, bool); 2] {
        row(thousandth).map(|ratio| {
            let product = ratio * u64::from(length);
            (product % 1_000_000, product / 1_000_000 % 2 == 1)
        })
    }

    #[test]
    fn halves_are_halves() {
        let half = |call, i: usize| rests(call)[i].0 == 500_000;
        let [x, y, both] = [&HALVES[..4], &HALVES[4..8], &HALVES[8..]];
        assert!(x.iter().all(|call| half(*call, 0)));
        assert!(y.iter().all(|call| half(*call, 1)));
        assert!(both.iter().all(|call| half(*call, 0) && half(*call, 1)));
        // Halves to the even number, and halves to the odd one, would be seen.
        for (i, calls) in [(0, x), (1, y)] {
            let odd: BTreeSet<bool> = calls.iter().map(|call| rests(*call)[i].1).collect();
            assert_eq!(odd.len(), 2);
        }
        for (i, calls) in [(0, &BELOW_HALVES[..3]), (1, &BELOW_HALVES[3..])] {
            assert!(calls.iter().all(|call| rests(*call)[i].0 == 499_999));
        }
    }

    /// How often random calls are accepted (0), refused and with what, and have a half.
    #[test]
    fn every_answer_and_halves_often() {
        let mut dice = Dice::new(1);
        let mut answers = BTreeMap::new();
        let mut halves = [0; 2];
        let mut rows = BTreeSet::new();
        for _ in 0..6_000 {
            let (thousandth, length) = any_look_up(&mut dice);
            let answer = unit_spiral(thousandth, length, &mut [0; ROW_NUMBERS]);
            let number = answer.map_or_else(|refusal| refusal.number, |_| 0);
            *answers.entry(number).or_insert(0) += 1;
            if number == 0 {
                rows.insert(thousandth);
                for (times, (rest, _)) in halves.iter_mut().zip(rests((thousandth, length))) {
                    *times += u32::from(rest == 500_000);
                }
            }
        }
        assert!([0, 11, 25].iter().all(|number| answers[number] >= 200));
        assert!(answers[&0] >= 4_000, "{answers:?}");
        assert_eq!(rows.len(), 501);
        assert!(halves.iter().all(|times| *times >= 300), "{halves:?}");
    }
}
