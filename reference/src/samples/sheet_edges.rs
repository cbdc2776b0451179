//! Sheets at the edges of the reader's checks.

use super::call::Callee::Writer;
use super::call_edges::{faulty_name, first_of, longest_road, refusals_of, Fault, START_EDGES};
use super::dice::Dice;
use super::named::{named, Claim, Named};
use super::ranges::sheet_in_range;
use super::roads::shortest_road;
use super::sheet_faults::put_faults;
use super::sheet_fields::{
    deflection, distance, fill, flip, radius, sheet_in, side, spiral, start, Field, COUNT,
    CROSSFALL, EDITION, SPEED,
};
use crate::edition::{Edition, EDITIONS};
use crate::elements::{GREATEST_DEFLECTION, GREATEST_RADIUS, GREATEST_SPIRAL, SMALLEST_RADIUS};
use crate::line::{Line, GREATEST_DISTANCE, MOST_CURVES};
use crate::road_tables::SPEEDS;

/// A sheet with a name.
pub type NamedSheet = Named<Vec<u8>>;

/// Those of both editions.
pub fn edges(dice: &mut Dice) -> Vec<NamedSheet> {
    let mut edges = equal_bytes();
    for edition in EDITIONS {
        edges.extend(edges_of(dice, edition).into_iter().map(|edge| {
            let name = format!("edition {}, {}", edition.number, edge.name);
            Named { name, ..edge }
        }));
    }
    edges
}

/// Both sides of every check, at several places; then several faults at once.
fn edges_of(dice: &mut Dice, edition: Edition) -> Vec<NamedSheet> {
    [
        length_edges(dice, edition),
        count_edges(dice, edition),
        heading_edges(edition),
        other_number(dice, edition),
        fill_edges(dice, edition),
        distance_edges(dice, edition),
        curve_edges(edition),
        roads(edition),
        every_bit_flipped(edition),
        faults_at_every_place(dice, edition),
        several_faults(dice, edition),
    ]
    .concat()
}

/// A value of a field, and the number of its refusal; 0 where it is in range.
type Value = (u32, u8);

/// A field, its name and the place of its refusal.
struct Edged {
    name: String,
    field: Field,
    place: usize,
}

/// A field of the heading.
fn heading(name: &str, field: Field) -> Edged {
    Edged {
        name: name.to_string(),
        field,
        place: 0,
    }
}

/// A field of the entries, at its place.
fn entry(name: &str, field: Field, place: usize) -> Edged {
    Edged {
        name: format!("{name} {place}"),
        field,
        place,
    }
}

/// The sheet with each of these values in a field.
fn with_values(name: &str, sheet: &[u8], edged: Edged, values: &[Value]) -> Vec<NamedSheet> {
    let Edged {
        name: field_name,
        field,
        place,
    } = edged;
    values
        .iter()
        .map(|&(value, number)| {
            let name = format!("{name}, {field_name} is {value}");
            named(name, Claim::of(number, place), field.with(sheet, value))
        })
        .collect()
}

/// Sheets cut short, exact, and longer.
fn length_edges(dice: &mut Dice, edition: Edition) -> Vec<NamedSheet> {
    let case_9 = sheet_in(edition, &Line::case_9());
    let cut = |name: String, sheet: &[u8], length: usize| {
        let name = format!("{name}, cut to {length} bytes");
        named(name, Claim::of(1, 0), sheet[..length].to_vec())
    };
    let mut sheets: Vec<NamedSheet> = (0..10)
        .map(|length| cut("case 9".to_string(), &case_9, length))
        .collect();
    for n in [0, 1, 2, 3, 63, MOST_CURVES] {
        let sheet = sheet_in_range(dice, edition, n);
        let name = || format!("sheet of {n} curves");
        let lengths = [sheet.len() - 1, sheet.len() - 2, 7, 6];
        sheets.extend(lengths.map(|length| cut(name(), &sheet, length)));
        let ends: [(&[u8], u8); 5] = [
            (&[], 0),
            (&[0], 7),
            (&[1], 7),
            (&[0, 0], 7),
            (&[0xFF; 11], 7),
        ];
        sheets.extend(ends.map(|(end, number)| {
            let name = format!("{} and behind it {end:02x?}", name());
            named(name, Claim::of(number, 0), [&sheet, end].concat())
        }));
    }
    sheets
}

/// All bytes alike, at the lengths where the reader looks at them.
fn equal_bytes() -> Vec<NamedSheet> {
    let mut sheets = Vec::new();
    let bytes = [0x00, 0x10, 0x11, 0x20, 0x22, 0x33, 0xFF];
    for (byte, number) in bytes.into_iter().zip([2, 4, 4, 4, 4, 2, 2]) {
        for length in [1, 6, 7, 10, 21, 706, 720] {
            let number = if length < 7 { 1 } else { number };
            let name = format!("{length} bytes {byte:02x}");
            sheets.push(named(name, Claim::of(number, 0), vec![byte; length]));
        }
    }
    sheets
}

/// Other counts in sheets of no curve, of one and of the most.
fn count_edges(dice: &mut Dice, edition: Edition) -> Vec<NamedSheet> {
    let counts = [0, 1, 2, 63, 64, 65, 66, 127];
    let mut sheets = Vec::new();
    for (n, numbers) in [
        (0, [0, 1, 1, 1, 1, 3, 3, 3]),
        (1, [7, 0, 1, 1, 1, 3, 3, 3]),
        (MOST_CURVES, [7, 7, 7, 7, 0, 3, 3, 3]),
    ] {
        let sheet = sheet_in_range(dice, edition, n);
        let values: Vec<Value> = counts.into_iter().zip(numbers).collect();
        let name = format!("bytes of {n} curves");
        sheets.extend(with_values(&name, &sheet, heading("n", COUNT), &values));
    }
    sheets
}

/// The edges of edition and V without a curve, of e and start also with one. Case 9
/// with the other edition's number is another line, its distance 16 times as long
/// or as short.
fn heading_edges(edition: Edition) -> Vec<NamedSheet> {
    let editions: Vec<Value> = (0..16)
        .map(|number| (number, if matches!(number, 1 | 2) { 0 } else { 2 }))
        .collect();
    let speeds: Vec<Value> = SPEEDS
        .into_iter()
        .flat_map(|speed| [(speed.v - 1, 4), (speed.v, 0), (speed.v + 1, 4)])
        .chain([0, 1, 30, 45, 127].map(|v| (v, 4)))
        .collect();
    let crossfalls: Vec<Value> = (0..16)
        .map(|e| (e, if (2..=12).contains(&e) { 0 } else { 5 }))
        .collect();
    let start = start(edition);
    // The two highest bits alone, and the field's last.
    let wide = [3 << (start.width - 2), start.most() - 1, start.most()];
    let starts: Vec<Value> = START_EDGES
        .into_iter()
        .filter(|start_edge| *start_edge < start.most() - 1)
        .chain(wide)
        .map(|value| (value, if value > edition.greatest_start { 6 } else { 0 }))
        .collect();
    let few_crossfalls = [(1, 5), (2, 0), (12, 0), (13, 5)];
    let without_curve = sheet_in(edition, &Line::case_9());
    let with_curve = sheet_in(edition, &Line::case_1());
    let case_9 = |edged, values: &[Value]| with_values("case 9", &without_curve, edged, values);
    let case_1 = |edged, values: &[Value]| with_values("case 1", &with_curve, edged, values);
    [
        case_9(heading("edition", EDITION), &editions),
        case_9(heading("V", SPEED), &speeds),
        case_9(heading("e", CROSSFALL), &crossfalls),
        case_1(heading("e", CROSSFALL), &few_crossfalls),
        case_9(heading("start", start), &starts),
        case_1(heading("start", start), &starts),
    ]
    .concat()
}

/// Sheets with the other edition's number in their first four bits: every field
/// behind V and e stands elsewhere.
fn other_number(dice: &mut Dice, edition: Edition) -> Vec<NamedSheet> {
    let other = edition.other().number;
    let mut sheets = Vec::new();
    for n in (0..=8).chain([63, MOST_CURVES]) {
        let sheet = EDITION.with(&sheet_in_range(dice, edition, n), other);
        let name = format!("sheet of {n} curves, edition is {other}");
        sheets.push(named(name, Claim::Open, sheet));
    }
    let case_1 = EDITION.with(&sheet_in(edition, &Line::case_1()), other);
    let name = format!("case 1, edition is {other}");
    sheets.push(named(name, Claim::Open, case_1));
    sheets
}

/// Every fill bit alone, all of them, and the last bit before them changed, for
/// every width of the fill.
fn fill_edges(dice: &mut Dice, edition: Edition) -> Vec<NamedSheet> {
    let mut sheets = Vec::new();
    for n in (0..8).chain([MOST_CURVES]) {
        let sheet = sheet_in_range(dice, edition, n);
        let name = format!("sheet of {n} curves");
        let fill = fill(edition, n);
        let bits: Vec<Value> = (0..fill.width).map(|bit| (1 << bit, 7)).collect();
        sheets.extend(with_values(&name, &sheet, heading("fill", fill), &bits));
        let all = Claim::of(if fill.width == 0 { 0 } else { 7 }, 0);
        let filled = fill.with(&sheet, fill.most());
        sheets.push(named(format!("{name}, all of the fill set"), all, filled));
        let mut other_distance = sheet;
        flip(&mut other_distance, fill.first - 1);
        let name = format!("{name}, last bit of the last distance changed");
        sheets.push(named(name, Claim::Open, other_distance));
    }
    sheets
}

/// The edges of the first, a middle and the last distance.
fn distance_edges(dice: &mut Dice, edition: Edition) -> Vec<NamedSheet> {
    let mut sheets = Vec::new();
    for (n, i) in [(0, 0), (2, 0), (2, 1), (2, 2), (MOST_CURVES, MOST_CURVES)] {
        let sheet = sheet_in_range(dice, edition, n);
        let values = [
            (0, 8),
            (1, 0),
            (GREATEST_DISTANCE, 0),
            (GREATEST_DISTANCE + 1, 8),
            (distance(edition, i).most(), 8),
        ];
        let name = format!("sheet of {n} curves");
        let edged = entry("distance", distance(edition, i), i);
        sheets.extend(with_values(&name, &sheet, edged, &values));
    }
    sheets
}

/// The edges of side, A, R and L.
fn curve_edges(edition: Edition) -> Vec<NamedSheet> {
    let sheet = sheet_in(edition, &Line::case_1());
    let [side, deflection, radius, spiral] =
        [side, deflection, radius, spiral].map(|field| field(edition, 1));
    let deflections = [
        (0, 9),
        (1, 0),
        (GREATEST_DEFLECTION, 0),
        (GREATEST_DEFLECTION + 1, 9),
        (deflection.most(), 9),
    ];
    // L is 40,000.
    let radii = [
        (0, 10),
        (SMALLEST_RADIUS - 1, 10),
        (SMALLEST_RADIUS, 11),
        (39_999, 11),
        (40_000, 0),
        (GREATEST_RADIUS, 0),
        (GREATEST_RADIUS + 1, 10),
        (radius.most(), 10),
    ];
    // R is 350,000.
    let short_spirals = [
        (0, 0),
        (1, 0),
        (350_000, 0),
        (350_001, 11),
        (GREATEST_SPIRAL, 11),
    ];
    let large_radius = radius.with(&sheet, 500_001);
    let spirals = [
        (GREATEST_SPIRAL - 1, 0),
        (GREATEST_SPIRAL, 0),
        (GREATEST_SPIRAL + 1, 11),
        (spiral.most(), 11),
    ];
    let case_1 = |edged, values: &[Value]| with_values("case 1", &sheet, edged, values);
    [
        case_1(entry("side", side, 1), &[(0, 0), (1, 0)]),
        case_1(entry("deflection", deflection, 1), &deflections),
        case_1(entry("radius", radius, 1), &radii),
        case_1(entry("spiral", spiral, 1), &short_spirals),
        with_values(
            "radius of 500001",
            &large_radius,
            entry("spiral", spiral, 1),
            &spirals,
        ),
    ]
    .concat()
}

/// The shortest and the longest road of 64 curves.
fn roads(edition: Edition) -> Vec<NamedSheet> {
    let [shortest, longest] =
        [shortest_road(), longest_road(Writer(edition))].map(|road| sheet_in(edition, &road));
    vec![
        named("sheet of the shortest road", Claim::Accepted, shortest),
        named("sheet of the longest road", Claim::Accepted, longest),
    ]
}

/// Case 1 with each bit changed, fill included.
fn every_bit_flipped(edition: Edition) -> Vec<NamedSheet> {
    let sheet = sheet_in(edition, &Line::case_1());
    let flipped = |bit: usize| {
        let mut sheet = sheet.clone();
        flip(&mut sheet, bit);
        named(format!("case 1, bit {bit} changed"), Claim::Open, sheet)
    };
    (0..8 * sheet.len()).map(flipped).collect()
}

/// Refusals 8 to 11 at the first, a middle and the last place of a sheet, and of
/// a full one.
fn faults_at_every_place(dice: &mut Dice, edition: Edition) -> Vec<NamedSheet> {
    let mut sheets = Vec::new();
    for number in 8..=11 {
        let first = usize::from(number != 8);
        for (n, middle) in [(5, 3), (MOST_CURVES, 31)] {
            for place in [first, middle, n] {
                sheets.push(faulty_sheet(dice, edition, n, &[(number, place)]));
            }
        }
    }
    sheets
}

/// Several faults at once for a sheet of four curves, the first in the order of
/// the checks standing first.
const FAULTS_OF_FOUR: [&[Fault]; 24] = [
    // Heading.
    &[(2, 0), (3, 0), (4, 0), (5, 0), (6, 0), (7, 0), (8, 0)],
    &[(3, 0), (4, 0), (5, 0), (6, 0), (7, 0), (8, 0)],
    &[(4, 0), (5, 0), (6, 0), (7, 0), (8, 0)],
    &[(5, 0), (6, 0), (7, 0), (8, 0)],
    &[(6, 0), (7, 0), (8, 0)],
    &[(2, 0), (3, 0)],
    &[(3, 0), (4, 0)],
    &[(4, 0), (5, 0)],
    &[(5, 0), (6, 0)],
    &[(6, 0), (7, 0)],
    &[(6, 0), (8, 0)],
    // The end before the entries.
    &[(7, 0), (8, 0)],
    &[(7, 0), (8, 4)],
    &[(7, 0), (9, 1), (10, 1), (11, 1)],
    &[(1, 0), (8, 0)],
    &[(1, 0), (9, 1), (10, 2), (11, 3)],
    // Sheet order.
    &[(8, 0), (9, 1)],
    &[(9, 1), (8, 1)],
    &[(8, 1), (9, 2)],
    &[(11, 1), (8, 1)],
    &[(9, 1), (10, 1), (11, 1)],
    &[(10, 2), (11, 2)],
    &[(11, 2), (9, 3)],
    &[(10, 4), (8, 4)],
];

/// The same for a full sheet.
const FAULTS_OF_64: [&[Fault]; 6] = [
    &[(2, 0), (8, 64)],
    &[(6, 0), (8, 64)],
    &[(7, 0), (8, 64)],
    &[(8, 63), (9, 64)],
    &[(11, 64), (8, 64)],
    &[(10, 64), (11, 64), (8, 64)],
];

/// Several faults at once, so that the order of the checks shows.
fn several_faults(dice: &mut Dice, edition: Edition) -> Vec<NamedSheet> {
    let mut sheets = Vec::new();
    sheets.extend(FAULTS_OF_FOUR.map(|faults| faulty_sheet(dice, edition, 4, faults)));
    sheets.extend(FAULTS_OF_64.map(|faults| faulty_sheet(dice, edition, 64, faults)));
    sheets.extend(cut_faults(dice, edition));
    sheets
}

/// Each fault of the heading, cut to six bytes, refused 1; and to seven, refused
/// for the fault.
fn cut_faults(dice: &mut Dice, edition: Edition) -> Vec<NamedSheet> {
    let mut sheets = Vec::new();
    for fault in 2..=6 {
        let faulty = faulty_sheet(dice, edition, 4, &[(fault, 0), (8, 0)]);
        sheets.extend([(6, 1), (7, fault)].map(|(length, number)| {
            let name = format!("{}, cut to {length} bytes", faulty.name);
            let sheet = faulty.sample[..length].to_vec();
            named(name, Claim::of(number, 0), sheet)
        }));
    }
    sheets
}

/// A sheet of `n` curves with these faults.
pub fn faulty_sheet(dice: &mut Dice, edition: Edition, n: usize, faults: &[Fault]) -> NamedSheet {
    let mut sheet = sheet_in_range(dice, edition, n);
    put_faults(dice, &mut sheet, &refusals_of(faults));
    named(faulty_name("sheet", n, faults), first_of(faults), sheet)
}

#[cfg(test)]
mod tests {
    use super::*;
    use crate::sheet::read;

    /// The refusals of the reader.
    const REFUSALS: [u8; 11] = [1, 2, 3, 4, 5, 6, 7, 8, 9, 10, 11];

    #[test]
    fn edges_are_answered_as_claimed() {
        for edge in edges(&mut Dice::new(1)) {
            let answer = read(&edge.sample);
            assert!(edge.holds(&REFUSALS, &answer), "{edge:02x?}");
        }
    }

    #[test]
    fn every_fill_bit_is_refused() {
        // Bits of the fill for 0 to 7 curves and for 64; all bits of each but that
        // of 3 curves, in edition 2 of 7, which has none.
        let of_the_first = (5 + 6 + 7 + 1 + 2 + 3 + 4 + 5) + 8;
        let of_the_second = (1 + 2 + 3 + 4 + 5 + 6 + 7 + 1) + 8;
        for (edition, count) in EDITIONS.into_iter().zip([of_the_first, of_the_second]) {
            let edges = fill_edges(&mut Dice::new(1), edition);
            let refused = edges.iter().filter(|edge| edge.claim == Claim::of(7, 0));
            assert_eq!(refused.count(), count);
        }
    }
}
