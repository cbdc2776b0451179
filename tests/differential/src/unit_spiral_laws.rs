//! What the library's answers of the unit spiral table have in common with each other
//! and with its elements: what is looked up is the table's row times the length, to the
//! nearest µm, and X and Y of every curve whose spiral has this angle.

use crate::side::{offsets_of, Side};
use pokyandi::element;
use reference::curve::Curve;
use reference::elements::{GREATEST_DEFLECTION, GREATEST_RADIUS, GREATEST_SPIRAL, SMALLEST_RADIUS};
use reference::samples::unit_spiral_edges::PARTS;
use reference::unit_spiral::GREATEST_THOUSANDTH;

/// The first law that the library breaks for this thousandth and length.
pub fn broken_look_up_law(
    library: &dyn Side,
    thousandth: u32,
    length: u32,
) -> Option<&'static str> {
    if let Ok(offsets) = offsets_of(library, thousandth, length) {
        if row_times_length(&table_of(library), thousandth, length) != Some(offsets) {
            return Some("what is looked up is not the table's row times the length");
        }
    }
    let mut curves = curves_of(thousandth, length).into_iter();
    let other = curves.any(|curve| {
        let offsets = offsets_of(library, thousandth, curve.l);
        offsets.ok() != x_and_y(library, curve)
    });
    other.then_some("a curve of this spiral angle has another X or Y")
}

/// The first law that the library breaks for the whole table.
pub fn broken_table_law(library: &dyn Side) -> Option<&'static str> {
    let table = table_of(library);
    let mut rows = 0..=GREATEST_THOUSANDTH;
    let other = rows.any(|thousandth| {
        let offsets = offsets_of(library, thousandth, GREATEST_SPIRAL).ok();
        offsets.is_none() || offsets != row_times_length(&table, thousandth, GREATEST_SPIRAL)
    });
    other.then_some("a row of the table is not what is looked up")
}

/// The numbers of the library's table; none where it gives none.
fn table_of(library: &dyn Side) -> Vec<u64> {
    let mut ratios = vec![0; pokyandi::TABLE_NUMBERS];
    let count = library.unit_spiral_table(&mut ratios).unwrap_or(0);
    ratios.truncate(count);
    ratios
}

/// x and y of a row of the table times the length, µm, halves up; nothing where the
/// table has no such row.
fn row_times_length(table: &[u64], thousandth: u32, length: u32) -> Option<[u64; 2]> {
    let of_length = |ratio: u64| (u64::from(length) * ratio + 500_000) / 1_000_000;
    let row = table.chunks_exact(2).nth(thousandth as usize)?;
    Some([of_length(row[0]), of_length(row[1])])
}

/// X and Y of a curve by the library's elements.
fn x_and_y(library: &dyn Side, curve: Curve) -> Option<[u64; 2]> {
    let mut numbers = [0; pokyandi::ELEMENT_NUMBERS];
    library.elements(curve, &mut numbers).ok()?;
    Some([numbers[element::X], numbers[element::Y]])
}

/// Curves whose spiral angle, 500,000,000 × L / R rounded down, is that of the row: all
/// of this length, and one of a length near it, L and R being r and 500 times a whole
/// number of mm. None for a thousandth that is no row.
fn curves_of(thousandth: u32, length: u32) -> Vec<Curve> {
    if thousandth > GREATEST_THOUSANDTH {
        return Vec::new();
    }
    let part = length.checked_div(thousandth).unwrap_or(0);
    let part = part.clamp(*PARTS.start(), *PARTS.end());
    let mut curves = curves_of_length(thousandth, length);
    curves.push(curve(500 * part, thousandth * part));
    curves
}

/// Those of this length: 500 L is r R, or over it by less than a millionth of R, which
/// the quotient does not show.
fn curves_of_length(thousandth: u32, length: u32) -> Vec<Curve> {
    if thousandth == 0 || length > GREATEST_SPIRAL {
        return Vec::new();
    }
    let radius = |over: u32| {
        let product = (500 * length).checked_sub(over)?;
        let radius = product / thousandth;
        let whole = product % thousandth == 0;
        let in_range = (SMALLEST_RADIUS.max(length)..=GREATEST_RADIUS).contains(&radius);
        (whole && in_range && 1_000_000 * over < radius).then_some(radius)
    };
    let radii = (0..=4).filter_map(radius);
    radii.map(|radius| curve(radius, length)).collect()
}

/// Of the greatest deflection, which leaves an arc whatever the spiral is.
fn curve(radius: u32, length: u32) -> Curve {
    Curve::new(GREATEST_DEFLECTION, radius, length)
}

#[cfg(test)]
mod tests {
    use super::*;
    use crate::side::{Library, Reference};
    use crate::spoilt::Spoilt;
    use reference::elements::spiral_angle;
    use reference::refusal::refuse;
    use reference::samples::dice::Dice;
    use reference::samples::unit_spiral_edges::any_look_up;

    /// Every row, with lengths of which most are those of some curve.
    #[test]
    fn laws_hold() {
        for library in [&Library as &dyn Side, &Reference] {
            assert_eq!(broken_table_law(library), None);
            for thousandth in 0..=GREATEST_THOUSANDTH + 1 {
                for length in [0, 1, 40 * thousandth, 29_999, 500_000, 500_001] {
                    assert_eq!(broken_look_up_law(library, thousandth, length), None);
                }
            }
            let mut dice = Dice::new(1);
            for _ in 0..2_000 {
                let (thousandth, length) = any_look_up(&mut dice);
                assert_eq!(broken_look_up_law(library, thousandth, length), None);
            }
        }
    }

    /// Each has the row's angle; of two lengths all there are, counted over every radius.
    #[test]
    fn curves_of_rows() {
        let has_angle = |thousandth: u32, curve: &Curve| {
            spiral_angle(curve.l, curve.r) == i128::from(thousandth) * 1_000_000
        };
        for thousandth in 0..=GREATEST_THOUSANDTH {
            for length in [0, 1, 29_999, 40_000, 499_999, 500_000] {
                let curves = curves_of(thousandth, length);
                assert!(!curves.is_empty());
                let mut curves = curves.iter();
                assert!(curves.all(|curve| has_angle(thousandth, curve)));
            }
        }
        for (thousandth, length) in [(3, 29_999), (250, 40_000)] {
            let radii = SMALLEST_RADIUS.max(length)..=GREATEST_RADIUS;
            let all = radii.map(|radius| curve(radius, length));
            let all: Vec<Curve> = all.filter(|curve| has_angle(thousandth, curve)).collect();
            let mut found = curves_of_length(thousandth, length);
            found.reverse();
            assert_eq!(found, all);
        }
        // 500 L is 1 and 4 over 3 R.
        assert_eq!(curves_of_length(3, 29_999).len(), 2);
        assert_eq!(curves_of_length(250, 40_000), [curve(80_000, 40_000)]);
        assert!(curves_of(501, 40_000).is_empty());
    }

    #[test]
    fn broken_laws_are_found() {
        let other_row = Spoilt {
            table: |ratios| {
                let count = Reference.unit_spiral_table(ratios)?;
                ratios[2 * 333 + 1] += 1_000;
                Ok(count)
            },
            ..Spoilt::NOT
        };
        let no_table = Spoilt {
            table: |_| refuse(16, 0),
            ..Spoilt::NOT
        };
        for library in [&other_row, &no_table] {
            let law = broken_look_up_law(library, 333, 40_000).unwrap();
            assert!(law.contains("times the length"), "{law}");
            let law = broken_table_law(library).unwrap();
            assert!(law.contains("row of the table"), "{law}");
        }
        assert_eq!(broken_look_up_law(&other_row, 334, 40_000), None);

        // Of X and Y of a curve, not of what is looked up.
        let other_elements = Spoilt {
            elements: |curve, numbers| {
                let count = Reference.elements(curve, numbers)?;
                numbers[element::Y] += 1;
                Ok(count)
            },
            ..Spoilt::NOT
        };
        // Only of a curve that is longer than what was looked up.
        let other_lengths = Spoilt {
            look_up: |thousandth, length, offsets| {
                let count = Reference.unit_spiral(thousandth, length, offsets)?;
                offsets[0] += u64::from(length >= 13_320);
                Ok(count)
            },
            ..Spoilt::NOT
        };
        for library in [other_elements, other_lengths] {
            let law = broken_look_up_law(&library, 333, 1_000).unwrap();
            assert!(law.contains("another X or Y"), "{law}");
        }

        let never = Spoilt {
            look_up: |_, _, _| refuse(16, 0),
            ..Spoilt::NOT
        };
        assert!(broken_look_up_law(&never, 333, 40_000).is_some());
        assert!(broken_table_law(&never).is_some());
        assert_eq!(broken_look_up_law(&never, 501, 40_000), None);
    }
}
