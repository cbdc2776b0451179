//! Source document 002's worked example, and document 01's case 11, by the
//! library.

use crate::side::Side;
use reference::curve::Curve;

/// The example: V 70, R 350 m, deflection 49° 22' 44", L 40 m.
const EXAMPLE: Curve = Curve::new((49 * 60 + 22) * 60 + 44, 350_000, 40_000);

/// Its elements as they are published, m.
const PUBLISHED: [(&str, &str); 6] = [
    ("X", "39.987"),
    ("Y", "0.762"),
    ("k", "19.998"),
    ("p", "0.19"),
    ("D", "261.638"),
    ("TT", "180.989"),
];

/// Curves without spiral, from the smallest to the greatest radius; X, Y, k and p
/// are 0.
const SIMPLE_CURVES: [Curve; 7] = [
    Curve::new(432_000, 20_000, 0),
    Curve::new(432_000, 100_000, 0),
    Curve::new(177_764, 350_000, 0),
    Curve::new(1, 350_000, 0),
    Curve::new(36_000, 1_234_567, 0),
    Curve::new(432_000, 5_000_000, 0),
    Curve::new(1, 5_000_000, 0),
];

/// Says that all elements are as published, or which are not.
pub fn check(library: &dyn Side) -> Result<String, String> {
    let mut wrong = wrong_of_the_example(library);
    wrong.extend(
        SIMPLE_CURVES
            .iter()
            .flat_map(|curve| wrong_without_spiral(library, *curve)),
    );
    if !wrong.is_empty() {
        return Err(wrong.concat());
    }
    let [elements, curves] = [PUBLISHED.len(), SIMPLE_CURVES.len()];
    Ok(format!(
        "published example: {elements} elements as published; {curves} curves without spiral\n"
    ))
}

/// The elements of the example that, rounded to the published digits, are others.
fn wrong_of_the_example(library: &dyn Side) -> Vec<String> {
    let found = elements(library, EXAMPLE);
    PUBLISHED
        .iter()
        .zip(found)
        .filter(|((_, published), found)| rounded(*found, decimals(published)) != **published)
        .map(|((name, published), found)| {
            format!("{name} is {found} um, but {published} m is published\n")
        })
        .collect()
}

/// Those of X, Y, k and p that are not 0.
fn wrong_without_spiral(library: &dyn Side, curve: Curve) -> Vec<String> {
    let found = elements(library, curve);
    PUBLISHED[..4]
        .iter()
        .zip(found)
        .filter(|(_, found)| *found != 0)
        .map(|((name, _), found)| {
            format!("curve {curve} without spiral: {name} is {found} um, not 0\n")
        })
        .collect()
}

/// The six elements, µm; none of these curves is refused.
fn elements(library: &dyn Side, curve: Curve) -> [u64; 6] {
    let mut numbers = [0; 6];
    let answer = library.elements(curve, &mut numbers);
    assert_eq!(answer, Ok(6), "curve {curve}");
    numbers
}

/// How many digits stand behind the point.
fn decimals(metres: &str) -> u32 {
    let (_, digits) = metres.split_once('.').expect("metres have decimals");
    digits.len() as u32
}

/// Micrometres as metres with so many decimals, rounded half up.
pub fn rounded(micrometres: u64, decimals: u32) -> String {
    let unit = 10_u64.pow(6 - decimals);
    let units = (micrometres + unit / 2) / unit;
    let metre = 10_u64.pow(decimals);
    let width = decimals as usize;
    format!("{}.{:0width$}", units / metre, units % metre)
}

#[cfg(test)]
mod tests {
    use super::*;
    use crate::side::Library;
    use crate::spoilt::Spoilt;

    #[test]
    fn library_has_the_published_elements() {
        let all = "published example: 6 elements as published; 7 curves without spiral\n";
        assert_eq!(check(&Library), Ok(all.to_string()));
    }

    #[test]
    fn example_is_case_1() {
        assert_eq!(EXAMPLE, Curve::new(177_764, 350_000, 40_000));
    }

    #[test]
    fn roundings() {
        assert_eq!(rounded(39_986_941, 3), "39.987");
        assert_eq!(rounded(190_454, 2), "0.19");
        assert_eq!([185_000, 194_999].map(|p| rounded(p, 2)), ["0.19"; 2]);
        assert_eq!([184_999, 195_000].map(|p| rounded(p, 2)), ["0.18", "0.20"]);
        assert_eq!(rounded(1_000_499, 3), "1.000");
    }

    /// A millimetre more: all six are wrong, and four of each simple curve.
    #[test]
    fn other_elements_are_found() {
        let library = Spoilt {
            numbers: |answer, numbers| {
                numbers.iter_mut().for_each(|number| *number += 10_000);
                answer
            },
            ..Spoilt::NOT
        };
        let wrong = check(&library).unwrap_err();
        assert_eq!(wrong.lines().count(), 6 + 4 * 7);
        assert!(wrong.starts_with("X is 39996941 um, but 39.987 m is published\n"));
    }
}
