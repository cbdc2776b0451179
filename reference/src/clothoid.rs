//! What the rule's further terms buy: how far its elements lie from those of the
//! clothoid itself, rule minus clothoid, µm, with the terms of source document 002 and
//! with one more (document 02, Interchange ramps).
//!
//! A difference is worked as one fraction, and only then becomes a floating-point
//! number, right to 15 digits. Floating-point numbers of the same elements, right to
//! less than 0.001 µm, guide the search.

use crate::curve::Curve;
use crate::elements::{
    check_arc, rule_with, Elements, Ratios, GREATEST_DEFLECTION, GREATEST_RADIUS, GREATEST_SPIRAL,
    RATIOS, SHORTER_RATIOS, SMALLEST_RADIUS,
};
use crate::exact::clothoid::{clothoid_elements, ClothoidElements};
use crate::exact::fraction::Fraction;
use crate::samples::dice::Dice;
use crate::search::guide::sine_and_cosine;
use crate::search::{changed, highest, moved, random_curve};
use std::array::from_fn;
use std::f64::consts::PI;

/// Seed and count where none are given. With this count every spiral and every
/// deflection of the rows with one radius for each spiral is worked.
pub const SEED: u64 = 1;
pub const COUNT: usize = 500_000;

/// The elements that differ.
const NAMES: [&str; 5] = ["X", "Y", "k", "p", "TT"];
const TT: usize = 4;
type Differences = [f64; NAMES.len()];

/// Of each element the curve that differs most, either way.
type Worst = [Curve; NAMES.len()];

/// The rules that are measured.
const RULES: [(&str, Ratios); 2] = [
    ("terms of source document 002", SHORTER_RATIOS),
    ("one term more", RATIOS),
];

/// The spirals of a row: L is R over this number, or any up to R.
#[derive(Clone, Copy, Debug, PartialEq, Eq)]
enum Spirals {
    RadiusOver(u32),
    Any,
}

const ROWS: [(&str, Spirals); 4] = [
    ("L = R/4", Spirals::RadiusOver(4)),
    ("L = R/2", Spirals::RadiusOver(2)),
    ("L = R", Spirals::RadiusOver(1)),
    ("any L up to R", Spirals::Any),
];

/// Deflections with which the spirals of a row are worked.
const DEFLECTIONS: usize = 4;

/// Climbs for each difference, each of half the count of steps.
const CLIMBS: usize = 4;

/// The largest differences of both rules, either way, as a table.
pub fn clothoid_table(seed: u64, count: usize) -> Vec<String> {
    let mut table = vec![
        "working rule minus clothoid, the largest either way, µm".to_string(),
        row("", NAMES.map(str::to_string)),
    ];
    for (name, ratios) in RULES {
        table.push(name.to_string());
        let rows = worst_of_rule(seed, ratios, count).into_iter();
        for ((name, _), worst) in ROWS.into_iter().zip(rows) {
            let figures = figures(ratios, worst).map(|figure| format!("{figure:.3}"));
            table.push(row(name, figures));
        }
    }
    table
}

/// A row of the table: name, then five columns.
fn row(name: &str, columns: [String; NAMES.len()]) -> String {
    let columns = columns.map(|column| format!("{column:>12}")).concat();
    format!("  {name:13}{columns}")
}

/// Each difference at its own curve.
fn figures(ratios: Ratios, worst: Worst) -> Differences {
    from_fn(|item| differences(ratios, worst[item])[item])
}

/// The worst curves of each row by the rule with these x and y.
///
/// What the papers leave out grows with the spiral, its angle and, for TT, the
/// deflection; the roundings add to it. Where L decides R, the `count` greatest
/// deflections are worked with the longest spiral, then the `count` longest spirals with
/// each of the worst of these: X, Y, k and p take no account of it. Last, the radii and
/// spirals next to the longest that is as long as its radius, with the worst deflection
/// there, `count` random curves, and the worst of the other rows. From the worst of all
/// climbs go on.
fn worst_of_rule(seed: u64, ratios: Ratios, count: usize) -> Vec<Worst> {
    let mut dice = Dice::new(seed);
    let mut rows: Vec<Worst> = Vec::new();
    for (_, spirals) in ROWS {
        let worst = match spirals {
            Spirals::RadiusOver(part) => {
                let deflections = worst_deflections(ratios, part, count).into_iter();
                let curves = deflections.flat_map(|a| longest_spirals(part, a, count));
                worst_of(ratios, curves)
            }
            Spirals::Any => {
                let former = rows.iter().flatten().copied();
                let a = rows.last().expect("L = R comes before")[TT].a;
                let random = (0..count).map(|_| random_curve(&mut dice));
                worst_of(
                    ratios,
                    former.chain(next_to_longest(a, count)).chain(random),
                )
            }
        };
        let climbed = from_fn(|item| {
            let change = |dice: &mut Dice, curve: &Curve| spirals.changed(dice, curve);
            let starts = vec![worst[item]; CLIMBS];
            highest(&mut dice, starts, count / 2, change, |curve| {
                is_accepted(curve).then(|| rough_differences(ratios, *curve)[item].abs())
            })
        });
        rows.push(climbed);
    }
    rows
}

/// Of each element the worst of these curves, in range, that are accepted; one is.
fn worst_of(ratios: Ratios, curves: impl Iterator<Item = Curve>) -> Worst {
    let mut worst = [None; NAMES.len()];
    for curve in curves.filter(is_accepted) {
        for (worst, difference) in worst.iter_mut().zip(rough_differences(ratios, curve)) {
            if !matches!(worst, Some((most, _)) if *most >= difference.abs()) {
                *worst = Some((difference.abs(), curve));
            }
        }
    }
    worst.map(|worst| worst.expect("a curve is accepted").1)
}

/// Whether the element call accepts the curve, which is in range.
fn is_accepted(curve: &Curve) -> bool {
    check_arc(curve.a, curve.r, curve.l).is_ok()
}

/// Those of the `count` greatest deflections with which TT differs most at the longest
/// spiral, R being L times `part`.
fn worst_deflections(ratios: Ratios, part: u32, count: usize) -> Vec<u32> {
    let [_, l] = lengths(part);
    let deflections = (1..=GREATEST_DEFLECTION).rev().take(count);
    let curves = deflections.map(|a| Curve::new(a, part * l, l));
    let mut worst: Vec<(f64, u32)> = curves
        .filter(is_accepted)
        .map(|curve| (rough_differences(ratios, curve)[TT].abs(), curve.a))
        .collect();
    worst.sort_by(|(a, _), (b, _)| b.total_cmp(a));
    worst
        .into_iter()
        .map(|(_, a)| a)
        .take(DEFLECTIONS)
        .collect()
}

/// The longest spirals with this deflection, R being L times `part`.
fn longest_spirals(part: u32, a: u32, count: usize) -> impl Iterator<Item = Curve> {
    let [least, most] = lengths(part);
    let spirals = (least..=most).rev().take(count);
    spirals.map(move |l| Curve::new(a, part * l, l))
}

/// Curves next to the longest spiral that is as long as its radius, about 8 times as
/// many, with this deflection: spirals that are shorter, and for each as many radii, from
/// its own length on.
fn next_to_longest(a: u32, count: usize) -> impl Iterator<Item = Curve> {
    let side = (8 * count).isqrt();
    longest_spirals(1, a, side).flat_map(move |curve| {
        let radii = (curve.r..=GREATEST_RADIUS).take(side);
        radii.map(move |r| Curve { r, ..curve })
    })
}

impl Spirals {
    /// A curve of the same row, in range.
    fn changed(self, dice: &mut Dice, curve: &Curve) -> Curve {
        match self {
            Spirals::RadiusOver(part) => {
                let Curve { mut a, mut l, .. } = *curve;
                let field = dice.between(0, 2);
                if field != 0 {
                    a = moved(dice, a, 1, GREATEST_DEFLECTION);
                }
                if field != 1 {
                    let [least, most] = lengths(part);
                    l = moved(dice, l, least, most);
                }
                Curve::new(a, part * l, l)
            }
            Spirals::Any => changed(dice, curve),
        }
    }
}

/// The least and the greatest L in range where R is L times `part`.
fn lengths(part: u32) -> [u32; 2] {
    let least = SMALLEST_RADIUS.div_ceil(part);
    [least, GREATEST_SPIRAL.min(GREATEST_RADIUS / part)]
}

/// The differences of a curve in range, worked in fractions.
fn differences(ratios: Ratios, curve: Curve) -> Differences {
    let ClothoidElements { x, y, k, p, tt } = clothoid_elements(curve);
    let pairs = by_rule(ratios, curve).into_iter().zip([x, y, k, p, tt]);
    let mut differences =
        pairs.map(|(rule, exact)| (Fraction::from(rule) - exact * 1_000).to_f64());
    from_fn(|_| differences.next().expect("there are five"))
}

/// The elements by the rule with these x and y, µm.
fn by_rule(ratios: Ratios, Curve { a, r, l }: Curve) -> [i128; NAMES.len()] {
    let Elements { x, y, k, p, tt, .. } = rule_with(ratios, a, r, l);
    [x, y, k, p, tt]
}

/// About the same, in floating-point numbers.
fn rough_differences(ratios: Ratios, curve: Curve) -> Differences {
    let [a, r, l] = [curve.a, curve.r, curve.l].map(f64::from);
    let s = l / (2.0 * r);
    let (sine_of_s, cosine_of_s) = sine_and_cosine(s, ROUGH_TERMS);
    let (sine, cosine) = sine_and_cosine(a * PI / 1_296_000.0, ROUGH_TERMS);

    let (x, y) = rough_ratios(s);
    let [x, y] = [l * x, l * y];
    let k = x - r * sine_of_s;
    let p = y - r * (1.0 - cosine_of_s);
    let tt = k + (r + p) * sine / cosine;
    let rule = by_rule(ratios, curve);
    let clothoid = [x, y, k, p, tt];
    from_fn(|item| rule[item] as f64 - 1_000.0 * clothoid[item])
}

/// Terms of each series in floating-point numbers.
const ROUGH_TERMS: u32 = 11;

/// X and Y over L.
fn rough_ratios(s: f64) -> (f64, f64) {
    let z = s * s;
    let (mut x, mut y) = (0.0, 0.0);
    for n in (0..ROUGH_TERMS).rev().map(f64::from) {
        x = 1.0 / (4.0 * n + 1.0) - z * x / ((2.0 * n + 1.0) * (2.0 * n + 2.0));
        y = 1.0 / (4.0 * n + 3.0) - z * y / ((2.0 * n + 2.0) * (2.0 * n + 3.0));
    }
    (x, s * y)
}

#[cfg(test)]
mod tests {
    use super::*;
    use crate::elements::{check_ranges, elements};

    const LONGEST_RAMP: Curve = Curve::new(432_000, 500_000, 500_000);

    fn close(found: Differences, expected: Differences) -> bool {
        let mut pairs = found.into_iter().zip(expected);
        pairs.all(|(a, b)| (a - b).abs() < 1e-6)
    }

    /// Worked by another program, the integrals numerically in 50 decimal digits.
    #[test]
    fn differences_of_the_longest_ramp() {
        let shorter = [
            831.899_827_728,
            -11_785.687_850_3,
            832.201_929_228,
            -11_786.633_036_7,
            -19_582.297_088_7,
        ];
        assert!(close(differences(SHORTER_RATIOS, LONGEST_RAMP), shorter));
        let one_more = [
            -3.100_172_272,
            51.312_149_707,
            -2.798_070_772,
            50.366_963_349,
            84.702_911_260,
        ];
        assert!(close(differences(RATIOS, LONGEST_RAMP), one_more));
    }

    #[test]
    fn guide_is_close() {
        let mut dice = Dice::new(1);
        for _ in 0..100 {
            let curve = random_curve(&mut dice);
            for (_, ratios) in RULES {
                let [exact, rough] = [differences, rough_differences].map(|f| f(ratios, curve));
                let mut pairs = rough.into_iter().zip(exact);
                assert!(pairs.all(|(rough, exact)| (rough - exact).abs() < 0.001));
            }
        }
    }

    #[test]
    fn ends_of_the_rows() {
        assert_eq!(lengths(4), [5_000, 500_000]);
        assert_eq!(lengths(1), [20_000, 500_000]);
        // R would be 20,001 mm at least, and 4,999,995 at most.
        assert_eq!(lengths(15), [1_334, 333_333]);
    }

    #[test]
    fn curves_lie_in_their_rows() {
        let mut dice = Dice::new(1);
        for (_, ratios) in RULES {
            let rows = worst_of_rule(1, ratios, 50).into_iter();
            for ((_, spirals), worst) in ROWS.into_iter().zip(rows) {
                for curve in worst {
                    assert!(elements(curve.a, curve.r, curve.l).is_ok(), "{curve}");
                    let changed = spirals.changed(&mut dice, &curve);
                    for Curve { a, r, l } in [curve, changed] {
                        assert_eq!(check_ranges(a, r, l), Ok(()));
                        let holds = match spirals {
                            Spirals::RadiusOver(part) => r == part * l,
                            Spirals::Any => true,
                        };
                        assert!(holds, "{r} {l}");
                    }
                }
            }
        }
    }

    /// Of 50 the square has 20 spirals and 20 radii for each.
    #[test]
    fn curves_next_to_the_longest() {
        let curves: Vec<Curve> = next_to_longest(300_000, 50).collect();
        assert_eq!(curves.len(), 400);
        assert_eq!(curves[0], Curve::new(300_000, 500_000, 500_000));
        assert_eq!(curves[19], Curve::new(300_000, 500_019, 500_000));
        assert_eq!(curves[399], Curve::new(300_000, 500_000, 499_981));
    }

    /// A short search, row by row.
    fn found(ratios: Ratios) -> Vec<Differences> {
        let rows = worst_of_rule(1, ratios, 50).into_iter();
        rows.map(|worst| figures(ratios, worst)).collect()
    }

    /// Beside some µm of rounding the differences are those of the terms left out: of X
    /// L × s⁶/9360, of Y −L × s⁵/1320, and with one term more −L × s⁸/685440 and
    /// L × s⁷/75600, L being 500 m. The terms behind them are a hundredth at most.
    #[test]
    fn terms_that_are_left_out() {
        let near = |found: f64, expected: f64| {
            let by = 2.0 + expected.abs() / 100.0;
            assert!((found - expected).abs() < by, "{found} {expected}");
        };
        let [shorter, longer] = [SHORTER_RATIOS, RATIOS].map(found);
        for (row, s) in [0.125_f64, 0.25, 0.5, 0.5].into_iter().enumerate() {
            let left_out = |power, over: f64| 500_000_000.0 * s.powi(power) / over;
            near(shorter[row][0], left_out(6, 9_360.0));
            near(shorter[row][1], -left_out(5, 1_320.0));
            near(longer[row][0].abs(), left_out(8, 685_440.0));
            near(longer[row][1].abs(), left_out(7, 75_600.0));
        }
    }

    #[test]
    fn any_spiral_differs_as_much_as_the_others() {
        for (_, ratios) in RULES {
            let rows = found(ratios);
            for row in &rows[..3] {
                let mut pairs = row.iter().zip(rows[3]);
                assert!(pairs.all(|(one, any)| any.abs() > one.abs() - 0.001));
            }
        }
    }

    #[test]
    fn table() {
        let found = clothoid_table(5, 20);
        assert_eq!(found, clothoid_table(5, 20));
        assert_ne!(found, clothoid_table(6, 20));
        assert_eq!(found.len(), 2 + 2 * 5);
        assert_eq!(found[2], RULES[0].0);
        assert!(found[10].starts_with("  L = R  "));
        assert!(found[11].starts_with("  any L up to R "));
        let widths = found[3..7].iter().map(|row| row.chars().count());
        assert!(widths.into_iter().all(|width| width == 75));
    }
}
