//! Sample curves: document 01's cases, the edges of the ranges, spirals that are long
//! for their radius, and random curves.

use super::call_edges::LARGE_DEFLECTION;
use super::dice::Dice;
use super::limits::{greatest_spiral, least_deflection};
use super::named::{named, Claim, Named};
use crate::curve::Curve;
use crate::elements::{GREATEST_DEFLECTION, GREATEST_RADIUS, SMALLEST_RADIUS};

/// The cases that document 01 gives; each with the number of its refusal, 0
/// where there is none.
pub fn document_cases() -> Vec<Named<Curve>> {
    [
        // Its numbers are those of source document 002's example.
        ("case 1", 0, Curve::new(177_764, 350_000, 40_000)),
        ("case 6", 0, Curve::new(23_574, 350_000, 40_000)),
        ("case 7", 14, Curve::new(23_573, 350_000, 40_000)),
        ("case 8", 0, Curve::new(1, 350_000, 0)),
        ("case 8, refused", 14, Curve::new(1, 200_000, 0)),
        (
            "case 11, case 1's curve",
            0,
            Curve::new(177_764, 350_000, 0),
        ),
        (
            "case 11, smallest radius",
            0,
            Curve::new(432_000, 20_000, 0),
        ),
        (
            "case 11, greatest radius",
            0,
            Curve::new(432_000, 5_000_000, 0),
        ),
    ]
    .map(|(name, number, curve)| named(name, Claim::accepted_or(number, 0), curve))
    .to_vec()
}

/// Every combination of the values at the edges of the ranges.
pub fn edges() -> Vec<Named<Curve>> {
    let mut edges = Vec::new();
    for a in [0, 1, 2, 431_999, 432_000, 432_001, u32::MAX] {
        for r in [
            0,
            19_999,
            20_000,
            20_001,
            4_999_999,
            5_000_000,
            5_000_001,
            u32::MAX,
        ] {
            for l in spiral_edges(r) {
                let curve = Curve::new(a, r, l);
                edges.push(named(format!("curve {curve}"), claim_of(curve), curve));
            }
        }
    }
    edges
}

/// The edges of L: its own range, then R − 1, R and R + 1 where they differ from
/// those.
fn spiral_edges(r: u32) -> Vec<u32> {
    let mut lengths = vec![0, 1, 499_999, 500_000, 500_001, u32::MAX];
    for l in [r.checked_sub(1), Some(r), r.checked_add(1)] {
        lengths.extend(l.filter(|l| !lengths.contains(l)));
    }
    lengths
}

/// The claim of a curve at the edges. In range, the large deflections leave an
/// arc always, 1 and 2 seconds only where the radius is large and the spiral 1 mm
/// at most.
fn claim_of(Curve { a, r, l }: Curve) -> Claim {
    let large_radius = r > 4_000_000;
    if !(1..=432_000).contains(&a) {
        Claim::of(9, 0)
    } else if !(20_000..=5_000_000).contains(&r) {
        Claim::of(10, 0)
    } else if l > 500_000 || l > r {
        Claim::of(11, 0)
    } else if a <= 2 && (l > 1 || !large_radius) {
        Claim::of(14, 0)
    } else {
        Claim::Accepted
    }
}

/// Spirals as long as the radius, a half and a quarter of it, where the last terms of x
/// and y count most (document 02, Interchange ramps): with one second less than leaves
/// an arc, with just enough, and with more.
pub fn long_spirals() -> Vec<Named<Curve>> {
    let mut curves = Vec::new();
    for (part, radii) in [
        (1, [20_000, 48_000, 60_000, 500_000]),
        (2, [20_000, 40_000, 120_000, 1_000_000]),
        (4, [20_000, 80_000, 240_000, 2_000_000]),
    ] {
        for r in radii {
            let l = r / part;
            let least = least_deflection(r, l);
            for (a, number) in [
                (least - 1, 14),
                (least, 0),
                (LARGE_DEFLECTION, 0),
                (GREATEST_DEFLECTION, 0),
            ] {
                let curve = Curve::new(a, r, l);
                let name = format!("spiral of R/{part}, curve {curve}");
                curves.push(named(name, Claim::accepted_or(number, 0), curve));
            }
        }
    }
    curves
}

/// Curves at one of which X or Y changes whatever quotient of t, x and y is rounded
/// otherwise, as at [`super::peg_edges::ROUNDED_LENGTHS`].
pub const ROUNDED_CURVES: [Curve; 3] = [
    Curve::new(LARGE_DEFLECTION, 508_686, 495_300),
    Curve::new(LARGE_DEFLECTION, 511_101, 497_154),
    Curve::new(LARGE_DEFLECTION, 515_625, 490_433),
];

/// The same with a name.
pub fn rounded_curves() -> Vec<Named<Curve>> {
    let curves = ROUNDED_CURVES.map(|curve| {
        let name = format!("roundings, curve {curve}");
        named(name, Claim::Accepted, curve)
    });
    curves.to_vec()
}

/// A random curve, of any kind.
pub fn random_curve(dice: &mut Dice) -> Curve {
    match dice.between(0, 8) {
        0 => uniform_curve(dice),
        1 => spread_radius_curve(dice),
        2 => small_curve(dice),
        3 => simple_curve(dice),
        4 => long_spiral(dice),
        5 => nearly_whole_spiral(dice),
        6 => out_of_range(dice),
        7 => {
            let radius = dice.between(SMALLEST_RADIUS, GREATEST_RADIUS);
            least_arc(dice, radius)
        }
        _ => {
            let radius = dice.spread(SMALLEST_RADIUS, GREATEST_RADIUS);
            least_arc(dice, radius)
        }
    }
}

/// In range, all three uniform.
fn uniform_curve(dice: &mut Dice) -> Curve {
    let a = dice.between(1, GREATEST_DEFLECTION);
    let r = dice.between(SMALLEST_RADIUS, GREATEST_RADIUS);
    let l = dice.between(0, greatest_spiral(r));
    Curve::new(a, r, l)
}

/// In range, small radii as frequent as large ones.
fn spread_radius_curve(dice: &mut Dice) -> Curve {
    let a = dice.between(1, GREATEST_DEFLECTION);
    let r = dice.spread(SMALLEST_RADIUS, GREATEST_RADIUS);
    let l = dice.between(0, greatest_spiral(r));
    Curve::new(a, r, l)
}

/// In range, with small deflections and spirals frequent.
fn small_curve(dice: &mut Dice) -> Curve {
    let a = dice.spread(1, GREATEST_DEFLECTION);
    let r = dice.spread(SMALLEST_RADIUS, GREATEST_RADIUS);
    let l = dice.spread(1, greatest_spiral(r));
    Curve::new(a, r, l)
}

/// In range, L = 0, small deflections frequent.
fn simple_curve(dice: &mut Dice) -> Curve {
    let a = dice.spread(1, GREATEST_DEFLECTION);
    let r = dice.between(SMALLEST_RADIUS, GREATEST_RADIUS);
    Curve::new(a, r, 0)
}

/// A small radius and L in its upper tenth.
fn long_spiral(dice: &mut Dice) -> Curve {
    let a = dice.between(180_000, GREATEST_DEFLECTION);
    let r = dice.between(SMALLEST_RADIUS, 600_000);
    let most = greatest_spiral(r);
    let l = dice.between(most - most / 10, most);
    Curve::new(a, r, l)
}

/// A small radius and L just below, at, or just above its greatest.
fn nearly_whole_spiral(dice: &mut Dice) -> Curve {
    let a = dice.between(180_000, GREATEST_DEFLECTION);
    let r = dice.between(SMALLEST_RADIUS, 600_000);
    let most = greatest_spiral(r);
    let l = dice.between(most - 3, most + 1);
    Curve::new(a, r, l)
}

/// A curve of radius `r` at the edge of refusal 14: the last deflection without
/// arc, the first with one, or the next.
fn least_arc(dice: &mut Dice, r: u32) -> Curve {
    let l = dice.between(0, greatest_spiral(r));
    let a = least_deflection(r, l) - 1 + dice.between(0, 2);
    Curve::new(a, r, l)
}

/// A curve in range with one field put out of range, or three numbers of any
/// size.
fn out_of_range(dice: &mut Dice) -> Curve {
    let curve = spread_radius_curve(dice);
    match dice.between(0, 4) {
        0 => Curve {
            a: dice.spread(GREATEST_DEFLECTION + 1, u32::MAX),
            ..curve
        },
        1 => Curve {
            r: dice.between(0, SMALLEST_RADIUS - 1),
            ..curve
        },
        2 => Curve {
            r: dice.spread(GREATEST_RADIUS + 1, u32::MAX),
            ..curve
        },
        3 => Curve {
            l: dice.spread(greatest_spiral(curve.r) + 1, u32::MAX),
            ..curve
        },
        _ => Curve::new(
            dice.between(0, u32::MAX),
            dice.between(0, u32::MAX),
            dice.between(0, u32::MAX),
        ),
    }
}

#[cfg(test)]
mod tests {
    use super::*;
    use crate::elements::{elements, Elements};
    use std::collections::BTreeMap;

    #[test]
    fn cases_and_edges_are_answered_as_claimed() {
        let curves = [document_cases(), edges(), long_spirals(), rounded_curves()];
        for curve in curves.concat() {
            let Curve { a, r, l } = curve.sample;
            let answer = elements(a, r, l);
            assert!(curve.holds(&[9, 10, 11, 14], &answer), "{curve:?}");
        }
    }

    #[test]
    fn edges_are_all_there() {
        // Seven deflections; for each of eight radii six lengths of L's own
        // range and three next to R, of which 0 has none and the largest number
        // one.
        assert_eq!(edges().len(), 7 * (8 * 6 + 6 * 3 + 1));
    }

    /// X and Y, worked by another program.
    #[test]
    fn roundings_of_the_elements() {
        let found = ROUNDED_CURVES.map(|Curve { a, r, l }| {
            let Elements { x, y, .. } = elements(a, r, l).unwrap();
            (x, y)
        });
        let expected = [
            (483_688_725, 79_027_200),
            (485_522_295, 79_246_408),
            (479_456_503, 76_498_375),
        ];
        assert_eq!(found, expected);
    }

    #[test]
    fn every_answer_often() {
        let mut dice = Dice::new(1);
        let mut times = BTreeMap::new();
        for _ in 0..5_000 {
            let Curve { a, r, l } = random_curve(&mut dice);
            let number = elements(a, r, l).map_or_else(|refusal| refusal.number, |_| 0);
            *times.entry(number).or_insert(0) += 1;
        }
        assert!(
            [0, 9, 10, 11, 14].iter().all(|number| times[number] >= 50),
            "{times:?}"
        );
    }

    #[test]
    fn least_arcs_are_at_the_edge() {
        let mut dice = Dice::new(1);
        let mut accepted = 0;
        for _ in 0..3_000 {
            let r = dice.spread(SMALLEST_RADIUS, GREATEST_RADIUS);
            let Curve { a, r, l } = least_arc(&mut dice, r);
            let least = least_deflection(r, l);
            assert_eq!(elements(a, r, l).is_ok(), a >= least);
            accepted += usize::from(a >= least);
        }
        assert!((1_500..2_500).contains(&accepted), "{accepted}");
    }
}
