//! The drift of a road: how far its end lies from the exact one, rule minus exact,
//! µm. Document 02, Nearest, not down: "a mountain road with sixty curves drifts one
//! way, since each element is rounded down".
//!
//! A drift is worked as one fraction, and only then becomes a floating-point number,
//! right to 15 digits; means are of those.

use crate::curve::Curve;
use crate::elements::{working_rule, Elements};
use crate::exact::elements::exact_elements;
use crate::exact::fraction::Fraction;
use crate::line::Line;
use crate::samples::dice::Dice;
use crate::samples::mountain_road::{any_mountain_road, mountain_road};

/// What the drifts of some roads, one at least, come to.
#[derive(Clone, Copy, Debug, PartialEq)]
pub struct Drifts {
    pub mean: f64,
    /// Mean of their sizes, either way.
    pub mean_size: f64,
    pub least: f64,
    pub greatest: f64,
}

/// The drifts of the mountain road with a name, and of random ones, as a table.
pub fn drift_table(seed: u64, roads: usize, curves: usize) -> Vec<String> {
    let named = mountain_road();
    let name = format!("the mountain road of {} curves", named.n);
    let random = format!("{roads} roads of {curves} curves, seed {seed}");
    vec![
        "drift of the end, rule minus exact, µm".to_string(),
        row("", ["mean", "mean size", "least", "largest"]),
        figures(&name, drifts_of([named])),
        figures(&random, drifts_of(random_roads(seed, roads, curves))),
    ]
}

/// This many random mountain roads, the same for the same seed.
fn random_roads(seed: u64, roads: usize, curves: usize) -> impl Iterator<Item = Line> {
    let mut dice = Dice::new(seed);
    (0..roads).map(move |_| any_mountain_road(&mut dice, curves))
}

/// A row of the table: name, then four columns.
fn row(name: &str, [mean, size, least, greatest]: [&str; 4]) -> String {
    format!("{name:34} {mean:>10} {size:>10} {least:>10} {greatest:>10}")
}

/// A row with figures.
fn figures(name: &str, drifts: Drifts) -> String {
    let Drifts {
        mean,
        mean_size,
        least,
        greatest,
    } = drifts;
    let columns = [mean, mean_size, least, greatest].map(|figure| format!("{figure:.3}"));
    row(name, columns.each_ref().map(String::as_str))
}

fn drifts_of(roads: impl IntoIterator<Item = Line>) -> Drifts {
    let drifts: Vec<f64> = roads
        .into_iter()
        .map(|road| drift(&road).to_f64())
        .collect();
    let mean = |sum: f64| sum / drifts.len() as f64;
    Drifts {
        mean: mean(drifts.iter().sum()),
        mean_size: mean(drifts.iter().map(|drift| drift.abs()).sum()),
        least: drifts.iter().copied().fold(f64::INFINITY, f64::min),
        greatest: drifts.iter().copied().fold(f64::NEG_INFINITY, f64::max),
    }
}

/// The end of an accepted line by the rule less the exact one, µm. Start, distances
/// and spirals are the same in both, so that only the curves add to it.
pub fn drift(line: &Line) -> Fraction {
    let turns: Vec<Fraction> = (1..=line.curve_count())
        .map(|i| turn_drift(line.curve(i)))
        .collect();
    sum(&turns)
}

/// What a curve adds: D less twice TT, by the rule less the exact one, µm.
fn turn_drift(curve: Curve) -> Fraction {
    let Elements { d, tt, .. } = working_rule(curve.a, curve.r, curve.l);
    let exact = exact_elements(curve);
    Fraction::from(d - 2 * tt) - (exact.d - exact.tt * 2) * 1_000
}

/// Half of them and the other half are added first, which keeps the numbers short.
fn sum(fractions: &[Fraction]) -> Fraction {
    match fractions {
        [] => Fraction::from(0),
        [only] => only.clone(),
        _ => {
            let (first, second) = fractions.split_at(fractions.len() / 2);
            sum(first) + sum(second)
        }
    }
}

#[cfg(test)]
mod tests {
    use super::*;
    use crate::exact::stations::exact_stations;
    use crate::stations::stations;

    fn close(a: f64, b: f64) -> bool {
        (a - b).abs() < 1e-8
    }

    /// The calculator's end less the exact one.
    fn difference_of_ends(line: &Line) -> Fraction {
        let mut row = [0; 257];
        let count = stations(line, &mut row).unwrap();
        Fraction::from(row[count - 1]) - &exact_stations(line)[count - 1] * 1_000
    }

    /// D lies 0.230 644 424 below, TT 1.060 048 508 above.
    #[test]
    fn case_1() {
        assert!(close(drift(&Line::case_1()).to_f64(), -2.350_741_440));
        assert_eq!(drift(&Line::case_9()), Fraction::from(0));
    }

    #[test]
    fn drift_is_the_difference_of_the_ends() {
        for n in 0..=5 {
            for road in random_roads(1, 2, n) {
                assert_eq!(drift(&road), difference_of_ends(&road));
            }
        }
    }

    #[test]
    fn figures_of_two_roads() {
        let roads: Vec<Line> = random_roads(3, 2, 4).collect();
        let [first, second] = [0, 1].map(|i| drift(&roads[i]).to_f64());
        let drifts = drifts_of(roads);
        assert!(close(drifts.mean, (first + second) / 2.0));
        assert!(close(drifts.mean_size, (first.abs() + second.abs()) / 2.0));
        assert_eq!(
            [drifts.least, drifts.greatest],
            [first.min(second), first.max(second)]
        );
    }

    #[test]
    fn sums() {
        let halves: Vec<Fraction> = (1..=7).map(|upper| Fraction::from(upper) / 2).collect();
        assert_eq!(sum(&halves), Fraction::from(14));
        assert_eq!(sum(&[]), Fraction::from(0));
    }

    #[test]
    fn table() {
        let found = drift_table(5, 3, 6);
        assert_eq!(found, drift_table(5, 3, 6));
        assert_ne!(found, drift_table(6, 3, 6));
        assert_eq!(found.len(), 4);
        assert!(found[2].starts_with("the mountain road of 64 curves "));
        assert!(found[3].starts_with("3 roads of 6 curves, seed 5 "));
        let words = |row: &str| row.split_whitespace().count();
        assert_eq!(
            [words(&found[1]), words(&found[2]), words(&found[3])],
            [5, 10, 11]
        );
    }
}
