//! The lines that are worked: random ones, those with a straight or an arc near
//! the least, and what climbs reach.

use super::guide::rough_differences;
use super::{changed, high, highest, CLIMBS};
use crate::accuracy::{LineRecord, D, TT, TURN};
use crate::curve::Curve;
use crate::elements::{arc, GREATEST_DEFLECTION, GREATEST_RADIUS, LEAST_ARC};
use crate::line::{Line, CROSSFALLS, GREATEST_DISTANCE, MOST_CURVES};
use crate::refusal::{refuse, Refusal};
use crate::road_tables::{DesignSpeed, SPEEDS};
use crate::samples::dice::Dice;
use crate::samples::limits::{
    greatest_spiral, least_deflection, least_distance, least_radius, least_spiral,
};
use crate::samples::roads::{fit_distances, road};
use crate::stations::{stations, straight};

/// Steps of each climb for each line before it.
const STEPS_PER_LINE: usize = 5;

/// Works `count` lines, then climbs for ends, straights and arcs.
pub fn search(dice: &mut Dice, count: usize) -> LineRecord {
    let mut record = LineRecord::empty();
    let rounds = std::iter::repeat_with(|| random_round(dice)).flatten();
    for line in rounds.filter(serves).take(count) {
        record.see(&line);
    }
    if count > 0 {
        let steps = count * STEPS_PER_LINE;
        let [below, above] = climb_ends(dice, &mut record, steps);
        // Where TT lies below, the end lies above.
        climb_straight(dice, &mut record, steps, Edge::Accepted, above);
        climb_straight(dice, &mut record, steps, Edge::Refused, below);
        climb_arc(dice, &mut record, steps, Edge::Accepted);
        climb_arc(dice, &mut record, steps, Edge::Refused);
    }
    record.settle();
    record
}

/// Whether the line is accepted, or refused 14 or 15.
fn serves(line: &Line) -> bool {
    answer(line).map_or_else(|refusal| matches!(refusal.number, 14 | 15), |_| true)
}

/// One round of random lines, some of each kind. A spiral made for a short arc
/// may be refused otherwise.
fn random_round(dice: &mut Dice) -> Vec<Line> {
    let few = dice.index(0, 10);
    vec![
        road(dice, few),
        road(dice, MOST_CURVES),
        wide_road(dice, few),
        wide_road(dice, MOST_CURVES),
        wide_road(dice, 1),
        near_least_straight(dice),
        near_least_straight(dice),
        near_least_straight(dice),
        near_least_arc(dice),
        near_least_arc(dice),
    ]
}

/// An accepted line of `n` curves, large numbers frequent.
fn wide_road(dice: &mut Dice, n: usize) -> Line {
    let speed = dice.one_of(&SPEEDS);
    let e = dice.between(*CROSSFALLS.start(), *CROSSFALLS.end());
    let curves: Vec<Curve> = (0..n).map(|_| wide_curve(dice, speed, e)).collect();
    let mut line = Line::new(speed.v, e, 0, &[], &curves);
    fit_distances(dice, &mut line);
    line
}

/// A curve that passes checks 9 to 14, large numbers frequent.
fn wide_curve(dice: &mut Dice, speed: DesignSpeed, e: u32) -> Curve {
    let r = high(dice, least_radius(speed, e), GREATEST_RADIUS);
    let l = wide_spiral(dice, speed, r);
    let a = high(dice, least_deflection(r, l), GREATEST_DEFLECTION);
    Curve::new(a, r, l)
}

/// A spiral that passes check 13, long ones frequent; 0 where there is none.
fn wide_spiral(dice: &mut Dice, speed: DesignSpeed, r: u32) -> u32 {
    let least = least_spiral(speed, r);
    let most = greatest_spiral(r);
    if least > most || dice.once_in(6) {
        return 0;
    }
    high(dice, least, most)
}

/// A line with a straight less than 1 mm above the least, or just below it and
/// so refused 15.
fn near_least_straight(dice: &mut Dice) -> Line {
    let n = dice.index(1, 4);
    let i = dice.index(0, n);
    let mut line = wide_road(dice, n);
    line.distances[i] = least_distance(&line, i) - dice.one_of(&[0, 1]);
    line
}

/// A line with an arc less than 1 mm above the least, or just below it and so
/// refused 14.
fn near_least_arc(dice: &mut Dice) -> Line {
    let n = dice.index(1, 4);
    let i = dice.index(0, n - 1);
    let mut line = wide_road(dice, n);
    let Curve { r, l, .. } = line.curves[i];
    let a = least_deflection(r, l);
    line.curves[i] = with_spiral_to_least_arc(Curve::new(a, r, l));
    line.curves[i].l += dice.one_of(&[0, 1]);
    fit_distances(dice, &mut line);
    line
}

/// The curve with the longest spiral that leaves an arc, whatever the other
/// checks say of it: D is then 1,000 to 1,999 µm, with 1 mm more 0 to 999.
fn with_spiral_to_least_arc(Curve { a, r, .. }: Curve) -> Curve {
    let spare = (arc(a, r, 0) - LEAST_ARC).max(0);
    let l = u32::try_from(spare / 1_000).expect("an arc is below 2³² mm");
    Curve::new(a, r, l)
}

/// A line that accepts most curves: slow, and every distance at its greatest.
fn long_line(curves: &[Curve]) -> Line {
    let distances = vec![GREATEST_DISTANCE; curves.len() + 1];
    Line::new(40, 12, 0, &distances, curves)
}

fn answer(line: &Line) -> Result<usize, Refusal> {
    stations(line, &mut [0; 4 * MOST_CURVES + 1])
}

/// Climbs to the curve that moves all after it most, below and above, and works
/// it alone and 64 times. Gives both curves.
fn climb_ends(dice: &mut Dice, record: &mut LineRecord, steps: usize) -> [Curve; 2] {
    [-1.0, 1.0].map(|sign| {
        let starts = (0..CLIMBS).map(|_| slow_curve(dice)).collect();
        let top = highest(dice, starts, steps, changed, |&curve| {
            let accepted = answer(&long_line(&[curve])).is_ok();
            accepted.then(|| sign * rough_differences(curve)[TURN])
        });
        record.see(&long_line(&[top]));
        record.see(&long_line(&[top; MOST_CURVES]));
        top
    })
}

/// The two sides of a check: the shortest exact length that is accepted, and
/// the longest that is refused.
#[derive(Clone, Copy)]
enum Edge {
    Accepted,
    Refused,
}

impl Edge {
    /// A length as a height to climb for.
    fn height(self, length: f64) -> f64 {
        match self {
            Edge::Accepted => -length,
            Edge::Refused => length,
        }
    }

    /// 1 mm to the refused side.
    fn over(self) -> u32 {
        match self {
            Edge::Accepted => 0,
            Edge::Refused => 1,
        }
    }

    /// Whether the line is on this side of a check, at place 1.
    fn holds(self, line: &Line, number: u8) -> bool {
        match self {
            Edge::Accepted => answer(line).is_ok(),
            Edge::Refused => answer(line) == refuse(number, 1),
        }
    }
}

/// Climbs to an exact straight at the edge of refusal 15, between two curves
/// like this one.
fn climb_straight(
    dice: &mut Dice,
    record: &mut LineRecord,
    steps: usize,
    edge: Edge,
    curve: Curve,
) {
    let starts = vec![[curve; 2]; CLIMBS];
    let top = highest(dice, starts, steps, change_one, |curves| {
        let line = at_least_straight(curves, edge);
        let holds = edge.holds(&line, 15);
        holds.then(|| edge.height(straight(&line, 1) as f64 + rough_tangents(curves)))
    });
    record.see(&at_least_straight(&top, edge));
}

/// The differences of both TT, together.
fn rough_tangents(curves: &[Curve; 2]) -> f64 {
    curves
        .map(|curve| rough_differences(curve)[TT])
        .iter()
        .sum()
}

/// Climbs to an exact arc at the edge of refusal 14: first by the difference of
/// D alone, then, from there and from new starts, by the length.
fn climb_arc(dice: &mut Dice, record: &mut LineRecord, steps: usize, edge: Edge) {
    let starts = short_arcs(dice);
    let top = highest(dice, starts, steps, changed, |curve| {
        let curve = at_least_arc(curve, edge)?;
        Some(edge.height(-rough_differences(curve)[D]))
    });
    let mut starts = short_arcs(dice);
    starts.extend([top; CLIMBS]);
    let top = highest(dice, starts, steps, changed, |curve| {
        let curve = at_least_arc(curve, edge)?;
        let Curve { a, r, l } = curve;
        Some(edge.height(arc(a, r, l) as f64 - rough_differences(curve)[D]))
    });
    if let Some(curve) = at_least_arc(&top, edge) {
        record.see(&long_line(&[curve]));
    }
}

/// A curve for a long line, large numbers frequent.
fn slow_curve(dice: &mut Dice) -> Curve {
    wide_curve(dice, SPEEDS[0], *CROSSFALLS.end())
}

/// Curves for a long line with the least deflection, to start climbs from.
fn short_arcs(dice: &mut Dice) -> Vec<Curve> {
    let mut curves: Vec<Curve> = (0..CLIMBS).map(|_| slow_curve(dice)).collect();
    for curve in &mut curves {
        curve.a = least_deflection(curve.r, curve.l);
    }
    curves
}

/// The curves with one of them changed.
fn change_one(dice: &mut Dice, curves: &[Curve; 2]) -> [Curve; 2] {
    let mut curves = *curves;
    let i = dice.index(0, 1);
    curves[i] = changed(dice, &curves[i]);
    curves
}

/// A line of two curves, and between them the least distance that is accepted,
/// or the greatest that is refused.
fn at_least_straight(curves: &[Curve; 2], edge: Edge) -> Line {
    let mut line = long_line(curves);
    line.distances[1] = least_distance(&line, 1) - edge.over();
    line
}

/// The curve with the longest spiral that leaves an arc, or the shortest that
/// leaves none; nothing where another check refuses it.
fn at_least_arc(curve: &Curve, edge: Edge) -> Option<Curve> {
    let mut curve = with_spiral_to_least_arc(*curve);
    curve.l += edge.over();
    edge.holds(&long_line(&[curve]), 14).then_some(curve)
}

#[cfg(test)]
mod tests {
    use super::*;

    /// The numbers of the refusals of many random lines; 0 for none.
    fn refusals() -> Vec<u8> {
        let mut dice = Dice::new(1);
        (0..20)
            .flat_map(|_| random_round(&mut dice))
            .map(|line| answer(&line).map_or_else(|refusal| refusal.number, |_| 0))
            .collect()
    }

    #[test]
    fn lines_on_both_sides_of_14_and_15() {
        let refusals = refusals();
        let times = |number| refusals.iter().filter(|&&found| found == number).count();
        assert!(times(0) >= 100 && times(14) >= 5 && times(15) >= 20);
    }

    #[test]
    fn wide_roads_are_accepted() {
        let mut dice = Dice::new(1);
        for n in [0, 1, 10, 64] {
            for _ in 0..5 {
                assert_eq!(answer(&wide_road(&mut dice, n)), Ok(4 * n + 1));
            }
        }
    }

    #[test]
    fn straights_at_the_edge() {
        let mut dice = Dice::new(1);
        for _ in 0..20 {
            let curves = [slow_curve(&mut dice), slow_curve(&mut dice)];
            for (edge, lengths) in [(Edge::Accepted, 1_000..2_000), (Edge::Refused, 0..1_000)] {
                let line = at_least_straight(&curves, edge);
                assert!(edge.holds(&line, 15));
                assert!(lengths.contains(&straight(&line, 1)));
            }
        }
    }

    #[test]
    fn arcs_at_the_edge() {
        let mut dice = Dice::new(1);
        for (edge, lengths) in [(Edge::Accepted, 1_000..2_000), (Edge::Refused, 0..1_000)] {
            let curves: Vec<Curve> = short_arcs(&mut dice)
                .iter()
                .filter_map(|curve| at_least_arc(curve, edge))
                .collect();
            assert!(curves.len() >= 5);
            for Curve { a, r, l } in curves {
                assert!(lengths.contains(&arc(a, r, l)));
            }
        }
    }
}
