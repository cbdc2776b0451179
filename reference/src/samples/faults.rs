//! Faults put into a call that is accepted.

use super::call::{Call, Callee};
use super::dice::Dice;
use super::limits::{
    greatest_spiral, least_deflection, least_distance, least_radius, least_spiral,
};
use super::sheet_fields::{deflection, distance, radius, spiral, start, Field, CROSSFALL, SPEED};
use crate::curve::Curve;
use crate::edition::SECOND;
use crate::elements::{GREATEST_DEFLECTION, GREATEST_RADIUS, SMALLEST_RADIUS};
use crate::line::{Line, GREATEST_DISTANCE};
use crate::refusal::Refusal;
use crate::road_tables::DesignSpeed;

/// The calculator's refusals, in an order in which each fault can be put after
/// the former ones: first those that are worked from fields in range, a curve's
/// before its straights'.
const PUT_ORDER: [u8; 13] = [16, 12, 13, 14, 15, 11, 10, 9, 8, 6, 5, 4, 3];

/// Puts a fault for each of these refusals into a call that the callee accepts.
pub fn put_faults(dice: &mut Dice, callee: Callee, call: &mut Call, faults: &[Refusal]) {
    for number in PUT_ORDER {
        for fault in faults.iter().filter(|fault| fault.number == number) {
            put_fault(dice, callee, call, *fault);
        }
    }
}

fn put_fault(dice: &mut Dice, callee: Callee, call: &mut Call, fault: Refusal) {
    let line = &mut call.line;
    let i = fault.place;
    let most = |field| most_of(callee, field);
    match fault.number {
        3 => line.n = dice.one_of(&[65, 66, 127, 128, u32::MAX]),
        4 => line.v = dice.one_of(&[0, 30, 39, 41, 75, 119, 121, 126, most(SPEED)]),
        5 => line.e = dice.one_of(&[0, 1, 13, most(CROSSFALL)]),
        6 => line.start = dice.one_of(&[callee.greatest_start() + 1, most(start(SECOND))]),
        8 => {
            let most = most(distance(SECOND, i));
            line.distances[i] = dice.one_of(&[0, GREATEST_DISTANCE + 1, most]);
        }
        15 => line.distances[i] = number_below(dice, 1, least_distance(line, i)),
        16 => {
            let room = callee.room_for(line.curve_count());
            call.room = number_below(dice, 0, room as u32) as usize;
        }
        number => line.curves[i - 1] = faulty_curve(dice, callee, line, i, number),
    }
}

/// The greatest number that a field is given: the writer takes any, the
/// calculator those of a sheet of edition 2.
fn most_of(callee: Callee, field: Field) -> u32 {
    match callee {
        Callee::Calculator => field.most(),
        Callee::Writer(_) => u32::MAX,
    }
}

/// Curve i with the fault of refusal 9 to 14.
fn faulty_curve(dice: &mut Dice, callee: Callee, line: &Line, i: usize, number: u8) -> Curve {
    let curve = line.curve(i);
    let speed = line.speed().expect("the design speed is one of the nine");
    let most = |field| most_of(callee, field);
    match number {
        9 => Curve {
            a: dice.one_of(&[0, GREATEST_DEFLECTION + 1, most(deflection(SECOND, i))]),
            ..curve
        },
        10 => Curve {
            r: dice.one_of(&[
                0,
                SMALLEST_RADIUS - 1,
                GREATEST_RADIUS + 1,
                most(radius(SECOND, i)),
            ]),
            ..curve
        },
        11 => Curve {
            l: dice.one_of(&[greatest_spiral(curve.r) + 1, most(spiral(SECOND, i))]),
            ..curve
        },
        12 => small_radius(dice, speed, line.e, curve),
        13 => short_spiral(dice, speed, curve),
        14 => short_arc(dice, speed, curve),
        _ => unreachable!("{number} is no refusal of a curve"),
    }
}

/// The curve with a radius that is too small at speed and superelevation.
fn small_radius(dice: &mut Dice, speed: DesignSpeed, e: u32, curve: Curve) -> Curve {
    let r = number_below(dice, SMALLEST_RADIUS, least_radius(speed, e));
    let l = curve.l.min(r);
    Curve { r, l, ..curve }
}

/// The curve with a spiral that is too short.
fn short_spiral(dice: &mut Dice, speed: DesignSpeed, curve: Curve) -> Curve {
    let l = number_below(dice, 1, least_spiral(speed, curve.r)).min(curve.r);
    Curve { l, ..curve }
}

/// The curve with a deflection that leaves too short an arc. Where none in
/// range does, the curve gets the least spiral first.
fn short_arc(dice: &mut Dice, speed: DesignSpeed, curve: Curve) -> Curve {
    let Curve { r, mut l, .. } = curve;
    if least_deflection(r, l) == 1 {
        l = least_spiral(speed, r).min(r);
    }
    let a = number_below(dice, 1, least_deflection(r, l));
    Curve { a, r, l }
}

/// A number from `lowest` to just below `limit`; the last one in half of all
/// cases.
fn number_below(dice: &mut Dice, lowest: u32, limit: u32) -> u32 {
    let last = limit - 1;
    let any = dice.between(lowest, last);
    dice.one_of(&[any, last])
}

#[cfg(test)]
mod tests {
    use super::super::call_edges::road_for;
    use super::*;
    use crate::edition::FIRST;

    const CALLEES: [Callee; 3] = [
        Callee::Calculator,
        Callee::Writer(FIRST),
        Callee::Writer(SECOND),
    ];

    /// A call that either callee accepts, with faults for these refusals.
    fn faulty(dice: &mut Dice, callee: Callee, line: Line, faults: &[Refusal]) -> Call {
        let mut call = Call { room: 706, line };
        put_faults(dice, callee, &mut call, faults);
        call
    }

    fn fault(number: u8, place: usize) -> Refusal {
        Refusal { number, place }
    }

    /// Every refusal of the callee at every place that a road of `n` curves has
    /// for it. A road without curve has no straight that is too short.
    fn every_fault(callee: Callee, n: usize) -> Vec<Refusal> {
        let places = |number: u8| match number {
            15 if n == 0 => 0..0,
            8 | 15 => 0..n + 1,
            9..=14 => 1..n + 1,
            _ => 0..1,
        };
        let numbers = callee.refusals().iter();
        numbers
            .flat_map(|number| places(*number).map(|place| fault(*number, place)))
            .collect()
    }

    #[test]
    fn one_fault_is_the_refusal() {
        let mut dice = Dice::new(1);
        for callee in CALLEES {
            for n in (0..=10).chain([64]) {
                for fault in every_fault(callee, n) {
                    let line = road_for(&mut dice, callee, n);
                    let call = faulty(&mut dice, callee, line, &[fault]);
                    assert_eq!(call.answer(callee), Err(fault), "{call:?}");
                }
            }
        }
    }

    #[test]
    fn first_fault_in_order_is_the_refusal() {
        let mut dice = Dice::new(1);
        for callee in CALLEES {
            for number in PUT_ORDER
                .into_iter()
                .filter(|number| (8..16).contains(number))
            {
                if !callee.refusals().contains(&number) {
                    continue;
                }
                for _ in 0..100 {
                    let line = road_for(&mut dice, callee, 3);
                    let [first, second] = [fault(number, 1), fault(number, 2)];
                    let faults = [second, first, fault(16, 0)];
                    let call = faulty(&mut dice, callee, line, &faults);
                    assert_eq!(call.answer(callee), Err(first), "{call:?}");
                }
            }
        }
    }
}
