//! Faults put into a road's sheet: those that the reader refuses, and those that
//! only the calculator does.

use super::call::{Call, Callee::Calculator};
use super::dice::Dice;
use super::faults;
use super::sheet_faults;
use super::sheet_fields::sheet_of_either;
use crate::line::Line;
use crate::refusal::Refusal;

/// The last refusal of the reader.
const LAST_OF_THE_READER: u8 = 11;

/// A fault that a road of `n` curves could have: any refusal 1 to 15, at any of
/// its places.
pub fn any_fault(dice: &mut Dice, n: usize) -> Refusal {
    // A road without curve has no fault of the calculator: its straight is 1 mm
    // or more.
    if n == 0 || dice.between(1, 15) <= LAST_OF_THE_READER.into() {
        return sheet_faults::any_fault(dice, n);
    }
    let number = dice.one_of(&[12, 13, 14, 15]);
    any_place(dice, number, n)
}

/// This refusal, 8 to 15, at any of its places in a road of `n` curves.
pub fn any_place(dice: &mut Dice, number: u8, n: usize) -> Refusal {
    let place = dice.index(first_place(number), n);
    Refusal { number, place }
}

/// The first place of refusal 8 to 15.
pub fn first_place(number: u8) -> usize {
    usize::from(!matches!(number, 8 | 15))
}

/// The sheet of a road that is accepted, in either edition, with a fault for each
/// of these refusals.
pub fn faulty_sheet(dice: &mut Dice, road: Line, faults: &[Refusal]) -> Vec<u8> {
    let (of_reader, of_calculator): (Vec<Refusal>, Vec<Refusal>) = faults
        .iter()
        .partition(|fault| fault.number <= LAST_OF_THE_READER);
    let mut call = Call {
        room: Calculator.most_room(),
        line: road,
    };
    faults::put_faults(dice, Calculator, &mut call, &of_calculator);
    let mut sheet = sheet_of_either(dice, &call.line);
    sheet_faults::put_faults(dice, &mut sheet, &of_reader);
    sheet
}

#[cfg(test)]
mod tests {
    use super::super::roads::road;
    use super::*;
    use crate::report::row;

    #[test]
    fn one_fault_is_the_refusal() {
        let mut dice = Dice::new(1);
        for n in (0..=10).chain([64]) {
            for _ in 0..100 {
                let line = road(&mut dice, n);
                let fault = any_fault(&mut dice, n);
                let sheet = faulty_sheet(&mut dice, line, &[fault]);
                assert_eq!(row(&sheet), Err(fault), "{sheet:02x?}");
            }
        }
    }

    #[test]
    fn reader_refuses_before_the_calculator() {
        let mut dice = Dice::new(1);
        for number in 8..=LAST_OF_THE_READER {
            for later in 12..=15 {
                let line = road(&mut dice, 3);
                let first = Refusal { number, place: 3 };
                let second = any_place(&mut dice, later, 1);
                let sheet = faulty_sheet(&mut dice, line, &[second, first]);
                assert_eq!(row(&sheet), Err(first), "{sheet:02x?}");
            }
        }
    }
}
