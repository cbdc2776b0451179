//! Random sheets for the converter, and editions that are asked for.

use super::lines::no_edition;
use super::sheets::any_sheet;
use crate::input::Request;
use reference::edition::FIRST;
use reference::samples::dice::Dice;
use reference::samples::sheet_fields::{edition_said, start};

/// Any sheet, starts at the greatest of edition 1 frequent; mostly the other edition is
/// asked for.
pub fn any_conversion(dice: &mut Dice) -> Request {
    let mut sheet = any_sheet(dice);
    let edition = edition_said(&sheet);
    if dice.once_in(4) && sheet.len() >= 7 {
        let near = FIRST.greatest_start;
        let from = dice.one_of(&[near - 1, near, near, near + 1]);
        start(edition).put(&mut sheet, from);
    }
    let asked = match dice.between(0, 9) {
        0..=6 => edition.other().number,
        7..=8 => edition.number,
        _ => no_edition(dice),
    };
    Request::Convert(sheet, asked)
}

#[cfg(test)]
mod tests {
    use super::*;
    use crate::input::Call;
    use crate::side::{Reference, Side};
    use std::collections::BTreeMap;

    /// How often random sheets are converted to which edition, or refused and with
    /// what.
    #[test]
    fn every_refusal_and_both_ways() {
        let mut dice = Dice::new(1);
        let mut refused = BTreeMap::new();
        let mut accepted = BTreeMap::new();
        for _ in 0..6_000 {
            let Request::Convert(sheet, asked) = any_conversion(&mut dice) else {
                panic!("no conversion");
            };
            match Reference.convert(&sheet, asked, &mut [0; pokyandi::SHEET_BYTES]) {
                Ok(_) => *accepted.entry(asked).or_insert(0) += 1,
                Err(refusal) => *refused.entry(refusal.number).or_insert(0) += 1,
            }
        }
        let refusals = Call::Convert.refusals();
        let mut expected = refusals.iter().filter(|number| **number != 16);
        assert!(expected.all(|number| refused[number] >= 8), "{refused:?}");
        assert!(refused[&2] >= 600 && refused[&24] >= 300, "{refused:?}");
        assert!(
            [1, 2].iter().all(|asked| accepted[asked] >= 700),
            "{accepted:?}"
        );
    }
}
