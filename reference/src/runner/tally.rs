//! How many reports are lists of stations, and how many tell each refusal.

use crate::report::refusal_number;
use std::collections::BTreeMap;
use std::fmt;

/// Counts of reports.
#[derive(Default)]
pub struct Tally {
    accepted: usize,
    /// By the refusal's number.
    refused: BTreeMap<u8, usize>,
}

impl Tally {
    pub fn of<'a>(reports: impl IntoIterator<Item = &'a str>) -> Tally {
        let mut tally = Tally::default();
        for report in reports {
            match refusal_number(report) {
                Some(number) => *tally.refused.entry(number).or_default() += 1,
                None => tally.accepted += 1,
            }
        }
        tally
    }
}

impl fmt::Display for Tally {
    fn fmt(&self, f: &mut fmt::Formatter) -> fmt::Result {
        let refused: usize = self.refused.values().sum();
        let sheets = self.accepted + refused;
        write!(
            f,
            "{sheets} sheets: {} accepted, {refused} refused",
            self.accepted
        )?;
        let times: Vec<String> = self
            .refused
            .iter()
            .map(|(number, times)| format!("{number}: {times}"))
            .collect();
        if times.is_empty() {
            return Ok(());
        }
        write!(f, " ({})", times.join(", "))
    }
}

#[cfg(test)]
mod tests {
    use super::*;

    #[test]
    fn counts_as_text() {
        let list = "POINT CURVE STATION\nEND 0 500.000000\n";
        let reports = ["REFUSED 12 3\n", list, "REFUSED 1 0\n", "REFUSED 12 1\n"];
        assert_eq!(
            Tally::of(reports).to_string(),
            "4 sheets: 1 accepted, 3 refused (1: 1, 12: 2)"
        );
        assert_eq!(
            Tally::of([list]).to_string(),
            "1 sheets: 1 accepted, 0 refused"
        );
    }
}
