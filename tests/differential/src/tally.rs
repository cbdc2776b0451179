//! How often each call gave each answer.

use crate::compare::Comparison;
use crate::input::{Call, Input};
use reference::line::MOST_CURVES;

/// Accepted, and the refusals 1 to 25.
const OUTCOMES: usize = 26;

/// The last refusal that a text tells.
const MOST_TOLD: usize = 15;

/// Inputs from which on every refusal must have occurred.
const ENOUGH: u64 = 20_000;

/// The counts.
#[derive(Default)]
pub struct Tally {
    /// For each of [`Call::ALL`], its inputs by outcome: 0 accepted, else the
    /// refusal's number.
    answered: [[u64; OUTCOMES]; Call::ALL.len()],
    /// The same of those that are accepted and have 64 curves.
    full: [u64; Call::ALL.len()],
    /// The texts that fit, by what they tell: 0 stations, else the refusal.
    told: [u64; OUTCOMES],
}

impl Tally {
    /// Counts an input on which both sides agree.
    pub fn add(&mut self, input: &Input, comparison: &Comparison) {
        let call = input.request.call() as usize;
        let outcome = comparison
            .reference
            .map_or_else(|refusal| usize::from(refusal.number), |_| 0);
        self.answered[call][outcome] += 1;
        if let Some(told) = comparison.told {
            self.told[told] += 1;
        }
        let full = input.request.curves() == MOST_CURVES;
        if outcome == 0 && comparison.told.unwrap_or(0) == 0 && full {
            self.full[call] += 1;
        }
    }

    pub fn total(&self) -> u64 {
        self.answered.iter().flatten().sum()
    }

    /// What never occurred though it can, where the inputs are enough to expect
    /// it.
    pub fn missing(&self) -> Vec<String> {
        let mut missing = Vec::new();
        if self.total() < ENOUGH {
            return missing;
        }
        for (call, counts) in Call::ALL.into_iter().zip(&self.answered) {
            let name = call.name();
            let possible = (0..OUTCOMES).filter(|outcome| can_give(call, *outcome));
            for outcome in possible.filter(|outcome| counts[*outcome] == 0) {
                missing.push(format!("{name} {}", outcome_name(outcome)));
            }
        }
        for told in (0..=MOST_TOLD).filter(|told| self.told[*told] == 0) {
            missing.push(format!("text telling {}", outcome_name(told)));
        }
        missing
    }

    /// The table, line by line; a dash stands where nothing can be counted.
    pub fn table(&self) -> Vec<String> {
        let mut names: Vec<&str> = Call::ALL.map(Call::name).into();
        names.push("text tells");
        let mut table = vec![row("", names)];
        for outcome in 0..OUTCOMES {
            table.push(row(&outcome_name(outcome), self.counts(outcome)));
        }
        let columns = self.answered.iter().chain([&self.told]);
        let sums = columns.map(|counts| counts.iter().sum::<u64>());
        table.push(row("all", sums));
        let full = self.full.iter().zip(Call::ALL);
        let full = full.map(|(count, call)| column(has_curves(call), *count));
        table.push(row("accepted, 64 curves", full));
        table
    }

    /// The counts of an outcome.
    fn counts(&self, outcome: usize) -> Vec<String> {
        let calls = Call::ALL.into_iter().zip(&self.answered);
        let mut counts: Vec<String> = calls
            .map(|(call, counts)| column(can_give(call, outcome), counts[outcome]))
            .collect();
        counts.push(column(outcome <= MOST_TOLD, self.told[outcome]));
        counts
    }
}

/// Whether the call can be accepted (0) or refused with this number.
fn can_give(call: Call, outcome: usize) -> bool {
    outcome == 0
        || call
            .refusals()
            .into_iter()
            .any(|number| usize::from(number) == outcome)
}

/// Whether the call takes a line, as a sheet, in numbers or by points.
fn has_curves(call: Call) -> bool {
    !matches!(
        call,
        Call::Elements | Call::Height | Call::UnitSpiral | Call::UnitSpiralTable
    )
}

/// A count, or a dash where there is none and can be none.
fn column(possible: bool, count: u64) -> String {
    match count {
        0 if !possible => "-".to_string(),
        _ => count.to_string(),
    }
}

fn outcome_name(outcome: usize) -> String {
    match outcome {
        0 => "accepted".to_string(),
        number => format!("refused {number}"),
    }
}

fn row<T: ToString>(name: &str, columns: impl IntoIterator<Item = T>) -> String {
    let columns: Vec<String> = columns
        .into_iter()
        .map(|column| format!("{:>11}", column.to_string()))
        .collect();
    format!("{name:20}{}", columns.concat())
}

#[cfg(test)]
mod tests {
    use super::*;
    use crate::input::{Request, Room};
    use crate::side::Answer;
    use reference::refusal::refuse;
    use reference::samples::point_edges::staircase;

    fn add(tally: &mut Tally, request: Request, answer: Answer, told: Option<usize>) {
        let input = Input {
            request,
            room: Room::Entries(0),
            pattern: 0,
        };
        let comparison = Comparison {
            library: answer,
            reference: answer,
            difference: None,
            told,
        };
        tally.add(&input, &comparison);
    }

    /// The columns of the row with this name.
    fn columns(tally: &Tally, name: &str) -> Vec<String> {
        let table = tally.table();
        let row = table.iter().find(|row| row.starts_with(name)).unwrap();
        let columns = row[20..].split_whitespace();
        columns.map(str::to_string).collect()
    }

    #[test]
    fn counts_of_a_table() {
        let full = vec![0x18, 0x00];
        let mut tally = Tally::default();
        add(&mut tally, Request::Stations(full.clone()), Ok(257), None);
        add(
            &mut tally,
            Request::Stations(full.clone()),
            refuse(16, 0),
            None,
        );
        add(&mut tally, Request::Text(full.clone()), Ok(5_000), Some(0));
        add(&mut tally, Request::Text(full), Ok(13), Some(8));
        let mut line = vec![1; 325];
        line[0] = 64;
        add(&mut tally, Request::Write(1, line.clone()), Ok(706), None);
        add(&mut tally, Request::Write(2, line), refuse(8, 3), None);
        let peg = Request::Peg(vec![0x18, 0x00], 0);
        add(&mut tally, peg.clone(), Ok(5), None);
        add(&mut tally, peg, refuse(17, 0), None);
        let points = Request::FromPoints(staircase(64));
        add(&mut tally, points.clone(), Ok(325), None);
        add(&mut tally, points, refuse(19, 64), None);
        let height = Request::Height(vec![70, 0, 0, 0], 0);
        add(&mut tally, height.clone(), Ok(1), None);
        add(&mut tally, height, refuse(23, 2), None);
        let full = vec![0x28, 0x00];
        add(&mut tally, Request::Edition(full.clone()), Ok(2), None);
        let convert = Request::Convert(full, 1);
        add(&mut tally, convert.clone(), Ok(706), None);
        add(&mut tally, convert, refuse(24, 0), None);
        let look_up = Request::UnitSpiral(500, 40_000);
        add(&mut tally, look_up, Ok(2), None);
        let behind = Request::UnitSpiral(501, 500_001);
        add(&mut tally, behind, refuse(25, 0), None);
        add(&mut tally, Request::UnitSpiralTable, refuse(16, 0), None);
        for (name, expected) in [
            ("accepted ", "1 0 0 0 2 0 1 1 1 1 1 1 1 0 1"),
            ("accepted, 64", "1 0 0 - 1 0 1 1 1 - 1 1 - -"),
            ("refused 2 ", "0 0 0 - - 0 0 0 - - 0 0 - - 0"),
            ("refused 8", "0 0 0 - - 0 1 0 0 - 0 0 - - 1"),
            ("refused 7", "0 0 0 - - 0 - 0 - - 0 0 - - 0"),
            ("refused 11", "0 0 0 0 - 0 0 0 0 - 0 0 0 - 0"),
            ("refused 16", "1 - 0 0 0 0 0 0 0 0 - 0 0 1 -"),
            ("refused 17", "- - - - - - - 1 - 0 - - - - -"),
            ("refused 19", "- - - - - - - - 1 - - - - - -"),
            ("refused 23", "- - - - - - - - - 1 - - - - -"),
            ("refused 24", "- - - - - - - - - - - 1 - - -"),
            ("refused 25", "- - - - - - - - - - - - 1 - -"),
            ("all", "2 0 0 0 2 0 2 2 2 2 1 2 2 1 2"),
        ] {
            assert_eq!(columns(&tally, name).join(" "), expected);
        }
        assert_eq!(tally.total(), 18);
    }

    #[test]
    fn missing_answers_of_many_inputs() {
        let mut tally = Tally {
            answered: [[1_000; OUTCOMES]; Call::ALL.len()],
            full: [0; Call::ALL.len()],
            told: [1_000; OUTCOMES],
        };
        assert!(tally.missing().is_empty());
        tally.answered[Call::Elements as usize][14] = 0;
        tally.answered[Call::Text as usize][5] = 0;
        tally.answered[Call::Write as usize][7] = 0;
        tally.answered[Call::Write as usize][3] = 0;
        tally.answered[Call::Read as usize][0] = 0;
        tally.answered[Call::Peg as usize][17] = 0;
        tally.answered[Call::FromPoints as usize][9] = 0;
        tally.answered[Call::FromPoints as usize][20] = 0;
        tally.answered[Call::Height as usize][5] = 0;
        tally.answered[Call::Height as usize][21] = 0;
        tally.answered[Call::Edition as usize][16] = 0;
        tally.answered[Call::Convert as usize][24] = 0;
        tally.answered[Call::UnitSpiral as usize][25] = 0;
        tally.answered[Call::UnitSpiralTable as usize][11] = 0;
        tally.answered[Call::UnitSpiralTable as usize][16] = 0;
        tally.told[3] = 0;
        tally.told[16] = 0;
        tally.told[17] = 0;
        assert_eq!(
            tally.missing(),
            [
                "elements refused 14",
                "read accepted",
                "write refused 3",
                "peg refused 17",
                "points refused 20",
                "height refused 21",
                "convert refused 24",
                "look-up refused 25",
                "table refused 16",
                "text telling refused 3"
            ]
        );
        assert!(Tally::default().missing().is_empty());
    }
}
