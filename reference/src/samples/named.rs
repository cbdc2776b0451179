//! Samples with a name, and what each is made to show.

use crate::refusal::Refusal;

/// A sample, its name and its claim.
#[derive(Clone, Debug)]
pub struct Named<T> {
    pub name: String,
    pub claim: Claim,
    pub sample: T,
}

/// What a sample is made to show.
#[derive(Clone, Copy, Debug, PartialEq, Eq)]
pub enum Claim {
    /// Every check passes.
    Accepted,
    /// Checks 1 to 11 pass: reader and writer take it. The calculator may not.
    InRange,
    /// This is the first refusal.
    Refused(Refusal),
    /// Nothing beforehand.
    Open,
}

impl Claim {
    /// Refusal `number` at `place`; 0 is [`Claim::InRange`].
    pub fn of(number: u8, place: usize) -> Claim {
        match number {
            0 => Claim::InRange,
            _ => Claim::Refused(Refusal { number, place }),
        }
    }

    /// Refusal `number` at `place`; 0 is [`Claim::Accepted`].
    pub fn accepted_or(number: u8, place: usize) -> Claim {
        match number {
            0 => Claim::Accepted,
            _ => Claim::of(number, place),
        }
    }
}

pub fn named<T>(name: impl ToString, claim: Claim, sample: T) -> Named<T> {
    Named {
        name: name.to_string(),
        claim,
        sample,
    }
}

impl<T> Named<T> {
    /// The same name and claim for another sample made of this one.
    pub fn map<U>(self, change: impl FnOnce(T) -> U) -> Named<U> {
        Named {
            name: self.name,
            claim: self.claim,
            sample: change(self.sample),
        }
    }

    /// Whether the answer to the sample is the one claimed. `refusals` are those
    /// that the call can give: what is made for another one is accepted.
    pub fn holds<A>(&self, refusals: &[u8], answer: &Result<A, Refusal>) -> bool {
        match self.claim {
            Claim::Refused(refusal) if refusals.contains(&refusal.number) => {
                answer.as_ref().err() == Some(&refusal)
            }
            Claim::InRange => answer
                .as_ref()
                .err()
                .is_none_or(|refusal| (12..=15).contains(&refusal.number)),
            Claim::Accepted | Claim::Refused(_) => answer.is_ok(),
            Claim::Open => true,
        }
    }
}

#[cfg(test)]
mod tests {
    use super::*;
    use crate::refusal::refuse;

    #[test]
    fn claims() {
        let holds =
            |claim, answer: Result<(), Refusal>| named("", claim, ()).holds(&[8, 9, 12], &answer);
        let answers = [Ok(()), refuse(8, 0), refuse(8, 1), refuse(12, 1)];
        for (claim, expected) in [
            (Claim::accepted_or(0, 0), [true, false, false, false]),
            (Claim::accepted_or(8, 0), [false, true, false, false]),
            (Claim::of(0, 0), [true, false, false, true]),
            (Claim::of(8, 1), [false, false, true, false]),
            (Claim::of(12, 1), [false, false, false, true]),
            // The call cannot give 14.
            (Claim::of(14, 1), [true, false, false, false]),
            (Claim::Open, [true; 4]),
        ] {
            assert_eq!(answers.map(|answer| holds(claim, answer)), expected);
        }
    }
}
