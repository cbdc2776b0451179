//! Times by alternate rounds, and their medians.

use std::time::{Duration, Instant};

/// Something that can be timed; it may fail.
pub type Work<'a> = Box<dyn FnMut() -> Result<(), String> + 'a>;

/// Work that cannot fail.
pub fn sure<'a>(mut work: impl FnMut() + 'a) -> Work<'a> {
    Box::new(move || {
        work();
        Ok(())
    })
}

/// The time of each round of one work, ns per call.
pub struct Times(Vec<f64>);

impl Times {
    pub fn median(&self) -> f64 {
        quantile(self.0.clone(), 0.5)
    }

    /// The ratio of these times to others, round by round: its quartiles.
    pub fn ratio_quartiles(&self, others: &Times) -> (f64, f64) {
        let ratios: Vec<f64> = self.0.iter().zip(&others.0).map(|(a, b)| a / b).collect();
        (quantile(ratios.clone(), 0.25), quantile(ratios, 0.75))
    }
}

/// The number below which this part of the numbers lies.
fn quantile(mut numbers: Vec<f64>, part: f64) -> f64 {
    numbers.sort_by(f64::total_cmp);
    numbers[(part * (numbers.len() - 1) as f64).round() as usize]
}

/// Does each work once in each round, in turn, each time making `calls` calls.
pub fn alternate(rounds: usize, calls: usize, works: &mut [Work]) -> Result<Vec<Times>, String> {
    let mut times: Vec<Times> = works.iter().map(|_| Times(Vec::new())).collect();
    for _ in 0..rounds {
        for (work, times) in works.iter_mut().zip(&mut times) {
            let spent = time(work)?;
            times.0.push(spent.as_nanos() as f64 / calls as f64);
        }
    }
    Ok(times)
}

/// How long the work takes.
pub fn time(work: &mut Work) -> Result<Duration, String> {
    let begin = Instant::now();
    work()?;
    Ok(begin.elapsed())
}

#[cfg(test)]
mod tests {
    use super::*;

    #[test]
    fn quantiles() {
        let numbers = vec![5.0, 1.0, 4.0, 2.0, 3.0];
        assert_eq!(quantile(numbers.clone(), 0.5), 3.0);
        assert_eq!(quantile(numbers.clone(), 0.25), 2.0);
        assert_eq!(quantile(numbers, 0.75), 4.0);
        assert_eq!(quantile(vec![7.0], 0.75), 7.0);
    }

    #[test]
    fn works_alternate() {
        let order = std::cell::RefCell::new(String::new());
        let put = |name| {
            order.borrow_mut().push(name);
            Ok(())
        };
        let mut works: Vec<Work> = vec![Box::new(|| put('a')), Box::new(|| put('b'))];
        let times = alternate(3, 1, &mut works).unwrap();
        drop(works);
        assert_eq!(order.into_inner(), "ababab");
        assert!(times.iter().all(|times| times.0.len() == 3));
    }
}
