//! The fields of a sheet that is refused, as they stand in its bits
//! (`docs/rule.md`): the library answers no numbers for such a sheet. They serve
//! for words alone.

use crate::line::Line;

/// Widths in bits: edition, n, V, e.
const HEAD: [usize; 4] = [4, 7, 7, 4];
const DISTANCE: usize = 25;
/// Side, A, R, L.
const CURVE: [usize; 4] = [1, 19, 23, 19];

/// The width of the start in an edition.
fn start_width(edition: u64) -> usize {
    match edition {
        2 => 32,
        _ => 28,
    }
}

/// The number in the bits from `at` on, most significant first; bits behind the
/// sheet are 0.
fn bits(sheet: &[u8], at: usize, width: usize) -> u64 {
    let bit = |at: usize| sheet.get(at / 8).map_or(0, |byte| byte >> (7 - at % 8) & 1);
    (at..at + width).fold(0, |sum, at| 2 * sum + u64::from(bit(at)))
}

/// Fields one after the other.
struct Fields<'a> {
    sheet: &'a [u8],
    at: usize,
}

impl Fields<'_> {
    fn next(&mut self, width: usize) -> u64 {
        let value = bits(self.sheet, self.at, width);
        self.at += width;
        value
    }
}

/// The edition that a sheet names, and the line of its fields, in range or not.
pub fn fields_of(sheet: &[u8]) -> (u64, Line) {
    let mut fields = Fields { sheet, at: 0 };
    let [edition, n, speed, crossfall] = HEAD.map(|width| fields.next(width));
    let start = fields.next(start_width(edition));
    let mut numbers = vec![n, speed, crossfall, start, fields.next(DISTANCE)];
    for _ in 0..n {
        numbers.extend(CURVE.map(|width| fields.next(width)));
        numbers.push(fields.next(DISTANCE));
    }
    (edition, Line { numbers })
}

#[cfg(test)]
mod tests {
    use super::*;
    use crate::line::example;

    #[test]
    fn the_fields_of_an_accepted_sheet_are_those_that_the_library_reads() {
        let mountain_road = include_bytes!("../../samples/stations/mountain-road.sheet");
        for line in [Ok(example()), Line::of_sheet(mountain_road)] {
            let line = line.unwrap();
            for (edition, start) in [(1, 200_000_000), (2, 200_000_001), (2, 4_000_000_000)] {
                let line = line.with(pokyandi::line::START, start);
                let sheet = line.sheet(edition).unwrap();
                assert_eq!(fields_of(&sheet), (edition.into(), line));
            }
        }
    }
}
