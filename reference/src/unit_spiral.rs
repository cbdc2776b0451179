//! The table of the spiral of length one, in the words of document 02, The unit
//! spiral table: "501 rows, spiral angle 0 to 500 thousandths of a radian, each with x
//! and y as the rule gives them". The rule is document 01's Working rule with document
//! 02's Nearest, not down, and Interchange ramps.

use crate::elements::{nearest, x_ratio, y_ratio, GREATEST_SPIRAL, TO_MICROMETRES};
use crate::lent::fill;
use crate::refusal::{refuse, Refusal};

/// The last row.
pub const GREATEST_THOUSANDTH: u32 = 500;
/// A thousandth of a radian at the scale 10⁹.
pub const THOUSANDTH: i128 = 1_000_000;
/// Numbers of a row, and of what is looked up.
pub const ROW_NUMBERS: usize = 2;
/// Numbers of the table: x and y of 501 rows.
pub const TABLE_NUMBERS: usize = 1_002;

/// The longest line of a laid out source.
const SOURCE_COLUMNS: usize = 100;

/// What the Rattle source of the table says of it.
const SOURCE_COMMENT: &str = "// The spiral of length one at 0, 1, .. 500 thousandths of a \
    radian: x and y of each row, at scale 10⁹. Made by reference/make-samples.";

/// Writes X and Y at the front of the lent numbers and returns their count. Refuses as
/// [`look_up`] does, then 16, and leaves the numbers as they are.
pub fn unit_spiral(thousandth: u32, length: u32, offsets: &mut [u64]) -> Result<usize, Refusal> {
    fill(offsets, &look_up(thousandth, length)?)
}

/// Writes x and y of each row, from row 0 on, at the front of the lent numbers and
/// returns their count, or refuses 16 and leaves the numbers as they are.
pub fn unit_spiral_table(ratios: &mut [u64]) -> Result<usize, Refusal> {
    fill(ratios, &table())
}

/// X and Y, µm, of a spiral of this length in mm at this angle: "a look-up takes a
/// thousandth and a length and gives X and Y as the rule would. It refuses with 25 a
/// thousandth above 500, then with 11 a length above 500,000."
pub fn look_up(thousandth: u32, length: u32) -> Result<[u64; ROW_NUMBERS], Refusal> {
    if thousandth > GREATEST_THOUSANDTH {
        return refuse(25, 0);
    }
    if length > GREATEST_SPIRAL {
        return refuse(11, 0);
    }
    let of_length = |ratio| nearest(i128::from(length) * i128::from(ratio), TO_MICROMETRES);
    Ok(row(thousandth).map(of_length).map(number))
}

/// Small x and y of a row.
pub fn row(thousandth: u32) -> [u64; ROW_NUMBERS] {
    let t = i128::from(thousandth) * THOUSANDTH;
    [x_ratio(t), y_ratio(t)].map(number)
}

fn number(of_rule: i128) -> u64 {
    u64::try_from(of_rule).expect("no number of a row is below zero")
}

/// The numbers of all rows, one row after the other.
pub fn table() -> Vec<u64> {
    (0..=GREATEST_THOUSANDTH).flat_map(row).collect()
}

/// What the small program prints: "row number from 0, x, y, one space between, no
/// heading".
pub fn table_text() -> String {
    let rows = (0..=GREATEST_THOUSANDTH).map(|thousandth| {
        let [x, y] = row(thousandth);
        format!("{thousandth} {x} {y}\n")
    });
    rows.collect()
}

/// The Rattle source of the table, laid out as `rt fmt` does: as many numbers to a
/// line as fit.
pub fn table_source() -> String {
    let mut lines: Vec<String> = Vec::new();
    for number in table() {
        let text = format!(" {number},");
        match lines.last_mut() {
            Some(line) if line.len() + text.len() <= SOURCE_COLUMNS => line.push_str(&text),
            _ => lines.push(format!("   {text}")),
        }
    }
    let numbers = lines.join("\n");
    format!("{SOURCE_COMMENT}\npub(crate) const TABLE: [u32; {TABLE_NUMBERS}] = [\n{numbers}\n];\n")
}

#[cfg(test)]
mod tests {
    use super::*;
    use crate::elements::{shorter_x_ratio, shorter_y_ratio, working_rule, SCALE};
    use crate::exact::clothoid;
    use crate::exact::elements as exact;
    use crate::exact::fraction::Fraction;

    /// Worked by hand. Row 250 has t2 62,500,000, t3 15,625,000, t4 3,906,250, t5
    /// 976,562 and t6 244,140: x = 10⁹ − 6,250,000 + 18,084 − 26, y = 83,333,333 −
    /// 372,023 + 739. Row 499 has t2 249,001,000, t3 124,251,499, t4 62,001,498, t5
    /// 30,938,747 and t6 15,438,435: x = 10⁹ − 24,900,100 + 287,043 − 1,649, y =
    /// 166,333,333 − 2,958,369 + 23,438. Row 500 is that of a spiral as long as the
    /// radius.
    #[test]
    fn rows_worked_by_hand() {
        for (thousandth, expected) in [
            (0, [1_000_000_000, 0]),
            (1, [999_999_900, 333_333]),
            (2, [999_999_600, 666_666]),
            (3, [999_999_100, 1_000_000]),
            (250, [993_768_058, 82_962_049]),
            (499, [975_385_294, 163_398_402]),
            (500, [975_287_682, 163_714_150]),
        ] {
            assert_eq!(row(thousandth), expected, "row {thousandth}");
        }
    }

    /// The sums of x and y over all rows, and of each times its row's number and 1, as
    /// another program works them in whole numbers of any size.
    #[test]
    fn sums_of_all_rows() {
        let sum = |i: usize, weight: fn(usize) -> u64| -> u64 {
            let ratios = table().into_iter().skip(i).step_by(2).enumerate();
            ratios.map(|(row, ratio)| weight(row) * ratio).sum()
        };
        let sums = [0, 1].map(|i| sum(i, |_| 1));
        assert_eq!(sums, [496_849_784_921, 41_378_471_162]);
        let weighted = [0, 1].map(|i| sum(i, |row| row as u64 + 1));
        assert_eq!(weighted, [124_190_169_731_037, 13_823_258_635_785]);
    }

    /// The row less the exact ratios of its angle, at the scale 10⁹.
    fn difference(thousandth: u32, exact: fn(&Fraction) -> [Fraction; 2]) -> [Fraction; 2] {
        let [exact_x, exact_y] = exact(&(Fraction::from(thousandth) / 1_000));
        let [x, y] = row(thousandth).map(Fraction::from);
        [x - exact_x * SCALE, y - exact_y * SCALE]
    }

    fn hundredths(number: i32) -> Fraction {
        Fraction::from(number) / 100
    }

    /// The same terms in fractions, nothing rounded. t2, t3 and t2/10 are whole in every
    /// row; x gains one quotient that is rounded down and loses one, y gains two and
    /// loses one. The roundings of t4, t5 and t6 are small behind their quotients.
    #[test]
    fn rows_are_near_the_exact_terms() {
        for thousandth in 0..=GREATEST_THOUSANDTH {
            let [x, y] = difference(thousandth, |s| [exact::x_ratio(s), exact::y_ratio(s)]);
            let [one, two] = [101, 201].map(hundredths);
            assert!(&x * -1 < one && x < one, "x of row {thousandth}");
            assert!(&y * -1 < two && y < one, "y of row {thousandth}");
        }
    }

    /// The clothoid's next terms are s⁸/685,440, which x lacks, and s⁷/75,600, which y
    /// does not lose: in row 500 5.7 and 103.3.
    #[test]
    fn rows_are_near_the_clothoid() {
        for thousandth in (0..=GREATEST_THOUSANDTH).step_by(10) {
            let [x, y] = difference(thousandth, clothoid::ratios);
            let part = Fraction::from(thousandth) / 500;
            let power = |n: u32| (1..n).fold(part.clone(), |power, _| power * &part);
            let [one, two] = [101, 201].map(hundredths);
            assert!(x < one && x * -1 < &one + power(8) * 6, "{thousandth}");
            assert!(&y * -1 < two && y < one + power(7) * 104, "{thousandth}");
        }
    }

    /// Terms that are left out are seen in most rows.
    #[test]
    fn every_term_counts() {
        let others = |ratio: fn(i128) -> i128, i: usize| {
            let rows = 0..=GREATEST_THOUSANDTH;
            let other = |thousandth: &u32| {
                let t = i128::from(*thousandth) * THOUSANDTH;
                i128::from(row(*thousandth)[i]) != ratio(t)
            };
            rows.filter(other).count()
        };
        assert_eq!(others(x_ratio, 0) + others(y_ratio, 1), 0);
        // From row 146 and from row 67 on.
        assert_eq!(others(shorter_x_ratio, 0), 501 - 146);
        assert_eq!(others(shorter_y_ratio, 1), 501 - 67);
    }

    /// Along the table x falls and y rises.
    #[test]
    fn rows_go_one_way() {
        for thousandth in 0..GREATEST_THOUSANDTH {
            let [[x, y], [next_x, next_y]] = [thousandth, thousandth + 1].map(row);
            assert!(next_x < x && y < next_y, "{thousandth}");
        }
    }

    /// Where the spiral angle of a curve is a row's, X and Y are the curve's: L is r
    /// times a 500th of R, or over it by less than the quotient shows.
    #[test]
    fn look_up_is_the_rule() {
        let curve = |r, l| {
            let found = working_rule(432_000, r, l);
            Ok([found.x, found.y].map(number))
        };
        for thousandth in 0..=GREATEST_THOUSANDTH {
            for part in [40, 41, 123, 700, 999, 1_000] {
                let (r, l) = (500 * part, thousandth * part);
                assert_eq!(look_up(thousandth, l), curve(r, l), "{thousandth} {l}");
            }
        }
        // 500 L is 4 over 3 R, 2 over 7 R, 1 over 9 R.
        for (thousandth, r, l) in [
            (3, 4_999_832, 29_999),
            (7, 2_142_714, 29_998),
            (9, 1_666_611, 29_999),
        ] {
            let over = 500 * l - thousandth * r;
            assert!(over > 0 && 1_000_000 * over < r);
            assert_eq!(look_up(thousandth, l), curve(r, l));
        }
    }

    /// Each division by 10⁶ that leaves one half goes up, though the number below is
    /// even, and one that leaves 1 less goes down. Worked by another program.
    #[test]
    fn halves_go_up() {
        for (thousandth, length, expected) in [
            (422, 75_000, [73_675_337, 10_416_561]),
            (432, 500_000, [490_749_075, 71_045_919]),
            (431, 187_500, [184_046_807, 26_582_189]),
            (431, 25_069, [24_607_303, 3_554_074]),
            (424, 9_503, [9_333_575, 1_325_942]),
        ] {
            assert_eq!(look_up(thousandth, length), Ok(expected), "{thousandth}");
        }
        let rest = |i: usize, thousandth, length: u64| row(thousandth)[i] * length % 1_000_000;
        assert_eq!(rest(0, 422, 75_000), 500_000);
        assert_eq!([0, 1].map(|i| rest(i, 432, 500_000)), [500_000; 2]);
        assert_eq!(rest(1, 431, 187_500), 500_000);
        assert_eq!(rest(0, 431, 25_069), 499_999);
        assert_eq!(rest(1, 424, 9_503), 499_999);
    }

    #[test]
    fn ends_of_the_look_up() {
        assert_eq!(look_up(0, 0), Ok([0, 0]));
        assert_eq!(look_up(500, 0), Ok([0, 0]));
        assert_eq!(look_up(0, 1), Ok([1_000, 0]));
        assert_eq!(look_up(500, 1), Ok([975, 164]));
        assert_eq!(look_up(0, 500_000), Ok([500_000_000, 0]));
        assert_eq!(look_up(500, 500_000), Ok([487_643_841, 81_857_075]));
    }

    /// 25, then 11, then 16, and then the numbers are as they were.
    #[test]
    fn refusals_in_order() {
        let call = |thousandth, length, room| {
            let mut offsets = vec![7; room];
            let answer = unit_spiral(thousandth, length, &mut offsets);
            (answer, offsets)
        };
        for room in [0, 1, 2, 3] {
            let as_before = vec![7; room];
            for thousandth in [501, 502, 1 << 16, u32::MAX] {
                for length in [0, 500_000, 500_001, u32::MAX] {
                    let expected = (refuse(25, 0), as_before.clone());
                    assert_eq!(call(thousandth, length, room), expected);
                }
            }
            for length in [500_001, 1 << 31, u32::MAX] {
                for thousandth in [0, 500] {
                    let expected = (refuse(11, 0), as_before.clone());
                    assert_eq!(call(thousandth, length, room), expected);
                }
            }
        }
        for room in [0, 1] {
            assert_eq!(call(500, 500_000, room), (refuse(16, 0), vec![7; room]));
        }
        let offsets = [487_643_841, 81_857_075];
        assert_eq!(call(500, 500_000, 2), (Ok(2), offsets.to_vec()));
        let with_more = [&offsets[..], &[7, 7]].concat();
        assert_eq!(call(500, 500_000, 4), (Ok(2), with_more));
    }

    #[test]
    fn table_in_lent_numbers() {
        let call = |room| {
            let mut ratios = vec![7; room];
            let answer = unit_spiral_table(&mut ratios);
            (answer, ratios)
        };
        for room in [0, 1, 1_001] {
            assert_eq!(call(room), (refuse(16, 0), vec![7; room]));
        }
        for room in [1_002, 1_003, 1_010] {
            let (answer, ratios) = call(room);
            assert_eq!(answer, Ok(1_002));
            assert_eq!(ratios[..4], [1_000_000_000, 0, 999_999_900, 333_333]);
            assert_eq!(ratios[1_000..1_002], [975_287_682, 163_714_150]);
            assert!(ratios[1_002..].iter().all(|number| *number == 7));
        }
    }

    #[test]
    fn text_of_the_table() {
        let text = table_text();
        assert!(text.starts_with("0 1000000000 0\n1 999999900 333333\n2 999999600 "));
        assert!(text.ends_with("\n499 975385294 163398402\n500 975287682 163714150\n"));
        assert_eq!((text.len(), text.lines().count()), (11_574, 501));
        for (i, line) in text.lines().enumerate() {
            let numbers: Vec<u64> = line.split(' ').map(|word| word.parse().unwrap()).collect();
            assert_eq!(numbers[0], i as u64);
            assert_eq!(numbers[1..], row(i as u32));
        }
    }

    #[test]
    fn source_of_the_table() {
        let source = table_source();
        let lines: Vec<&str> = source.lines().collect();
        assert!(lines
            .iter()
            .skip(1)
            .all(|line| line.len() <= SOURCE_COLUMNS));
        assert!(
            lines[0].starts_with("// ") && lines[0].ends_with(" Made by reference/make-samples.")
        );
        assert_eq!(lines[1], "pub(crate) const TABLE: [u32; 1002] = [");
        assert!(lines[2].starts_with("    1000000000, 0, 999999900, "));
        assert!(source.ends_with(" 975287682, 163714150,\n];\n"));
        let numbers = lines[2..lines.len() - 1]
            .iter()
            .flat_map(|line| line.split_whitespace());
        let numbers: Vec<u64> = numbers
            .map(|number| number.strip_suffix(',').unwrap().parse().unwrap())
            .collect();
        assert_eq!(numbers, table());
    }
}
