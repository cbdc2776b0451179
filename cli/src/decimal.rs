//! Decimal numbers by whole numbers: nothing is rounded.

/// Why a word is no number of the unit that is wanted.
#[derive(Clone, Copy, Debug, PartialEq, Eq)]
pub enum Fault {
    NotANumber,
    /// It has a part of the smallest unit.
    TooFine,
    TooLarge,
}

/// More digits than any range has.
const MOST_DIGITS: usize = 15;

/// The number of smallest units in a decimal number of larger ones, each of
/// which has `unit` of them. Point and comma both stand before decimals.
pub fn units_in(word: &str, unit: u64) -> Result<u64, Fault> {
    let (whole, decimals) = word.split_once(['.', ',']).unwrap_or((word, "0"));
    if !is_digits(whole) || !is_digits(decimals) {
        return Err(Fault::NotANumber);
    }
    let whole = number(whole.trim_start_matches('0'))?.checked_mul(unit);
    let decimals = units_in_decimals(decimals, unit)?;
    let sum = whole.and_then(|whole| whole.checked_add(decimals));
    sum.ok_or(Fault::TooLarge)
}

/// What the digits behind a point are worth.
fn units_in_decimals(decimals: &str, unit: u64) -> Result<u64, Fault> {
    let decimals = decimals.trim_end_matches('0');
    let part = number(decimals).map_err(|_| Fault::TooFine)?;
    let parts = 10_u64.pow(decimals.len() as u32);
    let units = u128::from(part) * u128::from(unit);
    match units % u128::from(parts) {
        0 => Ok((units / u128::from(parts)) as u64),
        _ => Err(Fault::TooFine),
    }
}

fn is_digits(word: &str) -> bool {
    !word.is_empty() && word.bytes().all(|byte| byte.is_ascii_digit())
}

/// The number of these digits; no digit is 0.
fn number(digits: &str) -> Result<u64, Fault> {
    if digits.len() > MOST_DIGITS {
        return Err(Fault::TooLarge);
    }
    let digit = |byte: u8| u64::from(byte - b'0');
    Ok(digits.bytes().fold(0, |sum, byte| 10 * sum + digit(byte)))
}

/// A number of small units in larger ones: `decimals` digits stand behind the
/// point, and a larger unit has 10^decimals of the small ones.
pub fn decimal(units: u64, decimals: usize) -> String {
    let unit = 10_u64.pow(decimals as u32);
    format!("{}.{:0decimals$}", units / unit, units % unit)
}

#[cfg(test)]
mod tests {
    use super::*;

    #[test]
    fn whole_and_decimal_numbers() {
        let cases = [
            ("310", 1_000, 310_000),
            ("310.5", 1_000, 310_500),
            ("310,5", 1_000, 310_500),
            ("0.001", 1_000, 1),
            ("007.1230000000000000000000000", 1_000, 7_123),
            ("49.5", 3_600, 178_200),
            ("0", 1, 0),
            ("999999999999999", 1_000, 999_999_999_999_999_000),
        ];
        for (word, unit, units) in cases {
            assert_eq!(units_in(word, unit), Ok(units), "{word}");
        }
    }

    #[test]
    fn faults() {
        let cases = [
            ("", Fault::NotANumber),
            (".5", Fault::NotANumber),
            ("5.", Fault::NotANumber),
            ("1.2.3", Fault::NotANumber),
            ("1.234,5", Fault::NotANumber),
            ("-1", Fault::NotANumber),
            ("+1", Fault::NotANumber),
            ("1e3", Fault::NotANumber),
            ("١", Fault::NotANumber),
            ("0.0005", Fault::TooFine),
            ("1.0000000000000000001", Fault::TooFine),
            ("1000000000000000", Fault::TooLarge),
            ("99999999999999999999999999", Fault::TooLarge),
        ];
        for (word, fault) in cases {
            assert_eq!(units_in(word, 1_000), Err(fault), "{word}");
        }
        assert_eq!(units_in("18446744073710", 1_000_000), Err(Fault::TooLarge));
        assert_eq!(units_in("922337203685478", 20_000), Err(Fault::TooLarge));
    }

    #[test]
    fn printed() {
        assert_eq!(decimal(319_010_720, 6), "319.010720");
        assert_eq!(decimal(7, 3), "0.007");
        assert_eq!(decimal(0, 6), "0.000000");
    }
}
