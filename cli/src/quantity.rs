//! Lengths, angles and grades as road offices write them, to and from whole mm, µm,
//! seconds of arc and millionths.

use crate::decimal::{decimal, units_in, Fault};

const MM_IN_M: u64 = 1_000;
const UM_IN_M: u64 = 1_000_000;
const M_IN_KM: u64 = 1_000;
/// An estaca, the stake interval of some offices.
const M_IN_ESTACA: u64 = 20;
const SECONDS_IN_MINUTE: u64 = 60;
const SECONDS_IN_DEGREE: u64 = 3_600;
const MILLIONTHS_IN_PERCENT: u64 = 10_000;

/// What a word says, and whether it names its unit.
#[derive(Clone, Copy, Debug, PartialEq, Eq)]
pub struct Quantity<N = u64> {
    pub value: N,
    pub has_unit: bool,
}

/// How lengths are written, for messages.
const LENGTH_FORMS: &str = "310500 (mm), 310.5m, 12+340.5km or 617+0.00e";
/// How they are written where no unit means metres.
const METRE_FORMS: &str = "20m, 20 (m), 500mm, 0+020km or 1+0e";
/// How angles are written, for messages.
const ANGLE_FORMS: &str = "177764 (seconds), 49d22m44s, 49.5d or 49°22'44\"";
/// How grades are written, for messages.
const GRADE_FORMS: &str = "-3.5%, 4% or 0.25%";

/// A length in mm.
pub fn length(word: &str) -> Result<Quantity, String> {
    length_in(word, word)
}

/// A length in mm that may have a sign.
pub fn signed_length(word: &str) -> Result<Quantity<i64>, String> {
    let (is_minus, size) = sign_of(word);
    let Quantity { value, has_unit } = length_in(size, word)?;
    let mm = i64::try_from(value).map_err(|_| length_fault(word, Fault::TooLarge))?;
    let value = if is_minus { -mm } else { mm };
    Ok(Quantity { value, has_unit })
}

/// Whether a word has a minus, and the word without its sign.
fn sign_of(word: &str) -> (bool, &str) {
    let minus = word.strip_prefix(['-', '−']);
    let size = minus.or(word.strip_prefix('+')).unwrap_or(word);
    (minus.is_some(), size)
}

/// The length of a size, which is a word without its sign.
fn length_in(size: &str, word: &str) -> Result<Quantity, String> {
    let (number, unit) = size.split_at(unit_begin(size));
    let value = match unit {
        // Metres were probably meant, whatever the decimals are.
        "" if number.contains(['.', ',']) => units_in(number, MM_IN_M).and(Err(Fault::TooFine)),
        "" | "mm" => units_in(number, 1),
        "m" => units_in(number, MM_IN_M),
        "km" => return counted_from(word, number, M_IN_KM),
        "e" => return counted_from(word, number, M_IN_ESTACA),
        _ => Err(Fault::NotANumber),
    };
    let has_unit = !unit.is_empty();
    let told = |fault| match fault {
        Fault::NotANumber if number.contains('+') && !has_unit => {
            format!("{word} has no unit: write {LENGTH_FORMS}")
        }
        Fault::TooFine if !has_unit => {
            format!("{word} without a unit is in mm and must be whole: for metres write {word}m")
        }
        fault => length_fault(word, fault),
    };
    Ok(Quantity {
        value: value.map_err(told)?,
        has_unit,
    })
}

/// A length in mm; without a unit it is in metres.
pub fn length_in_metres(word: &str) -> Result<Quantity, String> {
    let has_unit = unit_begin(word) < word.len() || word.contains('+');
    let length = match has_unit {
        true => length(word),
        false => length(&format!("{word}m")),
    };
    let value = length
        .map_err(|words| words.replace(LENGTH_FORMS, METRE_FORMS))?
        .value;
    Ok(Quantity { value, has_unit })
}

/// Where the letters at the end of a word begin.
fn unit_begin(word: &str) -> usize {
    word.trim_end_matches(|letter: char| letter.is_ascii_alphabetic())
        .len()
}

/// `12+340.5km`: kilometres or estacas, and metres, fewer than one of them has.
fn counted_from(word: &str, number: &str, metres: u64) -> Result<Quantity, String> {
    let Some((count, rest)) = number.split_once('+') else {
        return Err(format!(
            "{word} lacks the + before its metres: write {LENGTH_FORMS}"
        ));
    };
    let told = |fault| length_fault(word, fault);
    let most = metres * MM_IN_M;
    let whole = match count.contains(['.', ',']) {
        true => Err(Fault::NotANumber),
        false => units_in(count, most),
    };
    let (whole, rest) = (whole.map_err(told)?, units_in(rest, MM_IN_M).map_err(told)?);
    if rest >= most {
        return Err(format!("{word} has {metres} m or more behind the +"));
    }
    let value = whole.checked_add(rest).ok_or(told(Fault::TooLarge))?;
    Ok(Quantity {
        value,
        has_unit: true,
    })
}

fn length_fault(word: &str, fault: Fault) -> String {
    match fault {
        Fault::NotANumber => format!("{word} is no length: write {LENGTH_FORMS}"),
        Fault::TooFine => format!("{word} is finer than a mm"),
        Fault::TooLarge => format!("{word} is too large"),
    }
}

/// An angle in seconds of arc.
pub fn angle(word: &str) -> Result<Quantity, String> {
    let parts = angle_parts(word).ok_or(angle_fault(word, Fault::NotANumber))?;
    let value = match parts[..] {
        [(number, "")] if number.contains(['.', ',']) => {
            let hint = "without a unit is in seconds and must be whole: for degrees write";
            return Err(format!("{word} {hint} {word}d"));
        }
        [(number, "")] => units_in(number, 1).map_err(|fault| angle_fault(word, fault))?,
        _ => marked_angle(word, &parts)?,
    };
    Ok(Quantity {
        value,
        has_unit: !parts[0].1.is_empty(),
    })
}

/// Degrees, and then perhaps minutes and seconds; only the last may have decimals.
fn marked_angle(word: &str, parts: &[(&str, &str)]) -> Result<u64, String> {
    const MARKS: [(&str, u64); 3] = [("d", SECONDS_IN_DEGREE), ("m", SECONDS_IN_MINUTE), ("s", 1)];
    let in_order = parts
        .iter()
        .zip(MARKS)
        .all(|(part, (mark, _))| part.1 == mark);
    let whole_before = parts
        .iter()
        .rev()
        .skip(1)
        .all(|(number, _)| !number.contains(['.', ',']));
    if parts.len() > MARKS.len() || !in_order || !whole_before {
        return Err(angle_fault(word, Fault::NotANumber));
    }
    let mut seconds = 0;
    for (i, (&(number, _), (_, unit))) in parts.iter().zip(MARKS).enumerate() {
        let part = units_in(number, unit).map_err(|fault| angle_fault(word, fault))?;
        if i > 0 && part >= 60 * unit {
            return Err(format!("{word} has 60 minutes or seconds, or more"));
        }
        seconds += part;
    }
    Ok(seconds)
}

/// The numbers of an angle, each with the mark behind it as a letter.
fn angle_parts(word: &str) -> Option<Vec<(&str, &'static str)>> {
    let mut parts = Vec::new();
    let mut rest = word;
    while !rest.is_empty() {
        let end = rest.find(|letter: char| !letter.is_ascii_digit() && !".,".contains(letter));
        let (number, after) = rest.split_at(end.unwrap_or(rest.len()));
        let (mark, behind) = angle_mark(after)?;
        parts.push((number, mark));
        rest = behind;
    }
    (!parts.is_empty()).then_some(parts)
}

/// The mark that a text begins with, and what is behind it; at the end of the
/// text there is none.
fn angle_mark(text: &str) -> Option<(&'static str, &str)> {
    const MARKS: [(&str, &str); 14] = [
        ("d", "d"),
        ("°", "d"),
        ("º", "d"),
        ("˚", "d"),
        ("''", "s"),
        ("′′", "s"),
        ("s", "s"),
        ("\"", "s"),
        ("″", "s"),
        ("”", "s"),
        ("m", "m"),
        ("'", "m"),
        ("′", "m"),
        ("’", "m"),
    ];
    if text.is_empty() {
        return Some(("", text));
    }
    let mut marks = MARKS.into_iter();
    marks.find_map(|(written, mark)| Some((mark, text.strip_prefix(written)?)))
}

fn angle_fault(word: &str, fault: Fault) -> String {
    match fault {
        Fault::NotANumber => format!("{word} is no angle: write {ANGLE_FORMS}"),
        Fault::TooFine => format!("{word} is finer than a second"),
        Fault::TooLarge => format!("{word} is too large"),
    }
}

/// A plain number, perhaps with this unit.
pub fn number(word: &str, unit: &str) -> Result<Quantity, String> {
    let plain = word.strip_suffix(unit).unwrap_or(word);
    let value = units_in(plain, 1).map_err(|fault| match fault {
        Fault::TooLarge => format!("{word} is too large"),
        _ => format!("{word} is no whole number of {unit}"),
    })?;
    Ok(Quantity {
        value,
        has_unit: plain != word,
    })
}

/// A grade in millionths, which may have a sign. Only 0 may lack its %: a number
/// alone might be one of percent or of millionths.
pub fn grade(word: &str) -> Result<i64, String> {
    let (is_minus, size) = sign_of(word);
    let number = size.strip_suffix('%').unwrap_or(size);
    let millionths = units_in(number, MILLIONTHS_IN_PERCENT);
    if number == size && millionths.is_ok_and(|millionths| millionths != 0) {
        return Err(format!("{word} has no %: write {GRADE_FORMS}"));
    }
    let millionths = millionths.map_err(|fault| match fault {
        Fault::NotANumber => format!("{word} is no grade: write {GRADE_FORMS}"),
        Fault::TooFine => format!("{word} is finer than a millionth, which is 0.0001%"),
        Fault::TooLarge => format!("{word} is too large"),
    })?;
    let millionths = i64::try_from(millionths).map_err(|_| format!("{word} is too large"))?;
    Ok(if is_minus { -millionths } else { millionths })
}

/// Millionths in percent: `-3.5000 %`.
pub fn percent(millionths: i64) -> String {
    format!("{} %", signed_decimal(millionths, 4))
}

/// mm in metres: `310.500 m`.
pub fn metres_of_mm(mm: u64) -> String {
    format!("{} m", decimal(mm, 3))
}

/// mm in metres, which may be below zero: `-12.500 m`.
pub fn metres_of_signed_mm(mm: i64) -> String {
    format!("{} m", signed_metres_of_mm(mm))
}

/// The same without the unit: `-12.500`.
pub fn signed_metres_of_mm(mm: i64) -> String {
    signed_decimal(mm, 3)
}

/// µm in metres, which may be below zero: `-0.000205 m`.
pub fn metres_of_um(um: i64) -> String {
    format!("{} m", signed_metres(um))
}

/// The same without the unit: `-0.000205`.
pub fn signed_metres(um: i64) -> String {
    signed_decimal(um, 6)
}

fn signed_decimal(units: i64, decimals: usize) -> String {
    let sign = if units < 0 { "-" } else { "" };
    format!("{sign}{}", decimal(units.unsigned_abs(), decimals))
}

/// Seconds in degrees: `49°22'44"`.
pub fn degrees(seconds: u64) -> String {
    let [d, m, s] = degree_parts(seconds);
    format!("{d}°{m:02}'{s:02}\"")
}

/// The same in letters: `49d22m44s`.
pub fn degrees_in_letters(seconds: u64) -> String {
    let [d, m, s] = degree_parts(seconds);
    format!("{d}d{m:02}m{s:02}s")
}

fn degree_parts(seconds: u64) -> [u64; 3] {
    let minutes = seconds / SECONDS_IN_MINUTE;
    [minutes / 60, minutes % 60, seconds % SECONDS_IN_MINUTE]
}

/// A station in kilometres and metres, `12+340.500` where there are three
/// decimals; the number counts the smallest of them.
pub fn kilometres(station: u64, decimals: usize) -> String {
    let metre = 10_u64.pow(decimals as u32);
    let (metres, rest) = (station / metre, station % metre);
    let (km, metres) = (metres / M_IN_KM, metres % M_IN_KM);
    format!("{km}+{metres:03}.{rest:0decimals$}")
}

/// A station of µm in estacas and metres: `15 + 19.010720`.
pub fn estacas(um: u64) -> String {
    let (metres, rest) = (um / UM_IN_M, um % UM_IN_M);
    let (estacas, metres) = (metres / M_IN_ESTACA, metres % M_IN_ESTACA);
    format!("{estacas} + {metres}.{rest:06}")
}

#[cfg(test)]
mod tests {
    use super::*;

    #[test]
    fn lengths() {
        let cases = [
            ("310500", 310_500, false),
            ("310500mm", 310_500, true),
            ("310.5m", 310_500, true),
            ("310,5m", 310_500, true),
            ("12+340.5km", 12_340_500, true),
            ("12+340,5km", 12_340_500, true),
            ("0+007km", 7_000, true),
            ("617+0.00e", 12_340_000, true),
            ("15+19.010e", 319_010, true),
            ("0", 0, false),
        ];
        for (word, value, has_unit) in cases {
            assert_eq!(length(word), Ok(Quantity { value, has_unit }), "{word}");
        }
    }

    #[test]
    fn no_lengths() {
        let words = [
            "",
            "m",
            "km",
            "310.5",
            "12345.000",
            "1.234,5",
            "0.0005m",
            "12.3405km",
            "12+1000km",
            "12+340.5",
            "617+20e",
            "1.5+0km",
            "12+km",
            "+340km",
            "310.5 m",
            "310.5M",
            "310.5ft",
            "-5m",
            "1.234,5m",
            "49d22m44s",
            "12+34+5km",
            "18446744073710+0km",
            "922337203685478+0e",
            "1e3m",
        ];
        for word in words {
            assert!(length(word).is_err(), "{word}");
        }
    }

    #[test]
    fn lengths_with_a_sign() {
        let cases = [
            ("-12.5m", -12_500),
            ("−12,5m", -12_500),
            ("+3m", 3_000),
            ("-0", 0),
            ("-12+340.5km", -12_340_500),
            ("+617+0.00e", 12_340_000),
            ("310500", 310_500),
        ];
        for (word, mm) in cases {
            let length = signed_length(word).map(|length| length.value);
            assert_eq!(length, Ok(mm), "{word}");
        }
        let has_unit = |word| signed_length(word).unwrap().has_unit;
        assert_eq!([has_unit("-12.5m"), has_unit("-12500")], [true, false]);
        let words = "-12.5 without a unit is in mm and must be whole: for metres write -12.5m";
        assert_eq!(signed_length("-12.5").unwrap_err(), words);
        for word in ["", "-", "+m", "--5m", "+-5m", "- 5m", "5m-", "12+-340km"] {
            assert!(signed_length(word).is_err(), "{word}");
        }
        let far = "-9223372036854775.808m";
        assert_eq!(
            signed_length(far).unwrap_err(),
            format!("{far} is too large")
        );
    }

    #[test]
    fn angles() {
        let cases = [
            ("177764", 177_764, false),
            ("49d22m44s", 177_764, true),
            ("49°22'44\"", 177_764, true),
            ("49º22'44''", 177_764, true),
            ("49°22′44″", 177_764, true),
            ("49°22’44”", 177_764, true),
            ("49d22m44.0s", 177_764, true),
            ("49d", 176_400, true),
            ("49.5d", 178_200, true),
            ("49d22m", 177_720, true),
            ("49d22.5m", 177_750, true),
            ("0d0m44s", 44, true),
        ];
        for (word, value, has_unit) in cases {
            assert_eq!(angle(word), Ok(Quantity { value, has_unit }), "{word}");
        }
    }

    #[test]
    fn no_angles() {
        let words = [
            "",
            "d",
            "49.5",
            "49d22m44.5s",
            "49d60m",
            "49d22m60s",
            "49.5d22m",
            "22m44s",
            "350m",
            "44s",
            "49d44s",
            "49d22",
            "49d22m44s1",
            "49d22m44s5s",
            "49d22m44",
            "-49d",
            "49d22m44s 0",
            "310.5m",
            "12+340.5km",
            "49.37893d",
        ];
        for word in words {
            assert!(angle(word).is_err(), "{word}");
        }
    }

    #[test]
    fn plain_numbers() {
        assert_eq!(
            number("70", "km/h"),
            Ok(Quantity {
                value: 70,
                has_unit: false
            })
        );
        assert_eq!(
            number("70km/h", "km/h"),
            Ok(Quantity {
                value: 70,
                has_unit: true
            })
        );
        assert_eq!(
            number("8%", "%"),
            Ok(Quantity {
                value: 8,
                has_unit: true
            })
        );
        for word in ["", "8.5%", "%", "-8", "8 %", "seventy"] {
            assert!(number(word, "%").is_err(), "{word}");
        }
    }

    #[test]
    fn grades() {
        let cases = [
            ("-3.5%", -35_000),
            ("−3,5%", -35_000),
            ("+4%", 40_000),
            ("0.0001%", 1),
            ("12%", 120_000),
            ("3.50000%", 35_000),
            ("0", 0),
            ("-0.0%", 0),
            ("99999999999999%", 999_999_999_999_990_000),
        ];
        for (word, millionths) in cases {
            assert_eq!(grade(word), Ok(millionths), "{word}");
        }
        let words = "-3.5 has no %: write -3.5%, 4% or 0.25%";
        assert_eq!(grade("-3.5").unwrap_err(), words);
        let words = "0.00005% is finer than a millionth, which is 0.0001%";
        assert_eq!(grade("0.00005%").unwrap_err(), words);
        for word in [
            "",
            "%",
            "-%",
            "3.5 %",
            "3%%",
            "--3%",
            "35‰",
            "1:20",
            "3m",
            "999999999999999%",
        ] {
            assert!(grade(word).is_err(), "{word}");
        }
    }

    #[test]
    fn printed() {
        assert_eq!(percent(-35_000), "-3.5000 %");
        assert_eq!(percent(1), "0.0001 %");
        assert_eq!(metres_of_mm(310_500), "310.500 m");
        assert_eq!(metres_of_um(-205), "-0.000205 m");
        assert_eq!(metres_of_signed_mm(-12_500), "-12.500 m");
        assert_eq!(degrees(177_764), "49°22'44\"");
        assert_eq!(degrees(1), "0°00'01\"");
        assert_eq!(degrees_in_letters(177_764), "49d22m44s");
        assert_eq!(kilometres(319_010_720, 6), "0+319.010720");
        assert_eq!(kilometres(12_040_500, 3), "12+040.500");
        assert_eq!(estacas(319_010_720), "15 + 19.010720");
        assert_eq!(estacas(12_340_000_000), "617 + 0.000000");
    }

    #[test]
    fn what_is_printed_is_read_again() {
        for value in [
            0,
            1,
            999,
            1_000,
            59_999,
            12_340_500,
            200_000_000,
            4_000_000_000,
        ] {
            let km = format!("{}km", kilometres(value, 3));
            assert_eq!(
                length(&km),
                Ok(Quantity {
                    value,
                    has_unit: true
                }),
                "{km}"
            );
            let metres = format!("{}m", decimal(value, 3));
            assert_eq!(
                length(&metres),
                Ok(Quantity {
                    value,
                    has_unit: true
                }),
                "{metres}"
            );
            let angle_word = degrees_in_letters(value);
            assert_eq!(angle(&angle_word).unwrap().value, value, "{angle_word}");
            assert_eq!(angle(&degrees(value)).unwrap().value, value);
        }
    }
}
