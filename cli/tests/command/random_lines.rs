//! Random lines, written in random forms: text, sheet, text and sheet again; and
//! random points.

use crate::run::run_with_input;
use pokyandi::{LINE_NUMBERS, SHEET_BYTES};

const SEED: u64 = 17;
const LINES: usize = 120;

/// Random numbers, the same for the same seed (splitmix64).
struct Dice(u64);

impl Dice {
    fn next(&mut self) -> u64 {
        self.0 = self.0.wrapping_add(0x9E37_79B9_7F4A_7C15);
        let mut mixed = self.0;
        mixed = (mixed ^ (mixed >> 30)).wrapping_mul(0xBF58_476D_1CE4_E5B9);
        mixed = (mixed ^ (mixed >> 27)).wrapping_mul(0x94D0_49BB_1331_11EB);
        mixed ^ (mixed >> 31)
    }

    /// A number of the range; its ends come often.
    fn between(&mut self, low: u32, high: u32) -> u32 {
        match self.next() % 8 {
            0 => low,
            1 => high,
            _ => low + (self.next() % u64::from(high - low + 1)) as u32,
        }
    }

    fn one_of<'a>(&mut self, words: &[&'a str]) -> &'a str {
        words[self.next() as usize % words.len()]
    }
}

/// An edition, and its greatest start, mm.
fn random_edition(dice: &mut Dice) -> (u32, u32) {
    match dice.between(1, 2) {
        1 => (1, 200_000_000),
        _ => (2, 4_000_000_000),
    }
}

/// The numbers of a random line whose fields are in range.
fn random_line(dice: &mut Dice, greatest_start: u32) -> Vec<u32> {
    let n = dice.between(0, 64);
    let speed = 10 * dice.between(4, 12);
    let crossfall = dice.between(2, 12);
    let start = dice.between(0, greatest_start);
    let mut numbers = vec![n, speed, crossfall, start, dice.between(1, 20_000_000)];
    for _ in 0..n {
        let radius = dice.between(20_000, 5_000_000);
        let spiral = dice.between(0, radius.min(500_000));
        numbers.extend([dice.between(0, 1), dice.between(1, 432_000), radius, spiral]);
        numbers.push(dice.between(1, 20_000_000));
    }
    numbers
}

/// A length in a random form.
fn length(dice: &mut Dice, mm: u32) -> String {
    let point = dice.one_of(&[".", ","]);
    let metres = |mm: u32| format!("{}{point}{:03}", mm / 1_000, mm % 1_000);
    match dice.next() % 6 {
        0 => format!("{mm}"),
        1 => format!("{mm}mm"),
        2 => format!("{}m", metres(mm)),
        3 => format!("{}00m", metres(mm)),
        4 => format!("{}+{}km", mm / 1_000_000, metres(mm % 1_000_000)),
        _ => format!("{}+{}e", mm / 20_000, metres(mm % 20_000)),
    }
}

/// An angle in a random form.
fn angle(dice: &mut Dice, seconds: u32) -> String {
    let (d, m, s) = (seconds / 3_600, seconds / 60 % 60, seconds % 60);
    match dice.next() % 5 {
        0 => format!("{seconds}"),
        1 => format!("{d}d{m}m{s}s"),
        2 => format!("{d:03}d{m:02}m{s:02}.0s"),
        3 => format!("{d}°{m:02}'{s:02}\""),
        _ => format!("{d}º{m}′{s}″"),
    }
}

/// The text of a line in an edition, in random forms. The edition stands somewhere
/// before the curves; edition 1 need not be there.
fn text_of(dice: &mut Dice, edition: u32, line: &[u32]) -> String {
    let end = dice.one_of(&["\n", "\r\n", "  # a comment\n", "\n\n"]);
    let space = dice.one_of(&[" ", "\t", "   "]);
    let mark = dice.one_of(&["", "\u{feff}"]);
    let speed = dice.one_of(&["", "km/h"]);
    let crossfall = dice.one_of(&["", "%"]);
    let mut head = vec![
        format!("speed {}{speed}", line[1]),
        format!("crossfall {}{crossfall}", line[2]),
        format!("start {}", length(dice, line[3])),
        format!("distance {}", length(dice, line[4])),
    ];
    if edition != 1 || dice.between(0, 1) == 0 {
        let place = dice.between(0, 4) as usize;
        head.insert(place, format!("edition {edition}"));
    }
    let mut text = format!("{mark}{}{end}", head.join(end));
    for entry in line[5..].chunks(5) {
        let side = ["right", "left"][entry[0] as usize];
        let curve = [
            angle(dice, entry[1]),
            length(dice, entry[2]),
            length(dice, entry[3]),
        ];
        text += &format!("curve {side} {}{end}", curve.join(" "));
        text += &format!("distance {}{end}", length(dice, entry[4]));
    }
    text.replace(' ', space)
}

/// The output of a run that must do what it is asked for; of `make`, status 1
/// says that the calculator refuses the line.
fn done(arguments: &[&str], input: &[u8]) -> Vec<u8> {
    let run = run_with_input(arguments, input);
    let is_done = run.status == Some(0) || arguments[0] == "make" && run.status == Some(1);
    assert!(is_done, "{arguments:?}: {}", run.words);
    run.out
}

#[test]
fn text_sheet_text_sheet() {
    let mut dice = Dice(SEED);
    for _ in 0..LINES {
        let (edition, greatest_start) = random_edition(&mut dice);
        let line = random_line(&mut dice, greatest_start);
        let text = text_of(&mut dice, edition, &line);
        let mut expected = [0; SHEET_BYTES];
        let size = pokyandi::write(edition, &line, &mut expected).unwrap();

        let sheet = done(&["make", "-", "-"], text.as_bytes());
        assert_eq!(sheet, expected[..size], "{text}");
        let shown = done(&["show", "-"], &sheet);
        assert_eq!(done(&["make", "-", "-"], &shown), sheet, "{text}");

        let mut read = [0; LINE_NUMBERS];
        let count = pokyandi::read(&sheet, &mut read).unwrap();
        assert_eq!(read[..count], line);
    }
}

/// Random points of a line that turns left and right on its way to the east: east
/// and north of each, mm.
fn random_points(dice: &mut Dice) -> Vec<[i64; 2]> {
    let count = i64::from(dice.between(2, 66));
    let mut near = |place: i64| place + i64::from(dice.between(0, 10_000)) - 5_000;
    let point = |i: i64| [near(290_000 * i - 9_400_000), near(50_000 * (i % 2))];
    (0..count).map(point).collect()
}

/// A coordinate in a random form.
fn coordinate(dice: &mut Dice, mm: i64) -> String {
    let sign = match mm < 0 {
        true => dice.one_of(&["-", "−"]),
        false => dice.one_of(&["", "+"]),
    };
    format!("{sign}{}", length(dice, mm.unsigned_abs() as u32))
}

#[test]
fn points_to_sheet() {
    const RADIUS: u32 = 120_000;
    const SPIRAL: u32 = 30_000;
    let mut dice = Dice(SEED);
    for _ in 0..LINES {
        let points = random_points(&mut dice);
        let (edition, greatest_start) = random_edition(&mut dice);
        let start = dice.between(0, greatest_start);
        let mut text = format!(
            "edition {edition}\nspeed 40\ncrossfall 8\nstart {}\n",
            length(&mut dice, start)
        );
        for (i, point) in points.iter().enumerate() {
            let [east, north] = point.map(|mm| coordinate(&mut dice, mm));
            text += &format!("point {east} {north}");
            if i > 0 && i + 1 < points.len() {
                let [radius, spiral] = [RADIUS, SPIRAL].map(|mm| length(&mut dice, mm));
                text += &format!(" {radius} {spiral}");
            }
            text += dice.one_of(&["\n", "\r\n", " # a comment\n"]);
        }

        let curves = [RADIUS, SPIRAL].repeat(points.len() - 2);
        let mut line = [0; LINE_NUMBERS];
        let count = pokyandi::from_points(40, 8, start, &points.concat(), &curves, &mut line);
        let mut expected = [0; SHEET_BYTES];
        let size = pokyandi::write(edition, &line[..count.unwrap()], &mut expected).unwrap();
        let made = run_with_input(&["make", "-", "-"], text.as_bytes());
        assert_eq!(
            (made.out.as_slice(), made.status),
            (&expected[..size], Some(0)),
            "{text}"
        );
        let found = made
            .words
            .lines()
            .filter(|words| !words.contains("warning"));
        assert_eq!(found.count(), 2 * points.len() - 3, "{}", made.words);
    }
}
