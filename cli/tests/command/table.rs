//! The unit spiral table, and spirals that are looked up in it.

use crate::run::{run, run_in_shell, samples};
use std::fs;

/// Row, x and y of every line of the stored table.
fn stored_rows() -> Vec<[u64; 3]> {
    let text = fs::read_to_string(samples().join("unit_spiral.txt")).unwrap();
    let number = |word: &str| word.parse().unwrap();
    let row = |line: &str| -> Vec<u64> { line.split(' ').map(number).collect() };
    let rows = text.lines().map(|line| row(line).try_into().unwrap());
    rows.collect()
}

/// A row as it should be printed: its number, the angle, x and y.
fn fields([row, x, y]: [u64; 3]) -> [String; 4] {
    let ratio = |n: u64| format!("{}.{:09}", n / 1_000_000_000, n % 1_000_000_000);
    [row.to_string(), format!("0.{row:03}"), ratio(x), ratio(y)]
}

/// What is printed for these arguments, which are accepted.
fn printed(arguments: &[&str]) -> String {
    let run = run(arguments);
    assert_eq!(
        (run.status, run.words.as_str()),
        (Some(0), ""),
        "{arguments:?}"
    );
    run.text()
}

#[test]
fn rows_as_people_read_them() {
    let text = printed(&["table"]);
    let lines: Vec<&str> = text.lines().collect();
    assert_eq!(lines.len(), 502);
    assert_eq!(lines[0], "THOUSANDTH ANGLE(rad)           x           y");
    let rows = [
        (0, "         0      0.000 1.000000000 0.000000000"),
        (1, "         1      0.001 0.999999900 0.000333333"),
        (250, "       250      0.250 0.993768058 0.082962049"),
        (499, "       499      0.499 0.975385294 0.163398402"),
        (500, "       500      0.500 0.975287682 0.163714150"),
    ];
    for (row, line) in rows {
        assert_eq!(lines[1 + row], line);
    }
}

#[test]
fn every_row_is_the_stored_one() {
    let rows = stored_rows();
    assert_eq!(rows.len(), 501);
    let people = printed(&["table"]);
    let csv = printed(&["table", "--as", "csv"]);
    assert_eq!(csv.lines().next(), Some("thousandth,angle(rad),x,y"));
    assert_eq!([people.lines().count(), csv.lines().count()], [502; 2]);
    let lines = people.lines().zip(csv.lines()).skip(1);
    for (row, (people, csv)) in rows.into_iter().zip(lines) {
        let fields = fields(row);
        assert!(people.split_whitespace().eq(&fields), "{people}");
        assert_eq!(csv, fields.join(","));
    }
}

#[test]
fn a_spiral_that_is_looked_up() {
    let heading = "THOUSANDTH ANGLE(rad)   LENGTH(m)        X(m)        Y(m)\n";
    let row = "       250      0.250      80.000   79.501445    6.636964\n";
    for length in ["80", "80m", "80,000", "80000mm", "0+080km", "4+0e"] {
        let text = printed(&["table", "250", length]);
        assert_eq!(text, format!("{heading}{row}"), "{length}");
    }
    let cases = [
        (["0", "500m"], "0,0.000,500.000,500.000000,0.000000"),
        (["500", "500m"], "500,0.500,500.000,487.643841,81.857075"),
        (["500", "0"], "500,0.500,0.000,0.000000,0.000000"),
        (["500", "1mm"], "500,0.500,0.001,0.000975,0.000164"),
    ];
    for ([thousandth, length], row) in cases {
        let text = printed(&["table", "--as", "csv", thousandth, length]);
        let heading = "thousandth,angle(rad),length(m),X(m),Y(m)";
        assert_eq!(text, format!("{heading}\n{row}\n"));
    }
}

/// The ramp has L = R = 60 m, curve 5 of the mountain road L = 40 m and R = 100 m.
#[test]
fn a_spiral_is_as_in_the_elements() {
    for (text, spiral) in [("ramp.txt", "500 60m"), ("mountain.txt", "200 40m")] {
        let line = format!("pokyandi make {text} - | pokyandi elements /dev/stdin");
        let elements = run_in_shell(&samples(), &format!("{line} | grep -B 1 STRAIGHT"));
        let elements = elements.text();
        let [_, x, y] = [0, 1, 2].map(|i| elements.split_whitespace().nth(i).unwrap());
        let looked_up = run_in_shell(&samples(), &format!("pokyandi table {spiral}"));
        let looked_up = looked_up.text();
        assert!(looked_up.split_whitespace().rev().take(2).eq([y, x]));
    }
}

#[test]
fn spirals_that_are_refused() {
    let angle = |found| {
        format!(
            "table: refused 25: the spiral angle is {found} thousandths of a radian; \
             it may be 0 to 500, by L / 2R of a spiral that is no longer than the radius\n"
        )
    };
    let length = |found| {
        format!("table: refused 11: the spiral is {found}; it may be 0.000 m to 500.000 m\n")
    };
    let cases = [
        (["501", "80m"], "25", angle("501")),
        (["501", "501m"], "25", angle("501")),
        (["4294967296", "80m"], "25", angle("4294967296")),
        (["500", "500.001m"], "11", length("500.001 m")),
        (["0", "4294967.296"], "11", length("4294967.296 m")),
    ];
    for ([thousandth, long], number, words) in cases {
        let people = run(&["table", thousandth, long]);
        assert_eq!(people.text(), format!("REFUSED {number} 0\n"));
        let csv = run(&["table", thousandth, long, "--as=csv"]);
        let heading = "thousandth,angle(rad),length(m),X(m),Y(m)";
        assert_eq!(csv.text(), format!("{heading}\nREFUSED {number} 0,,,,\n"));
        for run in [people, csv] {
            assert_eq!((run.status, run.words), (Some(1), words.clone()));
        }
    }
}
