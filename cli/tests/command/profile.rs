//! Heights of profiles: every line is what the library answers, and none is missing.

use crate::run::{run, run_in_shell, run_with_input, samples, Folder, Run};
use crate::several::{counted, micrometres};
use pokyandi::HEIGHT_NUMBERS;
use std::collections::{BTreeMap, BTreeSet};
use std::fs;

/// The profile of `samples/profile.txt`.
const ROAD: &str = "\
speed 40
start 12+340.5km
height 845.250m
grade -3.5%
vertex 12+520km 4.25% 80m
vertex 13+140km -6% 120m
vertex 13+420km -1.5% 60m
";

const FAULTS: &str = include_str!("faulty_profiles.txt");

/// A profile in the library's numbers.
struct Road(Vec<i64>);

impl Road {
    fn sample() -> Road {
        let vertices = [
            [12_520_000, 42_500, 80_000],
            [13_140_000, -60_000, 120_000],
            [13_420_000, -15_000, 60_000],
        ];
        Road::of([40, 12_340_500, 845_250, -35_000], &vertices)
    }

    fn of(head: [i64; 4], vertices: &[[i64; 3]]) -> Road {
        Road([&head, vertices.as_flattened()].concat())
    }

    /// Up and down by 12 percent, from curve to curve without a straight grade.
    fn longest() -> Road {
        let vertex = |i: i64| {
            [
                500_000 + 1_000_000 * i,
                120_000 - 240_000 * (i % 2),
                1_000_000,
            ]
        };
        let vertices: Vec<[i64; 3]> = (0..32).map(vertex).collect();
        Road::of([40, 0, -10_000_000, -120_000], &vertices)
    }

    fn all() -> [Road; 7] {
        [
            Road::sample(),
            Road::longest(),
            // Without vertices, and one that falls below zero.
            Road::of([120, 200_000_000, 10_000_000, 0], &[]),
            Road::of([70, 7, 30, -10_000], &[[100_007, -10_000, 200_000]]),
            // The highest point is the middle; the lowest lies near the end.
            Road::of([40, 0, 0, 30_000], &[[60_000, -30_000, 120_000]]),
            Road::of([40, 0, 0, -120_000], &[[400_000, 1, 700_000]]),
            // A grade that ends at zero has its highest point in the end of the curve.
            Road::of([40, 0, -1, 30_000], &[[60_000, 0, 120_000]]),
        ]
    }

    fn text(&self) -> String {
        let percent = |grade: i64| {
            let sign = if grade < 0 { "-" } else { "" };
            let size = grade.abs();
            format!("{sign}{}.{:04}%", size / 10_000, size % 10_000)
        };
        let (head, vertices) = self.0.split_at(4);
        let grade = percent(head[3]);
        let mut text = format!(
            "speed {}\nstart {}mm\nheight {}mm\ngrade {grade}\n",
            head[0], head[1], head[2]
        );
        for vertex in vertices.chunks(3) {
            let grade = percent(vertex[1]);
            text += &format!("vertex {}mm {grade} {}mm\n", vertex[0], vertex[2]);
        }
        text
    }

    fn height(&self, station: i64) -> i64 {
        let mut height = [0; HEIGHT_NUMBERS];
        pokyandi::height(&self.0, station as u64, &mut height).unwrap();
        height[0]
    }

    /// The grades that meet at vertex i, from 0.
    fn grades(&self, i: usize) -> [i64; 2] {
        let before = if i == 0 { 3 } else { 3 * i + 2 };
        [self.0[before], self.0[3 * i + 5]]
    }

    fn curves(&self) -> Vec<[i64; 3]> {
        let vertices = self.0[4..].chunks(3);
        vertices
            .map(|vertex| {
                [
                    vertex[0] - vertex[2] / 2,
                    vertex[0],
                    vertex[0] + vertex[2] / 2,
                ]
            })
            .collect()
    }

    /// The names of the points at a station, but for the highest and lowest.
    fn points(&self, station: i64) -> Vec<&'static str> {
        let mut points = Vec::new();
        if station == self.0[1] {
            points.push("START");
        }
        for curve in self.curves() {
            let names = ["BVC", "MID", "EVC"].into_iter().zip(curve);
            points.extend(names.filter(|(_, at)| *at == station).map(|(name, _)| name));
        }
        points
    }

    fn element(&self, station: i64) -> (&'static str, usize) {
        let curves = self.curves();
        let begun = curves.iter().filter(|curve| curve[0] <= station).count();
        if begun == 0 || station >= curves[begun - 1][2] {
            return ("grade", begun);
        }
        let [incoming, outgoing] = self.grades(begun - 1);
        match incoming.cmp(&outgoing) {
            std::cmp::Ordering::Greater => ("crest", begun),
            std::cmp::Ordering::Equal => ("curve", begun),
            std::cmp::Ordering::Less => ("sag", begun),
        }
    }

    /// The highest or lowest stations of curves whose grades have different signs.
    fn extremes(&self) -> BTreeMap<i64, &'static str> {
        let mut extremes = BTreeMap::new();
        for (i, [begin, _, end]) in self.curves().into_iter().enumerate() {
            let [incoming, outgoing] = self.grades(i);
            if incoming.signum() * outgoing.signum() < 0 {
                let x = incoming as f64 * (end - begin) as f64 / (incoming - outgoing) as f64;
                let name = if incoming > 0 { "HIGH" } else { "LOW" };
                extremes.insert(begin + x.round() as i64, name);
            }
        }
        extremes
    }

    /// The stations of the list, each with the points there.
    fn expected(&self, every: i64) -> BTreeMap<i64, Vec<&'static str>> {
        let start = self.0[1];
        let end = self.curves().last().map_or(start, |curve| curve[2]);
        let multiples = (0..=end).step_by(every as usize);
        let mut stations: BTreeSet<i64> = multiples.filter(|mm| *mm >= start).collect();
        let extremes = self.extremes();
        stations.extend([start, end]);
        stations.extend(self.curves().into_iter().flatten());
        stations.extend(extremes.keys());
        let points_at = |station: i64| {
            let mut points = self.points(station);
            points.extend(extremes.get(&station));
            (station, points)
        };
        stations.into_iter().map(points_at).collect()
    }
}

/// mm of a height, `-0.001`.
fn millimetres(metres: &str) -> i64 {
    assert_eq!(metres.find('.'), metres.len().checked_sub(4), "{metres}");
    let mm: i64 = metres.replace('.', "").parse().unwrap();
    assert!(mm != 0 || !metres.starts_with('-'));
    mm
}

fn list_of(text: &str, options: &[&str]) -> Run {
    run_with_input(&[&["profile"], options].concat(), text.as_bytes())
}

fn check_row(road: &Road, cells: &[&str], station: i64, points: &[&str]) {
    assert_eq!(micrometres(cells[0]), 1_000 * station as u64);
    let mut named: Vec<&str> = cells[1].split(['=', '-']).collect();
    named.retain(|name| !name.is_empty());
    named.sort_unstable();
    let mut points = points.to_vec();
    points.sort_unstable();
    assert_eq!(named, points, "{station}");
    let (element, number) = road.element(station);
    assert_eq!(
        (cells[2], cells[3]),
        (element, &*number.to_string()),
        "{station}"
    );
    assert_eq!(millimetres(cells[4]), road.height(station), "{station}");
    assert_eq!(cells.len(), 5);
}

#[test]
fn every_line_is_the_library_s_and_none_is_missing() {
    for road in Road::all() {
        for (word, every) in [("20m", 20_000), ("7.3", 7_300), ("300+000km", 300_000_000)] {
            let expected = road.expected(every);
            let list = list_of(&road.text(), &["--every", word]);
            assert_eq!(
                (list.words.as_str(), list.status),
                ("", Some(0)),
                "{}",
                road.text()
            );
            let csv = list_of(&road.text(), &["--every", word, "--as", "csv"]).text();
            let list = list.text();
            for text in [&list, &csv] {
                assert_eq!(text.lines().count(), expected.len() + 1, "{text}");
            }
            let lines = list.lines().zip(csv.lines()).skip(1);
            for ((station, points), (line, csv)) in expected.iter().zip(lines) {
                let cells: Vec<&str> = line.split_whitespace().collect();
                check_row(&road, &cells, *station, points);
                let cells: Vec<&str> = csv.split(',').collect();
                assert_eq!(cells[0], "-");
                check_row(&road, &cells[1..], *station, points);
            }
        }
    }
}

#[test]
fn points_that_meet_have_one_line() {
    let points = |road: Road| -> Vec<String> {
        let list = list_of(&road.text(), &["--every", "900m"]).text();
        let cells = list
            .lines()
            .skip(1)
            .map(|line| line.split_whitespace().nth(1));
        cells.map(|point| point.unwrap().to_string()).collect()
    };
    let [_, _, alone, at_start, middle, near_end, flat] = Road::all();
    assert_eq!(points(alone), ["START"]);
    assert_eq!(points(at_start), ["START=BVC", "MID", "EVC"]);
    assert_eq!(points(middle), ["START=BVC", "MID=HIGH", "EVC"]);
    assert_eq!(points(near_end), ["START", "BVC", "MID", "LOW", "EVC"]);
    assert_eq!(points(flat), ["START=BVC", "MID", "EVC"]);
    let longest = points(Road::longest());
    assert_eq!(longest[..4], ["START=BVC", "MID=LOW", "-", "EVC=BVC"]);
    assert_eq!(longest.last().unwrap(), "EVC");
    let near = Road::of([40, 0, 0, 1], &[[100_000, -119_999, 59_998]]);
    assert_eq!(points(near), ["START", "BVC=HIGH", "MID", "EVC"]);
}

#[test]
fn every_form_has_the_same_lines() {
    let of_form = |form| run(&["profile", "--as", form, "profile.txt"]).text();
    let [metres, km, estaca] = ["metres", "km", "estaca"].map(of_form);
    let headings = [
        "       STATION(m) ",
        "      STATION(km) ",
        "  STATION(estaca) ",
    ];
    for (list, heading) in [&metres, &km, &estaca].into_iter().zip(headings) {
        assert!(list.starts_with(heading), "{list}");
    }
    let others = km.lines().zip(estaca.lines());
    for (metres, (km, estaca)) in metres.lines().zip(others).skip(1) {
        let [(metres, line), (km, line_1), (estaca, line_2)] =
            [metres, km, estaca].map(|line| line.split_at(17));
        assert_eq!([line_1, line_2], [line; 2]);
        let station = micrometres(metres.trim());
        assert_eq!(counted(km.trim(), 1_000), station);
        assert_eq!(counted(estaca.trim(), 20), station);
    }
}

#[test]
fn the_text_in_every_unit_and_from_standard_input() {
    let usual = run(&["profile", "profile.txt"]);
    assert_eq!((usual.words.as_str(), usual.status), ("", Some(0)));
    let other_units = ROAD
        .replace("12+340.5km", "617+0,5e")
        .replace("845.250m", "+845250")
        .replace("-3.5%", "−3,50000%")
        .replace("12+520km", "12520000mm")
        .replace("4.25% 80m", "+4.25% 80000")
        .replace("vertex", "VERTEX");
    let texts = [
        ROAD.to_string(),
        Road::sample().text(),
        other_units,
        ROAD.replace("speed 40", "\u{feff}speed 40km/h # slow\n\n"),
        ROAD.replace('\n', "\r\n"),
    ];
    for text in texts {
        assert_eq!(list_of(&text, &[]), usual, "{text}");
        assert_eq!(list_of(&text, &["--every=20", "-"]), usual, "{text}");
    }
}

#[test]
fn where_the_list_begins_and_ends() {
    let all = run(&["profile", "profile.txt"]).text();
    let part = run(&[
        "profile",
        "--from",
        "12+480km",
        "--to",
        "12560",
        "profile.txt",
    ])
    .text();
    let wanted =
        |line: &&str| line.contains("sag          1") || line.contains("EVC       grade        1");
    let lines: Vec<&str> = all.lines().filter(wanted).collect();
    assert_eq!(part.lines().skip(1).collect::<Vec<_>>(), lines);

    let last = |options: &[&str], text: &str| {
        let run = list_of(text, options);
        assert_eq!((run.words.as_str(), run.status), ("", Some(0)));
        run.text().lines().last().unwrap().to_string()
    };
    let one = ["--from=13+000km", "--to=13+000km"];
    assert_eq!(
        last(&one, ROAD),
        "     13000.000000 -         grade        1     859.367"
    );
    let far = ["--to=200+000km", "--every=1000m"];
    assert_eq!(
        last(&far, ROAD),
        "    200000.000000 -         grade        3   -1950.183"
    );
    // A curve may end beyond the last station that has a height.
    let at_the_end = ROAD.replace("13+420km", "200+000km");
    let end = last(&["--every=1000m"], &at_the_end);
    assert_eq!(
        end,
        "    200000.000000 MID       sag          3  -10345.945"
    );
}

#[test]
fn stations_outside_of_the_profile() {
    let range = "it may be 12+340.500 km to 200+000.000 km\n";
    for (option, found) in [
        ("--to=200000.001", "200+000.001 km"),
        ("--from=12+340.499km", "12+340.499 km"),
        ("--to=0", "0+000.000 km"),
        ("--from=999999999999", "999999999+999.000 km"),
    ] {
        let run = run(&["profile", option, "profile.txt"]);
        let words = format!("profile.txt: refused 17: the station is {found}; {range}");
        assert_eq!((&*run.words, run.status), (&*words, Some(1)), "{option}");
        assert_eq!(run.text(), "REFUSED 17 0\n");
    }
    for options in [&["--from=14000"][..], &["--from=13000", "--to=12999.999"]] {
        let run = list_of(ROAD, options);
        assert_eq!((run.status, run.out.len()), (Some(2), 0), "{options:?}");
        assert!(
            run.words.contains(": the list would begin at 1"),
            "{}",
            run.words
        );
    }
}

/// The text with this line, from 1, in place of its own, or behind it.
fn with_line(number: usize, line: &str) -> String {
    let mut lines: Vec<&str> = ROAD.lines().collect();
    lines.resize(lines.len().max(number), "");
    lines[number - 1] = line;
    lines.join("\n") + "\n"
}

/// What is printed beside words of a fault: number and place of a refusal, or nothing.
fn refused_line(words: &str) -> String {
    let Some((_, refusal)) = words.split_once(": refused ") else {
        return String::new();
    };
    let (refusal, _) = refusal.split_once(':').unwrap();
    let (number, place) = refusal.split_once(" at vertex ").unwrap_or((refusal, "0"));
    format!("REFUSED {number} {place}\n")
}

#[test]
fn faulty_texts() {
    let mut told = BTreeSet::new();
    for fault in FAULTS.lines().skip(1) {
        let [number, line, words] = fault.splitn(3, '|').collect::<Vec<_>>().try_into().unwrap();
        let run = list_of(&with_line(number.parse().unwrap(), line), &[]);
        assert_eq!(run.words, format!("standard input:{words}\n"));
        assert_eq!(
            (run.text(), run.status),
            (refused_line(words), Some(1)),
            "{words}"
        );
        assert!(told.insert(words), "two faults have the words: {words}");
    }
    assert!(told.len() >= 40, "{}", told.len());
}

#[test]
fn faulty_texts_as_a_whole() {
    let vertices = |n: usize| -> String {
        let vertex = |i| format!("vertex {}+000km 0% 200m\n", 14 + i);
        (0..n).map(vertex).collect()
    };
    assert_eq!(
        list_of(&format!("{ROAD}{}", vertices(29)), &[]).status,
        Some(0)
    );
    let sheet = fs::read(samples().join("stations/case-01.sheet")).unwrap();
    let cases: [(Vec<u8>, &str); 4] = [
        (
            vec![],
            "1: the text ends where speed is wanted, as in: speed 70",
        ),
        (
            sheet,
            "1: this is no text; if it is a sheet, pokyandi show prints its text",
        ),
        (
            fs::read(samples().join("line.txt")).unwrap(),
            "5: \"crossfall\" stands where start is wanted, as in: start 12+340.5km",
        ),
        (
            format!("{ROAD}{}", vertices(30)).into_bytes(),
            "37: vertex 43+000km 0% 200m: refused 3: the profile has 33 vertices; \
             it may have 32 at most: divide it on a straight grade",
        ),
    ];
    for (text, words) in cases {
        let run = run_with_input(&["profile"], &text);
        assert_eq!(run.words, format!("standard input:{words}\n"));
        assert_eq!((run.text(), run.status), (refused_line(words), Some(1)));
    }
}

#[test]
fn grades_that_no_curve_is_long_enough_for() {
    let text = "speed 120\nstart 0\nheight 0m\ngrade 12%\nvertex 5+000km -12% 2000m\n";
    let run = list_of(text, &[]);
    let words =
        "standard input:5: vertex 5+000km -12% 2000m: refused 23 at vertex 1: the crest is \
                 2000.000 m; sight needs more than 2000.000 m, by D² A / 412 with D = 310 m at \
                 120 km/h and A = 24.0000 %: take flatter grades or a lower speed\n";
    assert_eq!((&*run.words, run.status), (words, Some(1)));
    let slower = list_of(&text.replace("120", "60"), &[]);
    assert_eq!((slower.words.as_str(), slower.status), ("", Some(0)));
}

#[test]
fn values_that_are_probably_in_the_wrong_unit_get_a_warning() {
    let text = ROAD
        .replace("845.250m", "-845")
        .replace("4.25% 80m", "-3.5% 80")
        .replace("start 12+340.5km", "start 12341");
    let run = list_of(&text, &["--every", "2000", "--to", "12342m"]);
    let warning = "pokyandi: warning: --every 2000 is 2000.000 m; mm are written mm";
    let words: Vec<&str> = run.words.lines().collect();
    assert_eq!(
        words,
        [
            warning,
            "standard input:2: warning: start 12341 is 0+012.341 km; for metres write 12341m",
            "standard input:3: warning: height -845 is -0.845 m; for metres write -845m",
            "standard input:5: warning: length 80 is 0.080 m; for metres write 80m",
        ]
    );
    assert_eq!(run.status, Some(0));
    assert!(!list_of(&ROAD.replace("845.250m", "0"), &[])
        .words
        .contains("warning"));
}

#[test]
fn several_texts_in_one_run() {
    let folder = Folder::new();
    let good = folder.file("good.txt", ROAD.as_bytes());
    let short = folder.file("short.txt", ROAD.replace("120m", "40m").as_bytes());
    let faulty = folder.file("faulty.txt", b"speed 40\n");
    let list = format!(
        "{}\n{}\n{}\n{}\n",
        short.display(),
        faulty.display(),
        folder.path("none.txt").display(),
        good.display()
    );
    let list = folder.file("list", list.as_bytes());
    let [options, csv] = [&["--every=9+0km"][..], &["--every=9+0km", "--as=csv"]];
    let of_list = |options: &[&str]| {
        let list = format!("--list={}", list.display());
        run(&[&["profile", &list], options].concat())
    };
    let alone = run(&["profile", "--every=9+0km", good.to_str().unwrap()]).text();
    let all = of_list(options);
    assert_eq!(all.status, Some(2));
    let names = [&short, &good].map(|path| path.display());
    let expected = format!(
        "TEXT {}\nREFUSED 23 2\nTEXT {}\n{alone}",
        names[0], names[1]
    );
    assert_eq!(all.text(), expected);
    let told = [
        "short.txt:6: vertex 13+140km -6% 40m: refused 23 at vertex 2: ",
        "faulty.txt:1: the text ends where start is wanted",
        "none.txt: No such file",
    ];
    assert_eq!(all.words.lines().count(), told.len());
    for (words, told) in all.words.lines().zip(told) {
        assert!(words.contains(told), "{words}");
    }
    let csv = of_list(csv).text();
    let rows: Vec<&str> = csv.lines().collect();
    assert_eq!(rows[0], "text,station(m),point,element,number,height(m)");
    assert_eq!(rows[1], format!("{},,REFUSED 23 2,,,", names[0]));
    assert_eq!(rows.len(), 2 + alone.lines().count() - 1);
}

#[test]
fn a_list_that_would_be_too_long() {
    let run = run(&["profile", "--every=1mm", "profile.txt"]);
    let words = "pokyandi: profile.txt: more than 1000000 distances; \
                 --every may be 0.002 m or more here\n";
    assert_eq!(
        (&*run.words, run.status, run.out.len()),
        (words, Some(2), 0)
    );
    let line = "ulimit -v 16384; pokyandi profile --every 2mm profile.txt | wc -l";
    let run = run_in_shell(&samples(), line);
    assert_eq!((run.words.as_str(), run.status), ("", Some(0)));
    // Between start and end in steps of 2 mm, the heading and the lowest point.
    assert_eq!(run.text().trim(), "554753");
}
