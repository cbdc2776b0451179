//! Calls for a height: counts, every field on both sides of its limits, curves that
//! touch and that overlap, lengths that sight needs, stations at the ends of every
//! curve, heights where the rounding counts, each refusal at several places, several
//! faults at once, and rooms.

use super::call_edges::{first_of, Fault};
use super::dice::Dice;
use super::named::{named, Claim, Named};
use super::profiles::{least_length, random_profile, twice_factor};
use crate::profile::{
    Profile, Vertex, GREATEST_GRADE, GREATEST_HEIGHT, GREATEST_LENGTH, MOST_VERTICES, STATIONS,
};
use crate::road_tables::SPEEDS;
use crate::sight::stopping_distance;
use std::collections::BTreeSet;

/// A profile in numbers, a station and the room that is lent.
#[derive(Clone, Debug)]
pub struct ProfileCall {
    pub profile: Vec<i64>,
    pub station: u64,
    pub room: usize,
}

/// All of them.
pub fn edges(dice: &mut Dice) -> Vec<Named<ProfileCall>> {
    [
        count_edges(),
        speed_edges(),
        field_edges(),
        wide_numbers(),
        length_edges(),
        neighbour_edges(),
        sight_edges(),
        level_curves(),
        station_edges(dice),
        rounding_edges(),
        room_edges(),
        faults_at_every_place(),
        several_faults(),
        faults_of_33(),
    ]
    .concat()
}

/// Greatest station, mm.
const END: i64 = *STATIONS.end();
/// Grades of [`waves`] up and down.
const GRADE: i64 = 60_000;
/// Lengths of its curves, and the way from vertex to vertex: long enough for sight
/// at 40 km/h whatever the grades are.
const LENGTH: i64 = 200_000;
const WAY: i64 = 500_000;
const START: i64 = 1_000_000;

/// Crests and sags in turn, at 40 km/h, however many.
pub fn waves(n: usize) -> Profile {
    let vertices = (1..=n).map(|i| Vertex {
        station: START + WAY * i as i64,
        grade: if i % 2 == 0 { GRADE } else { -GRADE },
        length: LENGTH,
    });
    Profile {
        v: 40,
        start: START,
        height: -1_234_567,
        grade: GRADE,
        vertices: vertices.collect(),
    }
}

/// 2 % up and 3 % down on a curve of 100 m.
pub fn crest() -> Profile {
    one_curve(40, [20_000, -30_000], 100_000)
}

/// One curve, 2 km and half its length behind the start.
fn one_curve(v: i64, [incoming, outgoing]: [i64; 2], length: i64) -> Profile {
    Profile {
        v,
        start: 0,
        height: 0,
        grade: incoming,
        vertices: vec![Vertex {
            station: 2_000_000 + length / 2,
            grade: outgoing,
            length,
        }],
    }
}

/// A call with room for the height, refused with this number at this place or
/// accepted (0).
fn edge(
    name: impl ToString,
    (number, place): Fault,
    profile: Vec<i64>,
    station: u64,
) -> Named<ProfileCall> {
    let call = ProfileCall {
        profile,
        station,
        room: 1,
    };
    named(name, Claim::accepted_or(number, place), call)
}

/// The height at the end of the first curve, or at the start; far away where the
/// profile has no such station.
fn at_first_end(profile: &Profile) -> u64 {
    let first = profile.vertices.first();
    let station = first.map_or(profile.start, |v| v.station.saturating_add(v.length / 2));
    u64::try_from(station).unwrap_or(u64::MAX)
}

/// The call for [`at_first_end`].
fn profile_edge(name: impl ToString, fault: Fault, profile: &Profile) -> Named<ProfileCall> {
    edge(name, fault, profile.numbers(), at_first_end(profile))
}

/// From no numbers to far too many.
fn count_edges() -> Vec<Named<ProfileCall>> {
    let numbers = waves(400).numbers();
    let counts = (0..=14).chain(94..=107).chain([200, 202, 1_000]);
    let edges = counts.map(|count| {
        let whole = count % 3 == 1 && (4..=100).contains(&count);
        let fault = if whole { (0, 0) } else { (3, 0) };
        let numbers = numbers[..count].to_vec();
        edge(format!("{count} numbers"), fault, numbers, START as u64)
    });
    edges.collect()
}

/// What a number of a profile is, with the refusal of one that is out of range.
fn field_of(index: usize) -> (&'static str, Fault) {
    let vertex = index.saturating_sub(1) / 3;
    match index {
        0 => ("V", (4, 0)),
        1 => ("start", (6, 0)),
        2 => ("start height", (6, 0)),
        3 => ("first grade", (22, 0)),
        _ if index % 3 == 1 => ("station", (6, 0)),
        _ if index % 3 == 2 => ("grade", (22, vertex)),
        _ => ("length", (21, vertex)),
    }
}

/// The profile with another number at an index.
fn with_number(profile: &Profile, index: usize, number: i64) -> Vec<i64> {
    let mut numbers = profile.numbers();
    numbers[index] = number;
    numbers
}

/// Every fifth speed and those next to the limits, with no vertex and with one
/// whose grades are equal, so that no sight is missed.
fn speed_edges() -> Vec<Named<ProfileCall>> {
    let speeds = || (30..=130).step_by(5).chain([0, 1, 39, 41, 119, 121, -40]);
    let mut edges = Vec::new();
    for n in [0, 1] {
        for v in speeds() {
            let mut profile = Profile { v, ..waves(n) };
            for vertex in &mut profile.vertices {
                vertex.grade = GRADE;
            }
            let known = v % 10 == 0 && (40..=120).contains(&v);
            let fault = if known { (0, 0) } else { (4, 0) };
            edges.push(profile_edge(
                format!("{n} vertices, V {v}"),
                fault,
                &profile,
            ));
        }
    }
    edges
}

/// Start, start height, grades and the stations of vertices at their limits and next
/// to them, with no vertex and with one.
fn field_edges() -> Vec<Named<ProfileCall>> {
    let mut edges = Vec::new();
    for profile in [waves(0), waves(1)] {
        let n = profile.vertices.len();
        let mut add = |index: usize, number: i64, accepted: bool| {
            let (field, fault) = field_of(index);
            let name = format!("{n} vertices, {field} {number}");
            let fault = if accepted { (0, 0) } else { fault };
            let numbers = with_number(&profile, index, number);
            edges.push(edge(name, fault, numbers, (START + WAY / 2) as u64));
        };
        for start in [0, START + WAY / 2] {
            add(1, start, n == 0 || start < START + WAY - LENGTH / 2);
        }
        for start in [-1, END + 1] {
            add(1, start, false);
        }
        for height in [-GREATEST_HEIGHT, GREATEST_HEIGHT, 0] {
            add(2, height, true);
        }
        for height in [-GREATEST_HEIGHT - 1, GREATEST_HEIGHT + 1] {
            add(2, height, false);
        }
        for index in [3, 5].into_iter().filter(|index| *index < 4 + 3 * n) {
            for grade in [-GREATEST_GRADE, GREATEST_GRADE, 0, 1, -1] {
                add(index, grade, true);
            }
            for grade in [-GREATEST_GRADE - 1, GREATEST_GRADE + 1] {
                add(index, grade, false);
            }
        }
        if n == 1 {
            add(4, END, true);
            add(4, END - 1, true);
            add(4, END + 1, false);
            add(4, -1, false);
        }
    }
    let at_the_end = Profile {
        start: END,
        ..waves(0)
    };
    edges.push(profile_edge("start at the end", (0, 0), &at_the_end));
    edges
}

/// In every place of profiles with none, one and 32 vertices, numbers far beyond
/// every limit, and the profile's own with a higher bit, which would fit if it were
/// cut to 32 bits.
fn wide_numbers() -> Vec<Named<ProfileCall>> {
    let mut edges = Vec::new();
    for profile in [waves(0), waves(1), waves(MOST_VERTICES)] {
        let n = profile.vertices.len();
        for (index, own) in profile.numbers().into_iter().enumerate() {
            let numbers = [i64::MIN, i64::MAX, own + (1 << 32), own - (1 << 32)];
            for number in numbers {
                let (field, fault) = field_of(index);
                let name = format!("{field} of {n} vertices at {index} {number}");
                let numbers = with_number(&profile, index, number);
                edges.push(edge(name, fault, numbers, START as u64));
            }
        }
    }
    edges
}

/// Lengths at the limits, of the only vertex and of each of three.
fn length_edges() -> Vec<Named<ProfileCall>> {
    let lengths = [
        (-2, 21),
        (-1, 21),
        (0, 21),
        (1, 21),
        (2, 0),
        (3, 21),
        (4, 0),
        (GREATEST_LENGTH - 2, 0),
        (GREATEST_LENGTH - 1, 21),
        (GREATEST_LENGTH, 0),
        (GREATEST_LENGTH + 1, 21),
        (GREATEST_LENGTH + 2, 21),
    ];
    let mut edges = Vec::new();
    for (n, place) in [(1, 1), (3, 1), (3, 2), (3, 3)] {
        for (length, number) in lengths {
            let mut profile = waves(n);
            for (i, vertex) in profile.vertices.iter_mut().enumerate() {
                vertex.station = START + 3_000_000 * (i as i64 + 1);
                vertex.grade = GRADE;
            }
            profile.vertices[place - 1].length = length;
            let name = format!("length {length} at {place} of {n} vertices");
            edges.push(profile_edge(name, (number, place), &profile));
        }
    }
    edges
}

/// Curves that begin at the start and before it, touch and overlap, vertices in the
/// wrong order, and the last curve about the greatest station.
fn neighbour_edges() -> Vec<Named<ProfileCall>> {
    let mut edges = Vec::new();
    let mut add = |name: &str, (number, place): Fault, edit: &dyn Fn(&mut Profile)| {
        let mut profile = waves(3);
        edit(&mut profile);
        edges.push(profile_edge(name, (number, place), &profile));
    };
    let touching = WAY - LENGTH;
    for by in [-1, 0, 1] {
        let number = if by < 0 { 21 } else { 0 };
        add(
            &format!("curve {by} mm behind the start"),
            (number, 1),
            &|profile| {
                profile.start = profile.vertices[0].begin() - by;
            },
        );
        for place in [2, 3] {
            let name = format!("curve {by} mm behind the one before it at {place}");
            add(&name, (number, place), &|profile| {
                for vertex in &mut profile.vertices[place - 1..] {
                    vertex.station += by - touching;
                }
            });
        }
        let all = format!("all curves {by} mm behind the one before");
        add(&all, (number, 2), &|profile| {
            for (i, vertex) in profile.vertices.iter_mut().enumerate() {
                vertex.station += i as i64 * (by - touching);
            }
        });
        add(
            &format!("end of the last curve {by} mm behind the greatest station"),
            (0, 0),
            &|p| {
                p.vertices[2].station = END - LENGTH / 2 + by;
            },
        );
    }
    add("vertices at one station", (21, 2), &|profile| {
        profile.vertices[1].station = profile.vertices[0].station;
    });
    add("vertices exchanged", (21, 2), &|profile| {
        profile.vertices.swap(0, 1)
    });
    add("vertex at the start", (21, 1), &|profile| {
        profile.vertices[0].station = START;
    });
    add("vertex before the start", (21, 1), &|profile| {
        profile.vertices[0].station = START - 1;
    });
    add("vertex at 0, start at 0", (21, 1), &|profile| {
        profile.start = 0;
        profile.vertices[0].station = 0;
    });
    add("last vertex at the greatest station", (0, 0), &|profile| {
        profile.vertices[2].station = END;
    });
    add(
        "longest curve at the greatest station",
        (0, 0),
        &|profile| {
            profile.vertices[2].station = END;
            profile.vertices[2].length = GREATEST_LENGTH;
        },
    );
    edges
}

/// First case where the stopping distance is at most the length, else second.
#[derive(Clone, Copy, Debug, PartialEq, Eq)]
enum Case {
    First,
    Second,
}

/// The smallest and the greatest size of g, millionths, for which the least length is
/// an even number of mm exactly, in this case, with these lengths. `sign` is that of
/// g.
fn exact_lengths(v: i64, sign: i64, case: Case) -> BTreeSet<(i64, i64)> {
    let d = stopping_distance(v).expect("a design speed");
    let factor = i64::try_from(twice_factor(d, sign)).expect("a factor is small");
    let d = i64::try_from(d).expect("a distance is short");
    // Where the length is the stopping distance, in both cases.
    let between_cases = 5_000 * factor / d;
    let sizes = match case {
        Case::First => between_cases..=2 * GREATEST_GRADE,
        Case::Second => between_cases / 2..=between_cases,
    };
    let mut exact = sizes.filter_map(|size| {
        let (upper, lower) = match case {
            Case::First => (d * d * size, 5 * factor),
            Case::Second => (2_000 * d * size - 5_000_000 * factor, size),
        };
        let length = upper / lower;
        let of_the_case = (1_000 * d <= length) == (case == Case::First);
        let even = upper % (2 * lower) == 0;
        let in_range = (4..=GREATEST_LENGTH).contains(&length);
        (even && of_the_case && in_range).then_some((size, length))
    });
    let ends = [exact.next(), exact.next_back()];
    ends.into_iter().flatten().collect()
}

/// What sight needs and 2 mm less: at every speed, on crests and in sags, in either
/// case, exactly, for the smallest and the greatest change of grade that has such a
/// length; and rounded up to 2 mm, for some changes.
fn sight_edges() -> Vec<Named<ProfileCall>> {
    let mut edges = Vec::new();
    for v in SPEEDS.map(|speed| i64::from(speed.v)) {
        for (side, sign) in [("crest", 1), ("sag", -1)] {
            let mut tried = BTreeSet::new();
            for case in [Case::First, Case::Second] {
                for (size, length) in exact_lengths(v, sign, case) {
                    let name = format!("{side} at {v}, {case:?} case exactly");
                    edges.extend(about_length(&name, v, sign * size, length));
                    tried.insert(size);
                }
            }
            for size in [10_000, 33_333, 77_777, 120_000, 2 * GREATEST_GRADE] {
                let least = least_length(v, sign * size);
                if (4..=GREATEST_LENGTH).contains(&least) && tried.insert(size) {
                    let name = format!("{side} at {v}");
                    edges.extend(about_length(&name, v, sign * size, least));
                }
            }
        }
    }
    edges
}

/// A curve of the least length, and one that is 2 mm shorter.
fn about_length(name: &str, v: i64, g: i64, least: i64) -> [Named<ProfileCall>; 2] {
    [(least, 0), (least - 2, 23)].map(|(length, number)| {
        let incoming = g / 2;
        let profile = one_curve(v, [incoming, incoming - g], length);
        let name = format!("{name}, change of {g}, length {length}");
        profile_edge(name, (number, 1), &profile)
    })
}

/// Grades that do not change, or hardly, with the shortest and the longest curve.
fn level_curves() -> Vec<Named<ProfileCall>> {
    let mut edges = Vec::new();
    for v in SPEEDS.map(|speed| i64::from(speed.v)) {
        for (grades, length) in [
            ([0, 0], 2),
            ([GREATEST_GRADE; 2], 2),
            ([-GREATEST_GRADE; 2], GREATEST_LENGTH),
            ([1, 0], 2),
            ([0, 1], 2),
        ] {
            let name = format!("grades {grades:?} at {v}, length {length}");
            edges.push(profile_edge(name, (0, 0), &one_curve(v, grades, length)));
        }
    }
    edges
}

/// Stations that no profile reaches.
const BEYOND: [u64; 4] = [1 << 32, 1 << 63, u64::MAX - 1, u64::MAX];

/// Start, beginning, vertex and end of every curve, with 1 mm less and more, the
/// greatest station, and what lies outside.
fn station_edges(dice: &mut Dice) -> Vec<Named<ProfileCall>> {
    let touching = {
        let mut profile = waves(MOST_VERTICES);
        for (i, vertex) in profile.vertices.iter_mut().enumerate() {
            vertex.station = START + LENGTH / 2 + LENGTH * i as i64;
        }
        profile
    };
    let last_beyond = {
        let mut profile = waves(2);
        profile.vertices[1].station = END;
        profile
    };
    let profiles = [
        ("no vertex", waves(0)),
        ("crest", crest()),
        ("sag", one_curve(70, [-45_678, 12_345], 398_764)),
        ("shortest curve", one_curve(120, [-1, 1], 2)),
        ("waves", waves(MOST_VERTICES)),
        ("touching curves", touching),
        ("curve that ends beyond", last_beyond),
        ("random profile", random_profile(dice, MOST_VERTICES)),
    ];
    let of_profile = |(name, profile)| stations_of(name, &profile);
    profiles.into_iter().flat_map(of_profile).collect()
}

fn stations_of(name: &str, profile: &Profile) -> Vec<Named<ProfileCall>> {
    let ends = profile.vertices.iter();
    let ends = ends.flat_map(|v| [v.begin(), v.station, v.end()]);
    let near = ends.chain([profile.start, END, 0]);
    let near = near.flat_map(|station| [station - 1, station, station + 1]);
    let near = near.filter_map(|station| u64::try_from(station).ok());
    let stations: BTreeSet<u64> = near.chain(BEYOND).collect();
    let accepted = profile.start as u64..=END as u64;
    let edges = stations.into_iter().map(|station| {
        let inside = accepted.contains(&station);
        let fault = if inside { (0, 0) } else { (17, 0) };
        edge(
            format!("{name}, station {station}"),
            fault,
            profile.numbers(),
            station,
        )
    });
    edges.collect()
}

/// Stations at which the exact height is a whole mm, half a mm, or lies next to a
/// whole one, above zero and below it; on a grade, on curves, and behind vertices
/// whose heights are no whole mm.
fn rounding_edges() -> Vec<Named<ProfileCall>> {
    let mut edges = Vec::new();
    for grade in [1, -1] {
        let profile = Profile {
            start: 7,
            height: 0,
            grade,
            ..waves(0)
        };
        let name = format!("grade {grade} from height 0");
        for way in [
            0, 1, 499_999, 500_000, 500_001, 999_999, 1_000_000, 1_000_001,
        ] {
            let name = format!("{name}, {way} mm from the start");
            edges.push(edge(name, (0, 0), profile.numbers(), 7 + way));
        }
    }
    // Each vertex lies a fraction of a mm higher or lower than a whole one.
    for grade in [1, -1] {
        let mut profile = waves(MOST_VERTICES);
        (profile.height, profile.grade) = (0, grade);
        for vertex in &mut profile.vertices {
            (vertex.grade, vertex.station) = (grade, vertex.station + 1);
        }
        for vertex in [1, 2, 3, MOST_VERTICES] {
            let station = profile.vertices[vertex - 1].end() as u64 + 100_000;
            let name = format!("grade {grade} throughout, behind vertex {vertex}");
            edges.push(edge(name, (0, 0), profile.numbers(), station));
        }
    }
    for (name, grades) in [
        ("crest", [20_001, -30_003]),
        ("sag", [-20_001, 30_003]),
        ("summit of a fall", [-11_111, -44_444]),
        ("foot of a climb", [11_111, 44_444]),
    ] {
        for height in [100_000, 0, -100_000] {
            let mut profile = one_curve(40, grades, 60_000);
            profile.height = height;
            let name = format!("{name} from height {height}");
            edges.extend(nearest_to_whole(&name, &profile));
        }
    }
    edges
}

/// The stations in the first 4 m of the first curve whose height is the nearest above
/// and below a whole mm, and a half.
fn nearest_to_whole(name: &str, profile: &Profile) -> Vec<Named<ProfileCall>> {
    let curve = profile.vertices[0];
    let remainder = |station: i64| {
        let (upper, lower) = profile.exact_height(station);
        (upper.rem_euclid(lower), lower)
    };
    let from_half = |station: &i64| {
        let (remainder, lower) = remainder(*station);
        (2 * remainder - lower).abs()
    };
    let inside = || curve.begin() + 1..curve.begin() + 4_000;
    let found = [
        inside().min_by_key(|station| remainder(*station).0),
        inside().max_by_key(|station| remainder(*station).0),
        inside().min_by_key(from_half),
    ];
    let stations: BTreeSet<i64> = found.into_iter().flatten().collect();
    let edges = stations.into_iter().map(|station| {
        let name = format!("{name}, station {station}");
        edge(name, (0, 0), profile.numbers(), station as u64)
    });
    edges.collect()
}

/// Too small, exact, and larger.
fn room_edges() -> Vec<Named<ProfileCall>> {
    let mut edges = Vec::new();
    for n in [0, 1, MOST_VERTICES] {
        for room in 0..=3 {
            let number = if room == 0 { 16 } else { 0 };
            let mut room_edge =
                profile_edge(format!("{n} vertices, room {room}"), (number, 0), &waves(n));
            room_edge.sample.room = room;
            edges.push(room_edge);
        }
    }
    edges
}

/// Waves with these faults, the height asked at the start.
fn faulty_call(n: usize, faults: &[Fault]) -> Named<ProfileCall> {
    let has = |number, place| faults.contains(&(number, place));
    let mut profile = waves(n);
    if has(4, 0) {
        profile.v = 75;
    }
    if has(6, 0) {
        profile.height = GREATEST_HEIGHT + 1;
    }
    if has(22, 0) {
        profile.grade = GREATEST_GRADE + 1;
    }
    for (i, vertex) in profile.vertices.iter_mut().enumerate() {
        let place = i + 1;
        if has(22, place) {
            vertex.grade = -GREATEST_GRADE - 1;
        }
        if has(23, place) {
            vertex.length = 2;
        }
        // Odd.
        vertex.length += i64::from(has(21, place));
    }
    let mut numbers = profile.numbers();
    if has(3, 0) {
        numbers.push(0);
    }
    let call = ProfileCall {
        profile: numbers,
        station: (START - i64::from(has(17, 0))) as u64,
        room: usize::from(!has(16, 0)),
    };
    named(faulty_name(n, faults), first_of(faults), call)
}

fn faulty_name(n: usize, faults: &[Fault]) -> String {
    let faults: Vec<String> = faults
        .iter()
        .map(|(number, place)| format!("fault {number} at {place}"))
        .collect();
    format!("waves of {n} vertices, {}", faults.join(", "))
}

/// Each refusal with a place at every place of five vertices, and at the last of 32.
fn faults_at_every_place() -> Vec<Named<ProfileCall>> {
    let mut edges = Vec::new();
    for number in [22, 21, 23] {
        let first = usize::from(number != 22);
        for place in first..=5 {
            edges.push(faulty_call(5, &[(number, place)]));
        }
        edges.push(faulty_call(MOST_VERTICES, &[(number, MOST_VERTICES)]));
    }
    for number in [3, 4, 6, 17, 16] {
        edges.push(faulty_call(5, &[(number, 0)]));
    }
    edges
}

/// The refusals in the order of the checks.
const ORDER: [u8; 8] = [3, 4, 6, 22, 21, 23, 17, 16];

fn has_place(number: u8) -> bool {
    (21..=23).contains(&number)
}

/// Every two refusals, the later in the order standing before the other, at the same
/// vertex and behind it; the same refusal twice; and all at once.
fn several_faults() -> Vec<Named<ProfileCall>> {
    let mut pairs: Vec<Vec<Fault>> = Vec::new();
    let at = |number: u8, place: usize| (number, if has_place(number) { place } else { 0 });
    for (i, first) in ORDER.into_iter().enumerate() {
        for later in ORDER.into_iter().skip(i + 1) {
            for (place, other) in [(4, 1), (2, 2), (1, 4)] {
                pairs.push(vec![at(first, place), at(later, other)]);
            }
        }
        if has_place(first) {
            pairs.push(vec![at(first, 2), at(first, 4)]);
        }
        pairs.push(ORDER[i..].iter().map(|number| at(*number, 3)).collect());
    }
    pairs.push(vec![(22, 0), (22, 1)]);
    for number in [21, 23] {
        pairs.push(vec![(22, 0), (number, 1)]);
    }
    let mut seen = BTreeSet::new();
    pairs.retain(|pair| pair.len() > 1 && seen.insert(pair.clone()));
    pairs.iter().map(|faults| faulty_call(5, faults)).collect()
}

/// One vertex more than there may be, beside every other fault.
fn faults_of_33() -> Vec<Named<ProfileCall>> {
    let n = MOST_VERTICES + 1;
    let others = ORDER.into_iter().skip(1);
    let edges = others.map(|number| {
        let place = if has_place(number) { 1 } else { 0 };
        Named {
            claim: Claim::of(3, 0),
            ..faulty_call(n, &[(number, place)])
        }
    });
    edges.collect()
}

#[cfg(test)]
mod tests {
    use super::*;
    use crate::profile::height;

    fn all() -> Vec<Named<ProfileCall>> {
        edges(&mut Dice::new(1))
    }

    #[test]
    fn each_is_answered_as_claimed() {
        for edge in all() {
            let ProfileCall {
                profile,
                station,
                room,
            } = &edge.sample;
            let answer = height(profile, *station, &mut vec![0; *room]);
            assert!(edge.holds(&ORDER, &answer), "{}: {answer:?}", edge.name);
        }
    }

    #[test]
    fn names_differ() {
        let mut names = BTreeSet::new();
        for edge in all() {
            assert!(names.insert(edge.name.clone()), "{} twice", edge.name);
        }
    }

    #[test]
    fn every_refusal_is_claimed() {
        let claimed: BTreeSet<u8> = all()
            .iter()
            .filter_map(|edge| match edge.claim {
                Claim::Refused(refusal) => Some(refusal.number),
                _ => None,
            })
            .collect();
        assert_eq!(claimed, ORDER.into_iter().collect());
    }

    /// Each speed has exact lengths in both cases, on crests and in sags; at 50 km/h
    /// one is the stopping distance.
    #[test]
    fn exact_lengths_of_every_kind() {
        for v in SPEEDS.map(|speed| i64::from(speed.v)) {
            for sign in [1, -1] {
                for case in [Case::First, Case::Second] {
                    let exact = exact_lengths(v, sign, case);
                    assert!(!exact.is_empty(), "{v} {sign} {case:?}");
                }
            }
        }
        let at_50 = exact_lengths(50, 1, Case::First);
        assert_eq!(at_50.first(), Some(&(64_375, 64_000)));
    }
}
