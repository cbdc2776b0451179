//! Why a profile is refused, in words: the value that was found, the limit that it
//! misses, and the formula behind it.

use super::field::{station, ProfileField};
use super::{Profile, Vertex};
use crate::limits;
use crate::quantity::{metres_of_signed_mm, percent};
use pokyandi::{Reason, Refusal};

/// Why a profile is refused, in one sentence.
pub fn of_profile(profile: &Profile, refusal: Refusal) -> String {
    let place = refusal.place as usize;
    let found = match refusal.reason {
        Reason::CurveCount => too_many(profile.vertex_count()),
        Reason::Speed => ProfileField::Speed.missed(profile.speed()),
        Reason::Start => out_of_range(profile),
        Reason::Grade => ProfileField::Grade.missed(profile.grade(place)),
        Reason::VerticalCurve => no_curve(profile, place),
        Reason::Sight => short_curve(profile.speed(), profile.vertex(place)),
        other => other.words().to_string(),
    };
    headed(refusal, found)
}

/// Why a station of a profile is refused, in one sentence.
pub fn of_station(profile: &Profile, mm: u64, refusal: Refusal) -> String {
    let found = station(mm.try_into().unwrap_or(i64::MAX));
    let [first, last] = [profile.start(), limits::last_station(profile) as i64].map(station);
    headed(
        refusal,
        format!("the station is {found}; it may be {first} to {last}"),
    )
}

/// `refused 23 at vertex 2: ..`
fn headed(Refusal { reason, place }: Refusal, found: String) -> String {
    let number = reason.number();
    match place {
        0 => format!("refused {number}: {found}"),
        _ => format!("refused {number} at vertex {place}: {found}"),
    }
}

fn too_many(vertices: usize) -> String {
    let most = limits::most_vertices();
    format!(
        "the profile has {vertices} vertices; it may have {most} at most: \
         divide it on a straight grade"
    )
}

/// Which number of a profile is the first out of range: the start, its height, or
/// the station of a vertex, by its number.
pub fn first_out_of_range(profile: &Profile) -> Option<(ProfileField, usize)> {
    let head = [
        (ProfileField::Start, 0, profile.start()),
        (ProfileField::Height, 0, profile.start_height()),
    ];
    let vertices =
        (1..=profile.vertex_count()).map(|i| (ProfileField::Station, i, profile.vertex(i).station));
    let mut numbers = head.into_iter().chain(vertices);
    let (field, i, _) = numbers.find(|(field, _, value)| field.is_missed_by(*value))?;
    Some((field, i))
}

fn out_of_range(profile: &Profile) -> String {
    match first_out_of_range(profile) {
        Some((ProfileField::Start, _)) => ProfileField::Start.missed(profile.start()),
        Some((ProfileField::Height, _)) => ProfileField::Height.missed(profile.start_height()),
        Some((field, i)) => {
            let missed = field.missed(profile.vertex(i).station);
            format!("vertex {i}: {missed}")
        }
        None => Reason::Start.words().into(),
    }
}

/// Why no curve of this length may stand at vertex i.
fn no_curve(profile: &Profile, i: usize) -> String {
    let length = profile.vertex(i).length;
    if ProfileField::Length.is_missed_by(length) {
        ProfileField::Length.missed(length)
    } else if length % 2 != 0 {
        odd_curve(length)
    } else {
        overlapping_curve(profile, i)
    }
}

fn odd_curve(length: i64) -> String {
    let [less, found, more] = [length - 1, length, length + 1].map(metres_of_signed_mm);
    format!(
        "the curve is {found}; its mm are an even number, half of them on each side of the vertex: \
         take {less} or {more}"
    )
}

/// That the curve of vertex i begins before the one before it ends, or before the start.
fn overlapping_curve(profile: &Profile, i: usize) -> String {
    let vertex = profile.vertex(i);
    let before = i - 1;
    let (bound, bound_name, help) = match before {
        0 => (profile.start(), "the start".to_string(), String::new()),
        _ => (
            profile.vertex(before).end(),
            format!("the end of curve {before}"),
            format!(", or shorten curve {before}"),
        ),
    };
    let room = match limits::longest_curve(profile, i) {
        Some(longest) => format!("{} at most fit here", metres_of_signed_mm(longest)),
        None => format!("no curve fits here: move the vertex on{help}"),
    };
    let [begin, bound] = [vertex.begin(), bound].map(station);
    let found = metres_of_signed_mm(vertex.length);
    format!("the curve is {found} and begins at {begin}, before {bound_name} at {bound}; {room}")
}

/// That the curve of a vertex is shorter than sight needs.
fn short_curve(speed: i64, vertex: Vertex) -> String {
    let found = format!(
        "the {} is {}",
        vertex.kind(),
        metres_of_signed_mm(vertex.length)
    );
    let difference = percent(vertex.difference().abs());
    let distance = stopping_distance(speed);
    let values = format!("D = {distance} m at {speed} km/h and A = {difference}");
    match limits::least_curve(speed, vertex) {
        Some(least) => {
            let formula = formula(vertex, least >= 1_000 * distance);
            let least = metres_of_signed_mm(least);
            format!("{found}; sight needs {least}, by {formula} with {values}")
        }
        None => {
            let most = metres_of_signed_mm(limits::curve_lengths().1);
            format!(
                "{found}; sight needs more than {most}, by {} with {values}: \
                 take flatter grades or a lower speed",
                formula(vertex, true)
            )
        }
    }
}

/// The formula of the least length, where it reaches the stopping distance or not.
fn formula(vertex: Vertex, reaches: bool) -> &'static str {
    match (vertex.difference() > 0, reaches) {
        (true, true) => "D² A / 412",
        (true, false) => "2 D - 412 / A",
        (false, true) => "D² A / (122 + 3.5 D)",
        (false, false) => "2 D - (122 + 3.5 D) / A",
    }
}

/// The stopping distance at a speed in whole metres, which the least crest tells, by
/// D² A / 412; it is that of the widest difference of grades that has one.
fn stopping_distance(speed: i64) -> i64 {
    let crest = |percent: i64| {
        let vertex = Vertex {
            station: 0,
            grade_in: 10_000 * percent,
            grade_out: 0,
            length: 0,
        };
        limits::least_curve(speed, vertex).map(|least| (percent, least))
    };
    let (percent, least) = (1..=12).rev().find_map(crest).unwrap_or((1, 0));
    (least * 412 / (1_000 * percent)).isqrt()
}

#[cfg(test)]
mod tests {
    use super::*;

    #[test]
    fn the_least_crest_tells_the_stopping_distance() {
        let distances = [45, 64, 85, 111, 140, 173, 211, 267, 310];
        for (speed, distance) in limits::profile_speeds().into_iter().zip(distances) {
            assert_eq!(stopping_distance(speed), distance);
        }
    }

    /// Every profile of a few numbers at and beyond the limits has words, with the
    /// number and the place of the library.
    #[test]
    fn every_refusal_has_words() {
        const EDGES: [i64; 9] = [
            i64::MIN,
            -1,
            0,
            40,
            81,
            120_001,
            2_000_000,
            200_000_001,
            i64::MAX,
        ];
        let mut told = std::collections::BTreeSet::new();
        for index in 0..13 {
            for number in EDGES {
                let good = [40, 0, 0, -35_000, 300_000, 42_500, 80_000];
                let more = [900_000, -60_000, 120_000, 1_200_000, -15_000, 60_000];
                let numbers = [&good[..], &more].concat();
                let profile = Profile { numbers }.with(index, number);
                if let Err(refusal) = profile.check() {
                    let (number, words) = (refusal.reason.number(), of_profile(&profile, refusal));
                    let place = match refusal.place {
                        0 => String::new(),
                        place => format!(" at vertex {place}"),
                    };
                    let head = format!("refused {number}{place}: ");
                    assert!(words.starts_with(&head), "{profile:?}: {words}");
                    assert!(!words.contains(refusal.reason.words()), "{words}");
                    told.insert(number);
                }
            }
        }
        assert!(told.into_iter().eq([4, 6, 21, 22, 23]));
    }
}
