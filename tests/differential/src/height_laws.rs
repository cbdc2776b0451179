//! What the library's heights have in common: a start that is 1 mm higher raises
//! them by 1 mm, moving profile and station by the same amount changes nothing, and
//! curves that begin behind the station do not count.

use crate::side::{height_of, Side};
use pokyandi::{profile, vertex};
use reference::profile::{GREATEST_HEIGHT, STATIONS};

/// Where the next height is in range too.
const BELOW_GREATEST: std::ops::Range<i64> = -GREATEST_HEIGHT..GREATEST_HEIGHT;

/// The first law that the library breaks for this profile and station.
pub fn broken_height_law(
    library: &dyn Side,
    numbers: &[i64],
    station: u64,
) -> Option<&'static str> {
    let height = height_of(library, numbers, station);
    if let Some(raised) = raised(numbers) {
        if height_of(library, &raised, station) != height.map(|height| height + 1) {
            return Some("a start 1 mm higher does not raise the height by 1 mm");
        }
    }
    if let Some((moved, station)) = from_0(numbers, station) {
        if height_of(library, &moved, station) != height {
            return Some("moving profile and station by the same amount changes the height");
        }
    }
    height.ok()?;
    let part = height_of(library, up_to(numbers, station), station);
    (part != height).then_some("a curve behind the station changes the height")
}

/// The profile from a start that is 1 mm higher, where both are in range.
fn raised(numbers: &[i64]) -> Option<Vec<i64>> {
    let height = numbers.get(profile::HEIGHT)?;
    BELOW_GREATEST.contains(height).then(|| {
        let mut raised = numbers.to_vec();
        raised[profile::HEIGHT] += 1;
        raised
    })
}

/// Profile and station moved so that the start is 0, where all stations are in range
/// and the one asked for is no lower than the start.
fn from_0(numbers: &[i64], station: u64) -> Option<(Vec<i64>, u64)> {
    let start = *numbers.get(profile::START)?;
    let vertices = (profile::vertex(1)..numbers.len()).step_by(3);
    let stations = [profile::START].into_iter().chain(vertices);
    let asked = i64::try_from(station).ok()?;
    let mut moved = numbers.to_vec();
    for place in stations {
        let not_before = STATIONS.contains(&moved[place]) && moved[place] >= start;
        if !not_before {
            return None;
        }
        moved[place] -= start;
    }
    let inside = (start..=*STATIONS.end()).contains(&asked);
    inside.then(|| (moved, station - start as u64))
}

/// The numbers of an accepted profile without the vertices whose curves begin at the
/// station or behind it.
fn up_to(numbers: &[i64], station: u64) -> &[i64] {
    let begins_before = |i: &usize| {
        let of_vertex = &numbers[profile::vertex(*i)..];
        let begin = of_vertex[vertex::STATION] - of_vertex[vertex::LENGTH] / 2;
        begin < station as i64
    };
    let n = (numbers.len() - profile::vertex(1)) / 3;
    let count = (1..=n).take_while(begins_before).count();
    &numbers[..profile::vertex(count + 1)]
}

#[cfg(test)]
mod tests {
    use super::*;
    use crate::side::{Library, Reference};
    use crate::spoilt::Spoilt;
    use reference::profile::MOST_VERTICES;
    use reference::samples::profile_edges::{crest, waves};

    #[test]
    fn laws_hold() {
        let full = waves(MOST_VERTICES).numbers();
        let profiles = [
            waves(0).numbers(),
            crest().numbers(),
            full,
            vec![],
            vec![0; 5],
        ];
        for profile in profiles {
            for station in [0, 1_400_000, 1_500_000, 1_600_001, 9_000_123, u64::MAX] {
                assert_eq!(broken_height_law(&Reference, &profile, station), None);
                assert_eq!(broken_height_law(&Library, &profile, station), None);
            }
        }
    }

    #[test]
    fn vertices_up_to_a_station() {
        let profile = waves(2).numbers();
        let count = |station| up_to(&profile, station).len();
        let stations = [1_000_000, 1_400_000, 1_400_001, 1_900_000, 1_900_001];
        assert_eq!(stations.map(count), [4, 4, 7, 7, 10]);
    }

    #[test]
    fn broken_laws_are_found() {
        let profile = waves(2).numbers();
        let by_height = Spoilt {
            height: |profile, station, numbers| {
                let count = Reference.height(profile, station, numbers)?;
                numbers[0] += profile[2] & 1;
                Ok(count)
            },
            ..Spoilt::NOT
        };
        let by_start = Spoilt {
            height: |profile, station, numbers| {
                let count = Reference.height(profile, station, numbers)?;
                numbers[0] += i64::from(profile[1] == 0);
                Ok(count)
            },
            ..Spoilt::NOT
        };
        let by_count = Spoilt {
            height: |profile, station, numbers| {
                let count = Reference.height(profile, station, numbers)?;
                numbers[0] += i64::from(profile.len() > 7);
                Ok(count)
            },
            ..Spoilt::NOT
        };
        for (library, word) in [
            (by_height, "higher"),
            (by_start, "moving"),
            (by_count, "behind"),
        ] {
            let law = broken_height_law(&library, &profile, 1_500_000).unwrap();
            assert!(law.contains(word), "{law}");
        }
    }
}
