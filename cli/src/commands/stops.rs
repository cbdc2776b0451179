//! The stations of a list: some that are in it in any case, and between them the
//! multiples of a distance.

use crate::console::Console;
use crate::quantity::{length_in_metres, metres_of_mm, Quantity};
use std::iter::once;

/// How many distances a list may have.
const MOST: u64 = 1_000_000;

/// The distance between stations.
pub struct Every {
    pub um: u64,
    /// Why it is probably in the wrong unit.
    doubt: Option<String>,
}

impl Every {
    pub const USUAL: Every = Every {
        um: 20_000_000,
        doubt: None,
    };

    /// The distance that a word says, in metres where it names no unit.
    pub fn read(word: &str) -> Result<Every, String> {
        /// From here on mm were probably meant.
        const DOUBTFUL: u64 = 1_000_000;
        let Quantity { value, has_unit } = length_in_metres(word)?;
        let um = value.checked_mul(1_000);
        let um = um.ok_or_else(|| format!("{word} is too large"))?;
        if um == 0 {
            return Err(format!("{word} is no distance between stations"));
        }
        let is_doubtful = !has_unit && value >= DOUBTFUL;
        let doubt = || format!("{word} is {}; mm are written mm", metres_of_mm(value));
        Ok(Every {
            um,
            doubt: is_doubtful.then(doubt),
        })
    }

    /// Says that it is probably in the wrong unit, where it is.
    pub fn warn(&self, console: &mut Console) {
        if let Some(doubt) = &self.doubt {
            console.say(&format!("pokyandi: warning: --every {doubt}"));
        }
    }
}

/// A station that is listed whatever the distance is, µm, and the points there.
pub struct Stop {
    station: u64,
    points: String,
}

impl Stop {
    /// The stops of points in order, each with its station in µm and its name, which
    /// may be empty. Points of one station are one stop: `TS=SC`.
    pub fn at<'a>(points: impl IntoIterator<Item = (u64, &'a str)>) -> Vec<Stop> {
        let mut stops: Vec<Stop> = Vec::new();
        for (station, name) in points {
            match stops.last_mut() {
                Some(last) if last.station == station => last.add(name),
                _ => stops.push(Stop {
                    station,
                    points: name.into(),
                }),
            }
        }
        stops
    }

    fn add(&mut self, name: &str) {
        let mark = match self.points.is_empty() || name.is_empty() {
            true => "",
            false => "=",
        };
        self.points += &format!("{mark}{name}");
    }

    fn station_and_points(&self) -> (u64, &str) {
        (self.station, &self.points)
    }
}

/// The last station of a list, µm.
pub fn end_of(stops: &[Stop]) -> u64 {
    stops.last().map_or(0, |stop| stop.station)
}

/// That the list would be too long, and from which distance on it is not.
pub fn too_many(stops: &[Stop], every: u64) -> Option<String> {
    let length = end_of(stops) - stops.first()?.station;
    let least = metres_of_mm(length / (MOST + 1) / 1_000 + 1);
    let words = format!("more than {MOST} distances; --every may be {least} or more here");
    (length / every > MOST).then_some(words)
}

/// The stations of the list in order, each with the points there: the stops, and
/// between two of them the multiples of the distance.
pub fn stations(stops: &[Stop], every: u64) -> impl Iterator<Item = (u64, &str)> {
    let first = stops.first().map(Stop::station_and_points);
    let others = stops.windows(2).flat_map(move |pair| {
        let multiple = (pair[0].station / every + 1) * every;
        let between = (multiple..pair[1].station).step_by(every as usize);
        between
            .map(|station| (station, ""))
            .chain(once(pair[1].station_and_points()))
    });
    first.into_iter().chain(others)
}

#[cfg(test)]
mod tests {
    use super::*;

    fn stations_between(ends: &[u64], every: u64) -> Vec<u64> {
        let stop = |&station: &u64| Stop {
            station,
            points: "END".into(),
        };
        let stops: Vec<Stop> = ends.iter().map(stop).collect();
        stations(&stops, every)
            .map(|(station, _)| station)
            .collect()
    }

    #[test]
    fn points_of_one_station_are_one_stop() {
        let points = [(0, ""), (0, "A"), (3, "B"), (3, "C"), (3, ""), (4, "")];
        let stops = Stop::at(points);
        let stops: Vec<_> = stops.iter().map(Stop::station_and_points).collect();
        assert_eq!(stops, [(0, "A"), (3, "B=C"), (4, "")]);
    }

    #[test]
    fn multiples_stand_between_the_stops_once() {
        assert_eq!(stations_between(&[0, 7, 9], 3), [0, 3, 6, 7, 9]);
        assert_eq!(stations_between(&[1, 3, 10], 3), [1, 3, 6, 9, 10]);
        assert_eq!(stations_between(&[4, 5], 3), [4, 5]);
        assert_eq!(stations_between(&[0, 5], u64::MAX), [0, 5]);
        assert_eq!(stations_between(&[4, 5], u64::MAX), [4, 5]);
    }

    #[test]
    fn distances_and_their_units() {
        let um = |word: &str| Every::read(word).map(|every| every.um);
        for word in ["20m", "20", "20.000", "20,0m", "20000mm", "0+020km", "1+0e"] {
            assert_eq!(um(word), Ok(Every::USUAL.um), "{word}");
        }
        for (word, words) in [
            (
                "",
                "m is no length: write 20m, 20 (m), 500mm, 0+020km or 1+0e",
            ),
            ("0", "0 is no distance between stations"),
            ("0mm", "0mm is no distance between stations"),
            (
                "-20",
                "-20m is no length: write 20m, 20 (m), 500mm, 0+020km or 1+0e",
            ),
            ("20.0005", "20.0005m is finer than a mm"),
            (
                "0+20",
                "0+20 has no unit: write 20m, 20 (m), 500mm, 0+020km or 1+0e",
            ),
            (
                "20M",
                "20M is no length: write 20m, 20 (m), 500mm, 0+020km or 1+0e",
            ),
            (
                "1km",
                "1km lacks the + before its metres: write 20m, 20 (m), 500mm, 0+020km or 1+0e",
            ),
            ("99999999999999999m", "99999999999999999m is too large"),
            ("18446744073709552mm", "18446744073709552mm is too large"),
        ] {
            assert_eq!(um(word).unwrap_err(), words, "{word}");
        }
        assert_eq!(um("1mm"), Ok(1_000));
        let doubt = |word: &str| Every::read(word).unwrap().doubt;
        assert_eq!(
            doubt("20000").unwrap(),
            "20000 is 20000.000 m; mm are written mm"
        );
        assert_eq!(
            [doubt("20000m"), doubt("999.999"), doubt("1+0km")],
            [None, None, None]
        );
    }

    #[test]
    fn a_list_that_would_be_too_long() {
        let told = |length, every| {
            let stop = |station| Stop {
                station,
                points: "END".into(),
            };
            too_many(&[0, length].map(stop), every)
        };
        let words = "more than 1000000 distances; --every may be 0.024 m or more here";
        assert_eq!(told(23_675_347_789, 23_000).as_deref(), Some(words));
        assert_eq!(told(23_675_347_789, 24_000), None);
        assert_eq!(told(1_000_000_999, 1_000), None);
        assert!(told(1_000_001_000, 1_000).unwrap().contains(" 0.002 m "));
    }
}
