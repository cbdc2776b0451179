//! Profiles with a station, the same in every run. All are accepted.

use reference::profile::{Profile, MOST_VERTICES};
use reference::samples::dice::Dice;
use reference::samples::profiles::random_profile;

const SEED: u64 = 9;
/// How many profiles of each size.
const COUNT: usize = 256;

pub struct Profiles {
    /// Those of 32 vertices.
    pub full: Vec<Height>,
    /// Those of 4 vertices.
    pub four: Vec<Height>,
    /// Those of none.
    pub straight: Vec<Height>,
}

/// A profile in numbers, and the station of the height.
pub struct Height {
    pub profile: Vec<i64>,
    pub station: u64,
}

impl Profiles {
    pub fn make() -> Profiles {
        let mut dice = Dice::new(SEED);
        let mut heights = |n| -> Vec<Height> {
            let heights = (0..COUNT).map(|i| height_of(i, &random_profile(&mut dice, n)));
            heights.collect()
        };
        Profiles {
            full: heights(MOST_VERTICES),
            four: heights(4),
            straight: heights(0),
        }
    }
}

/// The height within a curve in two of three profiles, else behind it; five eighths of
/// the vertices further than in the profile before, so that all have their turn.
fn height_of(i: usize, profile: &Profile) -> Height {
    let n = profile.vertices.len();
    let station = match n {
        0 => profile.start + 1_000 * i as i64,
        _ => {
            let vertex = profile.vertices[i * (5 * n / 8) % n];
            vertex.begin() + vertex.length * [1, 2, 3][i % 3] / 3
        }
    };
    Height {
        profile: profile.numbers(),
        station: station.clamp(0, 200_000_000) as u64,
    }
}

#[cfg(test)]
mod tests {
    use super::*;
    use reference::profile::height;

    #[test]
    fn all_are_accepted() {
        let Profiles {
            full,
            four,
            straight,
        } = Profiles::make();
        for (heights, n) in [(full, 32), (four, 4), (straight, 0)] {
            for Height { profile, station } in heights {
                assert_eq!(profile.len(), 4 + 3 * n);
                assert_eq!(height(&profile, station, &mut [0]), Ok(1));
            }
        }
    }
}
