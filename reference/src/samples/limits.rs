//! The least numbers that pass the checks, found with the checks themselves.

use crate::elements::{arc, check_arc, GREATEST_DEFLECTION, GREATEST_RADIUS, GREATEST_SPIRAL};
use crate::line::{Line, GREATEST_DISTANCE};
use crate::road_tables::DesignSpeed;
use crate::stations::{tangents, LEAST_STRAIGHT};

/// The least number from `low` to `high` that passes. `high` passes, and so
/// does every number above one that passes.
fn least(mut low: u32, mut high: u32, passes: impl Fn(u32) -> bool) -> u32 {
    while low < high {
        let middle = (low + high) / 2;
        if passes(middle) {
            high = middle;
        } else {
            low = middle + 1;
        }
    }
    low
}

/// The least A from 1 whose arc passes check 14. In range there always is one:
/// at 432,000 seconds the full angle is over 2, and L is at most R.
pub fn least_deflection(r: u32, l: u32) -> u32 {
    least(1, GREATEST_DEFLECTION, |a| check_arc(a, r, l).is_ok())
}

/// The least R that passes check 12.
pub fn least_radius(speed: DesignSpeed, e: u32) -> u32 {
    least(1, GREATEST_RADIUS, |r| speed.reaches_least_radius(e, r))
}

/// The least L above 0 that passes check 13; it may be over R.
pub fn least_spiral(speed: DesignSpeed, r: u32) -> u32 {
    least(1, GREATEST_SPIRAL, |l| speed.reaches_least_spiral(r, l))
}

/// The least R at which spiral length `l` passes check 13.
pub fn least_radius_of_spiral(speed: DesignSpeed, l: u32) -> u32 {
    least(1, GREATEST_RADIUS, |r| speed.reaches_least_spiral(r, l))
}

/// The least R from `low` whose arc is `length` µm or longer, if there is one in
/// range.
pub fn least_radius_of_arc(low: u32, a: u32, l: u32, length: i128) -> u32 {
    least(low, GREATEST_RADIUS, |r| arc(a, r, l) >= length)
}

/// The greatest L in range for radius `r`.
pub fn greatest_spiral(r: u32) -> u32 {
    r.min(GREATEST_SPIRAL)
}

/// The least distance i whose straight passes check 15.
pub fn least_distance(line: &Line, i: usize) -> u32 {
    let needed = tangents(line, i) + LEAST_STRAIGHT;
    least(1, GREATEST_DISTANCE, |distance| {
        1_000 * i128::from(distance) >= needed
    })
}

#[cfg(test)]
mod tests {
    use super::*;
    use crate::road_tables::SPEEDS;

    #[test]
    fn limits_of_the_document() {
        let speed = DesignSpeed::of(70).unwrap();
        assert_eq!(least_deflection(350_000, 40_000), 23_574);
        assert_eq!(least_radius(speed, 8), 167_751);
        assert_eq!(least_spiral(speed, 350_000), 40_000);
        assert_eq!(least_distance(&Line::case_1(), 0), 180_991);
        assert_eq!(least_radius_of_arc(20_000, 1, 0, 1_000), 206_168);
    }

    #[test]
    fn least_spiral_by_rule() {
        let speed = DesignSpeed::of(70).unwrap();
        assert_eq!(least_spiral(speed, 308_700), 40_000);
        assert_eq!(least_spiral(speed, 308_699), 40_001);
        assert_eq!(least_radius_of_spiral(speed, 40_000), 308_700);
    }

    #[test]
    fn highest_numbers_pass() {
        for speed in SPEEDS {
            assert!(speed.reaches_least_radius(2, GREATEST_RADIUS));
            let r = least_radius(speed, 12);
            assert!(speed.reaches_least_spiral(r, GREATEST_SPIRAL));
        }
    }
}
