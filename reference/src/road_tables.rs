//! The road tables, and the least radius and least spiral that follow from
//! them (document 01, Road tables).

/// A design speed and what the tables give for it.
#[derive(Clone, Copy, Debug)]
pub struct DesignSpeed {
    /// V, km/h.
    pub v: u32,
    /// f, hundredths.
    friction: u32,
    /// Least spiral, m.
    pub least_spiral: u32,
}

/// The nine design speeds.
pub const SPEEDS: [DesignSpeed; 9] = [
    row(40, 18, 30),
    row(50, 16, 30),
    row(60, 15, 30),
    row(70, 15, 40),
    row(80, 14, 40),
    row(90, 14, 50),
    row(100, 13, 60),
    row(110, 12, 60),
    row(120, 11, 70),
];

const fn row(v: u32, friction: u32, least_spiral: u32) -> DesignSpeed {
    DesignSpeed {
        v,
        friction,
        least_spiral,
    }
}

impl DesignSpeed {
    /// The design speed of `v` km/h, if it is one of the nine.
    pub fn of(v: u32) -> Option<DesignSpeed> {
        SPEEDS.into_iter().find(|speed| speed.v == v)
    }

    /// Whether radius `r` passes 12 at superelevation `e`: 127 × (e + f) × R
    /// is at least 100,000 × V².
    pub fn reaches_least_radius(self, e: u32, r: u32) -> bool {
        let e_and_f = i128::from(e) + i128::from(self.friction);
        127 * e_and_f * i128::from(r) >= 100_000 * i128::from(self.v).pow(2)
    }

    /// Whether spiral length `l` passes 13 at radius `r`: it is 0, or it
    /// reaches the table and L × R is at least 36,000 × V³.
    pub fn reaches_least_spiral(self, r: u32, l: u32) -> bool {
        let (r, l) = (i128::from(r), i128::from(l));
        let reaches_table = l >= 1_000 * i128::from(self.least_spiral);
        let reaches_rule = l * r >= 36_000 * i128::from(self.v).pow(3);
        l == 0 || (reaches_table && reaches_rule)
    }
}

#[cfg(test)]
mod tests {
    use super::*;

    fn speed(v: u32) -> DesignSpeed {
        DesignSpeed::of(v).unwrap()
    }

    #[test]
    fn nine_speeds() {
        let known: Vec<u32> = (0..1_000)
            .filter(|&v| DesignSpeed::of(v).is_some())
            .collect();
        assert_eq!(known, [40, 50, 60, 70, 80, 90, 100, 110, 120]);
    }

    #[test]
    fn case_5() {
        assert!(speed(70).reaches_least_radius(8, 167_751));
        assert!(!speed(70).reaches_least_radius(8, 167_750));
    }

    #[test]
    fn least_spiral_by_table_and_by_rule() {
        // 36,000 × 70³ is 308,700 × 40,000.
        assert!(speed(70).reaches_least_spiral(308_700, 40_000));
        assert!(!speed(70).reaches_least_spiral(308_699, 40_000));
        assert!(speed(70).reaches_least_spiral(308_699, 40_001));
        assert!(!speed(70).reaches_least_spiral(5_000_000, 39_999));
    }

    #[test]
    fn no_spiral_passes() {
        assert!(SPEEDS
            .into_iter()
            .all(|speed| speed.reaches_least_spiral(20_000, 0)));
    }
}
