//! Names for the numbers of elements, pegs, lines and profiles.

/// Where the elements of one curve stand.
pub mod element {
    /// Abscissa of SC on the tangent.
    pub const X: usize = 0;
    /// Ordinate of SC.
    pub const Y: usize = 1;
    /// Abscissa of the centre.
    pub const K: usize = 2;
    /// Shift of the arc.
    pub const P: usize = 3;
    /// Length of the arc.
    pub const D: usize = 4;
    /// Tangent, from PI to TS and ST.
    pub const TT: usize = 5;
}

/// Where the numbers of a peg stand, and the kinds of element.
pub mod peg {
    /// Kind of the element, [`STRAIGHT`] to [`SPIRAL_OUT`].
    pub const KIND: usize = 0;
    /// Its number: distance 0 to n of a straight, else curve 1 to n.
    pub const NUMBER: usize = 1;
    /// Length from the element's beginning, µm; on the spiral out back from ST.
    pub const LENGTH: usize = 2;
    /// Abscissa on the tangent from TS, on the spiral out from ST, µm; 0 on a
    /// straight and an arc.
    pub const X: usize = 3;
    /// Ordinate there, µm, negative on a left curve.
    pub const Y: usize = 4;

    /// The kind of a straight.
    pub const STRAIGHT: i64 = 0;
    /// The kind of the spiral from TS to SC.
    pub const SPIRAL_IN: i64 = 1;
    /// The kind of an arc, from SC to CS.
    pub const ARC: i64 = 2;
    /// The kind of the spiral from CS to ST.
    pub const SPIRAL_OUT: i64 = 3;
}

/// Where the numbers of a line stand: five for its head, then five for each
/// curve.
pub mod line {
    /// Number of curves n, 0 to 64.
    pub const CURVES: usize = 0;
    /// Design speed V, km/h.
    pub const SPEED: usize = 1;
    /// Crossfall e, percent: the greatest superelevation.
    pub const CROSSFALL: usize = 2;
    /// Start station, mm.
    pub const START: usize = 3;

    /// Where the numbers of curve i begin, 1 to n: its radius stands at
    /// `line::curve(i) + curve::RADIUS`.
    pub const fn curve(i: usize) -> usize {
        5 * i
    }

    /// Where distance i stands, 0 to n; mm.
    pub const fn distance(i: usize) -> usize {
        5 * i + 4
    }
}

/// Where the numbers of one curve stand, from [`line::curve`](crate::line::curve)
/// on.
pub mod curve {
    /// Side, [`RIGHT`] or [`LEFT`].
    pub const SIDE: usize = 0;
    /// Deflection A, seconds of arc.
    pub const DEFLECTION: usize = 1;
    /// Radius R, mm.
    pub const RADIUS: usize = 2;
    /// Spiral length L, mm.
    pub const SPIRAL: usize = 3;

    /// The side of a curve to the right.
    pub const RIGHT: u32 = 0;
    /// The side of a curve to the left.
    pub const LEFT: u32 = 1;
}

/// Where the numbers of a profile stand: four for its head, then three for each
/// vertex.
pub mod profile {
    /// Design speed V, km/h.
    pub const SPEED: usize = 0;
    /// Start station, mm.
    pub const START: usize = 1;
    /// Height of the start, mm.
    pub const HEIGHT: usize = 2;
    /// First grade, millionths.
    pub const GRADE: usize = 3;

    /// Where the numbers of vertex i begin, 1 to n: its grade stands at
    /// `profile::vertex(i) + vertex::GRADE`.
    pub const fn vertex(i: usize) -> usize {
        3 * i + 1
    }
}

/// Where the numbers of one vertex stand, from
/// [`profile::vertex`](crate::profile::vertex) on.
pub mod vertex {
    /// Station, mm.
    pub const STATION: usize = 0;
    /// Grade that goes out of it, millionths.
    pub const GRADE: usize = 1;
    /// Length of its curve, mm.
    pub const LENGTH: usize = 2;
}
