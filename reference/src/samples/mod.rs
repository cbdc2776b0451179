//! Samples: those with a name, at the edges of every check, and random ones. The
//! same seed gives the same list on every machine. The search for large
//! differences uses their dice, limits and roads.

pub mod call;
pub mod call_edges;
pub mod convert_edges;
pub mod curves;
pub mod dice;
pub mod halves;
pub mod limits;
pub mod line_edges;
pub mod lines;
pub mod mountain_road;
pub mod named;
pub mod peg_edges;
pub mod point_edges;
pub mod profile_edges;
pub mod profiles;
pub mod ranges;
pub mod roads;
pub mod sheet_edges;
pub mod sheet_fields;
pub mod sheets;
pub mod station_cases;
pub mod station_sheets;
pub mod surveys;
pub mod unit_spiral_edges;
pub mod writer_edges;

mod faults;
mod near_limits;
#[cfg(test)]
mod other_roundings;
mod sheet_faults;
mod station_faults;
