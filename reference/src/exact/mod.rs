//! Elements, stations and the offsets on spirals in fractions, nothing rounded
//! (document 01, Clerk's sums), and the elements of the clothoid itself. All lengths
//! are in mm.

pub mod clothoid;
pub mod elements;
pub mod fraction;
pub mod pegs;
pub mod stations;
pub mod whole;
