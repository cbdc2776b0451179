//! The separately written reference of the road stationing product: the packed
//! sheet, the elements of one curve (X, Y, k, p, D, TT), the stations of a line,
//! the element under a station, a line from coordinates, the height of a profile,
//! the unit spiral table and what the programs print, worked from documents 01 and 02
//! alone. It shares no code with the product and is written to be compared with the
//! papers line by line; its results are what the product's results are held against.
//!
//! The papers are in [`elements`], [`mod@line`], [`refusal`], [`road_tables`],
//! [`sheet`] (its editions in [`edition`], its fields of bits in [`bits`]),
//! [`stations`], [`pegs`], [`points`], [`profile`], [`sight`], [`mod@unit_spiral`],
//! [`lent`] and [`report`], their sums in fractions are in [`exact`]; a line as numbers
//! is in [`line_numbers`], a sheet as text in [`hexadecimal`]; the samples are in
//! [`samples`]. How far rule and fractions lie apart is in [`accuracy`], looked for
//! by [`search`] and printed by [`accuracy_table`]; how far the ends of roads do is
//! in [`drift`], how far the rule lies from the clothoid itself in [`clothoid`]. The
//! station program is run by [`runner`].

pub mod accuracy;
pub mod accuracy_table;
pub mod bits;
pub mod clothoid;
pub mod curve;
pub mod drift;
pub mod edition;
pub mod elements;
pub mod exact;
pub mod hexadecimal;
pub mod lent;
pub mod line;
pub mod line_numbers;
pub mod pegs;
pub mod points;
pub mod profile;
pub mod refusal;
pub mod report;
pub mod road_tables;
pub mod runner;
pub mod samples;
pub mod search;
pub mod sheet;
pub mod sight;
pub mod stations;
pub mod unit_spiral;
