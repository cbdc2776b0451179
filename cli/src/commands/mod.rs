//! The subcommands.

pub mod check;
pub mod convert;
pub mod elements;
pub mod make;
pub mod pegs;
pub mod profile;
pub mod sheets;
pub mod show;
pub mod stations;
pub mod stops;
pub mod table;
