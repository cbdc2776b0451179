//! Runs the station program and compares what it prints with stored reports:
//! once for each sheet of a list, or in four ways for each sheet of a folder.

pub mod folder;
pub mod list;

mod difference;
mod program;
mod tally;
mod ways;
