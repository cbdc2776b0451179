//! The command as people run it: its output, its words, its exit status, and what
//! it leaves in files.

mod convert;
mod editions;
mod failures;
mod faulty_texts;
mod help;
mod made;
mod pegs;
mod points;
mod profile;
mod random_lines;
mod run;
mod several;
mod table;
