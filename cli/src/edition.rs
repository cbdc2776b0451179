//! Editions of the packed sheet, by their numbers. They differ in the start alone:
//! which there are, and how far each goes, is asked of the library (`limits`).

use crate::limits;

/// The edition of a sheet where none is asked for.
pub const USUAL: u32 = 1;
/// The edition that goes farthest, so that every line has its sheet.
pub const WIDEST: u32 = 2;

/// The edition with this number, where there is one.
pub fn numbered(number: u64) -> Option<u32> {
    let is_it = |edition: &u32| u64::from(*edition) == number;
    limits::editions().into_iter().find(is_it)
}

/// That a number is no edition's.
pub fn missed(number: u64) -> String {
    format!("the edition is {number}; it may be {}", names())
}

/// `1 or 2`
pub fn names() -> String {
    let names: Vec<String> = limits::editions().iter().map(u32::to_string).collect();
    names.join(" or ")
}

#[cfg(test)]
mod tests {
    use super::*;

    #[test]
    fn the_editions_of_document_02() {
        assert_eq!(names(), "1 or 2");
        let found = [0, 1, 2, 3, 1 << 32 | 1].map(numbered);
        assert_eq!(found, [None, Some(USUAL), Some(WIDEST), None, None]);
        assert_eq!(limits::start_range(USUAL), (0, 200_000_000));
        assert_eq!(limits::start_range(WIDEST), (0, 4_000_000_000));
    }
}
