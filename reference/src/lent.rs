//! Memory that is lent to a call (document 01, Refusal table, 16).

use crate::refusal::{refuse, Refusal};

/// The first `count` of the lent entries, or refusal 16.
pub fn front<T>(lent: &mut [T], count: usize) -> Result<&mut [T], Refusal> {
    lent.get_mut(..count).map_or(refuse(16, 0), Ok)
}

/// Writes the content at the front of the lent entries and returns its length,
/// or refuses 16 and leaves them as they are.
pub fn fill<T: Copy>(lent: &mut [T], content: &[T]) -> Result<usize, Refusal> {
    front(lent, content.len())?.copy_from_slice(content);
    Ok(content.len())
}

#[cfg(test)]
mod tests {
    use super::*;

    #[test]
    fn room_is_just_enough() {
        let mut lent = [7; 3];
        assert_eq!(fill(&mut lent[..1], &[1, 2]), refuse(16, 0));
        assert_eq!(lent, [7; 3]);
        assert_eq!(fill(&mut lent, &[1, 2]), Ok(2));
        assert_eq!(lent, [1, 2, 7]);
        assert_eq!(fill(&mut lent[..0], &[]), Ok(0));
    }
}
