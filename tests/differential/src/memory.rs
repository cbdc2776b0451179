//! Memory that is lent to a call, with guards before and behind it.

/// Fewest guards on either side.
const GUARDS: usize = 16;

/// A byte or number of the memory.
pub trait Entry: Copy + PartialEq + Into<i128> {
    /// Entry i of a pattern; no two neighbours are alike.
    fn of_pattern(pattern: u64, i: usize) -> Self;
}

impl Entry for u8 {
    fn of_pattern(pattern: u64, i: usize) -> u8 {
        let [first, step, ..] = pattern.to_le_bytes();
        first.wrapping_add((step | 1).wrapping_mul(i as u8))
    }
}

impl Entry for u32 {
    fn of_pattern(pattern: u64, i: usize) -> u32 {
        const STEP: u32 = 0x9E37_79B9;
        (pattern as u32).wrapping_add(STEP.wrapping_mul(i as u32))
    }
}

impl Entry for u64 {
    fn of_pattern(pattern: u64, i: usize) -> u64 {
        const STEP: u64 = 0x9E37_79B9_7F4A_7C15;
        pattern.wrapping_add(STEP.wrapping_mul(i as u64))
    }
}

impl Entry for i64 {
    fn of_pattern(pattern: u64, i: usize) -> i64 {
        u64::of_pattern(pattern, i) as i64
    }
}

/// Entries of which a middle part is lent; the others are guards.
#[derive(Clone)]
pub struct Memory<T> {
    entries: Vec<T>,
    /// Guards before the lent part.
    before: usize,
    room: usize,
}

/// The first entry in which two memories differ: its index, from the front of
/// the lent part, and what it holds in either.
#[derive(Clone, Copy, Debug, PartialEq, Eq)]
pub struct EntryDifference {
    pub index: isize,
    pub found: i128,
    pub expected: i128,
}

impl<T: Entry> Memory<T> {
    /// Memory filled with the pattern, `room` of its entries lent. So many more
    /// are guards that `most` entries written from the front stay within it. The
    /// pattern also decides where the lent part begins.
    pub fn new(pattern: u64, room: usize, most: usize) -> Memory<T> {
        let before = GUARDS + (pattern >> 60) as usize;
        let length = before + room.max(most) + GUARDS;
        Memory {
            entries: (0..length).map(|i| T::of_pattern(pattern, i)).collect(),
            before,
            room,
        }
    }

    /// Memory whose lent part holds this content.
    pub fn holding(pattern: u64, content: &[T]) -> Memory<T> {
        let mut memory = Memory::new(pattern, content.len(), content.len());
        memory.lent_mut().copy_from_slice(content);
        memory
    }

    pub fn lent(&self) -> &[T] {
        &self.entries[self.before..][..self.room]
    }

    pub fn lent_mut(&mut self) -> &mut [T] {
        &mut self.entries[self.before..][..self.room]
    }

    /// Where this memory, guards included, is not as expected.
    pub fn first_difference(&self, expected: &Memory<T>) -> Option<EntryDifference> {
        assert_eq!(self.entries.len(), expected.entries.len());
        let mut pairs = self.entries.iter().zip(&expected.entries);
        let i = pairs.position(|(found, expected)| found != expected)?;
        Some(EntryDifference {
            index: i as isize - self.before as isize,
            found: self.entries[i].into(),
            expected: expected.entries[i].into(),
        })
    }

    /// Changes the entry with this index, which may be a guard.
    #[cfg(test)]
    pub fn set(&mut self, index: isize, entry: T) {
        let i = self.before.checked_add_signed(index).unwrap();
        self.entries[i] = entry;
    }
}

#[cfg(test)]
mod tests {
    use super::*;

    #[test]
    fn neighbours_differ() {
        for pattern in [0, 1, 0x0102_0304_0506_0708, u64::MAX] {
            let bytes = Memory::<u8>::new(pattern, 300, 300);
            assert!(bytes.entries.windows(2).all(|pair| pair[0] != pair[1]));
            let line = Memory::<u32>::new(pattern, 300, 300);
            assert!(line.entries.windows(2).all(|pair| pair[0] != pair[1]));
            let numbers = Memory::<u64>::new(pattern, 300, 300);
            assert!(numbers.entries.windows(2).all(|pair| pair[0] != pair[1]));
            let signed = Memory::<i64>::new(pattern, 300, 300);
            assert!(signed.entries.windows(2).all(|pair| pair[0] != pair[1]));
        }
    }

    #[test]
    fn lent_part_begins_at_every_alignment() {
        for place in 0..16_usize {
            let memory = Memory::<u8>::new((place as u64) << 60, 5, 9);
            assert_eq!(memory.before % 16, place);
            assert_eq!(memory.lent().len(), 5);
            assert_eq!(memory.entries.len(), memory.before + 9 + GUARDS);
        }
    }

    #[test]
    fn content_stands_in_the_lent_part() {
        let memory = Memory::holding(7, &[1_u8, 2, 3]);
        assert_eq!(memory.lent(), [1, 2, 3]);
        assert_eq!(memory.entries.len(), memory.before + 3 + GUARDS);
    }

    #[test]
    fn every_entry_counts() {
        let expected = Memory::<u64>::new(7, 2, 4);
        assert_eq!(expected.first_difference(&expected.clone()), None);
        let first = -(expected.before as isize);
        for index in [first, -1, 0, 1, 2, 3 + GUARDS as isize] {
            let mut memory = expected.clone();
            memory.set(index, 99);
            let difference = memory.first_difference(&expected).unwrap();
            assert_eq!((difference.index, difference.found), (index, 99));
        }
    }
}
