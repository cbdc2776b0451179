//! Fields of bits in bytes, most significant bit first, no gaps (document 01,
//! Packed sheet).

/// Bits that are moved between the bytes and the hold at once.
const WORD_BITS: u32 = u32::BITS;

/// Takes fields from the front of bytes.
pub struct BitReader<'a> {
    /// The bytes not yet held.
    rest: &'a [u8],
    /// The last `count` bits are the next ones; those above them are spent.
    hold: u64,
    count: u32,
}

impl<'a> BitReader<'a> {
    pub fn new(bytes: &'a [u8]) -> BitReader<'a> {
        BitReader {
            rest: bytes,
            hold: 0,
            count: 0,
        }
    }

    /// The next field, of at most 32 bits. After the last byte all bits are
    /// zero.
    pub fn take(&mut self, width: u32) -> u32 {
        if self.count < width {
            self.hold_word();
        }
        self.count -= width;
        let mask = (1 << width) - 1;
        ((self.hold >> self.count) & mask) as u32
    }

    /// Holds the next four bytes, fewer than 32 bits being held.
    fn hold_word(&mut self) {
        let word = match self.rest.split_first_chunk() {
            Some((word, rest)) => {
                self.rest = rest;
                *word
            }
            None => last_word(std::mem::take(&mut self.rest)),
        };
        self.hold = self.hold << WORD_BITS | u64::from(u32::from_be_bytes(word));
        self.count += WORD_BITS;
    }
}

/// The last bytes, fewer than four, and zeros.
fn last_word(bytes: &[u8]) -> [u8; 4] {
    let mut word = [0; 4];
    word[..bytes.len()].copy_from_slice(bytes);
    word
}

/// Puts fields at the front of bytes.
pub struct BitWriter<'a> {
    /// The bytes not yet written.
    rest: &'a mut [u8],
    /// The last `count` bits, fewer than 32, are to be written; those above
    /// them are written.
    hold: u64,
    count: u32,
}

impl<'a> BitWriter<'a> {
    pub fn new(bytes: &'a mut [u8]) -> BitWriter<'a> {
        BitWriter {
            rest: bytes,
            hold: 0,
            count: 0,
        }
    }

    /// Puts a field of at most 32 bits; the value fits it.
    pub fn put(&mut self, width: u32, value: u32) {
        self.hold = self.hold << width | u64::from(value);
        self.count += width;
        if self.count >= WORD_BITS {
            self.count -= WORD_BITS;
            self.write_word((self.hold >> self.count) as u32);
        }
    }

    fn write_word(&mut self, word: u32) {
        let (front, rest) = std::mem::take(&mut self.rest)
            .split_first_chunk_mut()
            .expect("the bytes hold all fields");
        *front = word.to_be_bytes();
        self.rest = rest;
    }

    /// Writes the bits still held, and zero bits to a whole byte, with which the
    /// bytes end.
    pub fn fill(self) {
        let word = (self.hold << (WORD_BITS - self.count)) as u32;
        self.rest
            .copy_from_slice(&word.to_be_bytes()[..self.rest.len()]);
    }
}

#[cfg(test)]
mod tests {
    use super::*;
    use crate::samples::dice::Dice;

    #[test]
    fn fields_are_taken_from_the_most_significant_bit() {
        let mut bits = BitReader::new(&[0x12, 0x34, 0x56, 0x78, 0x9A, 0xBC]);
        assert_eq!(bits.take(4), 0x1);
        assert_eq!(bits.take(12), 0x234);
        assert_eq!(bits.take(1), 0);
        assert_eq!(bits.take(3), 0x5);
        assert_eq!(bits.take(28), 0x0678_9ABC);
        assert_eq!(bits.take(0), 0);
    }

    #[test]
    fn zero_bits_follow_the_last_byte() {
        for count in 0..9 {
            let bytes = vec![0xFF; count];
            let mut bits = BitReader::new(&bytes);
            let ones = (0..200).filter(|_| bits.take(1) == 1).count();
            assert_eq!(ones, 8 * count);
        }
    }

    #[test]
    fn fields_are_put_from_the_most_significant_bit() {
        let mut bytes = [7; 6];
        let mut bits = BitWriter::new(&mut bytes);
        bits.put(4, 0x1);
        bits.put(12, 0x234);
        bits.put(1, 0);
        bits.put(3, 0x5);
        bits.put(20, 0x6_789A);
        bits.put(3, 0x5);
        bits.fill();
        assert_eq!(bytes, [0x12, 0x34, 0x56, 0x78, 0x9A, 0xA0]);
    }

    #[test]
    fn fields_put_are_taken_again() {
        let mut dice = Dice::new(1);
        for count in 0..300 {
            let fields: Vec<(u32, u32)> = (0..count)
                .map(|_| {
                    let width = dice.between(1, 32);
                    (width, dice.between(0, u32::MAX) >> (32 - width))
                })
                .collect();
            let length = fields.iter().map(|(width, _)| width).sum::<u32>();
            let mut bytes = vec![0xFF; length.div_ceil(8) as usize];

            let mut bits = BitWriter::new(&mut bytes);
            for (width, value) in &fields {
                bits.put(*width, *value);
            }
            bits.fill();

            let mut bits = BitReader::new(&bytes);
            for (width, value) in &fields {
                assert_eq!(bits.take(*width), *value);
            }
            assert_eq!(bits.take(8 * bytes.len() as u32 - length), 0);
        }
    }
}
