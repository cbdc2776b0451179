//! Sheets as text, one on each line: two hexadecimal digits for each byte.

/// The lines of a text. A last line without newline counts if it has any byte.
pub fn lines(text: &[u8]) -> impl Iterator<Item = &[u8]> {
    text.split_inclusive(|byte| *byte == b'\n')
        .map(|line| line.strip_suffix(b"\n").unwrap_or(line))
}

/// Most bytes that are read from a line of text; the longest sheet has 706.
pub const MOST_BYTES: usize = 720;

/// The digits of the bytes, in lower case and without spaces.
pub fn digits_of(bytes: &[u8]) -> String {
    bytes.iter().map(|byte| format!("{byte:02x}")).collect()
}

/// Reads a line of text (without its newline). Every byte of text that is no
/// digit is passed over, and so are a last digit without a second one and what
/// follows the most bytes.
pub fn read_bytes(text: &[u8]) -> Vec<u8> {
    let digits: Vec<u8> = text.iter().filter_map(|byte| digit(*byte)).collect();
    digits
        .chunks_exact(2)
        .take(MOST_BYTES)
        .map(|pair| 16 * pair[0] + pair[1])
        .collect()
}

/// The value of a digit, in upper or lower case.
fn digit(byte: u8) -> Option<u8> {
    match byte {
        b'0'..=b'9' => Some(byte - b'0'),
        b'a'..=b'f' => Some(byte - b'a' + 10),
        b'A'..=b'F' => Some(byte - b'A' + 10),
        _ => None,
    }
}

#[cfg(test)]
mod tests {
    use super::*;

    #[test]
    fn every_byte_comes_back() {
        let bytes: Vec<u8> = (0..=255).collect();
        let text = digits_of(&bytes);
        assert!(text.starts_with("000102030405060708090a0b0c0d0e0f10"));
        assert!(text.ends_with("fdfeff"));
        assert_eq!(read_bytes(text.as_bytes()), bytes);
        assert_eq!(read_bytes(text.to_uppercase().as_bytes()), bytes);
        assert_eq!(digits_of(&[]), "");
    }

    #[test]
    fn other_bytes_are_passed_over() {
        assert_eq!(read_bytes(b"10 11 A0\r"), [0x10, 0x11, 0xA0]);
        assert_eq!(read_bytes(b" 1 0\t1,1x\x00\xFFa-0"), [0x10, 0x11, 0xA0]);
        let neighbours = b"/0:9;@A[F\\`a{f}Gg";
        assert_eq!(read_bytes(neighbours), [0x09, 0xAF, 0xAF]);
        let digits = (0..=255).filter(|byte| digit(*byte).is_some());
        assert_eq!(digits.count(), 22);
    }

    #[test]
    fn single_last_digit_is_passed_over() {
        assert_eq!(read_bytes(b""), []);
        assert_eq!(read_bytes(b"f"), []);
        assert_eq!(read_bytes(b"f f f"), [0xFF]);
    }

    #[test]
    fn lines_of_a_text() {
        let count = |text: &[u8]| lines(text).count();
        assert_eq!(count(b""), 0);
        assert_eq!(count(b"\n"), 1);
        assert_eq!(count(b"1\n2"), 2);
        assert_eq!(count(b"1\n2\n"), 2);
        assert_eq!(count(b"\n\n"), 2);
    }

    #[test]
    fn only_720_bytes_are_kept() {
        let bytes = |count: usize| read_bytes("a5".repeat(count).as_bytes());
        assert_eq!(bytes(719).len(), 719);
        assert_eq!(bytes(720).len(), 720);
        assert_eq!(bytes(721), bytes(720));
        assert_eq!(bytes(3_000), bytes(720));
    }
}
