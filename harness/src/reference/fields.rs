//! "Every field is a one-byte tag, a two-byte length and the value; all numbers are big-endian."

/// The number that some bytes are, the first the highest.
pub fn number(bytes: &[u8]) -> u32 {
    bytes.iter().fold(0, |n, &b| n << 8 | u32::from(b))
}

/// The value of the whole field of tag `tag` at `at`; nothing where another tag stands there or the field is cut short.
pub fn field(bytes: &[u8], at: usize, tag: u8) -> Option<&[u8]> {
    let field = bytes.get(at..)?;
    let head = field.get(..3)?;
    let length = number(&head[1..]) as usize;
    if head[0] == tag { field.get(3..3 + length) } else { None }
}

/// Appends a field.
pub fn put_field(out: &mut Vec<u8>, tag: u8, value: &[u8]) {
    out.push(tag);
    out.extend((value.len() as u16).to_be_bytes());
    out.extend(value);
}

/// The gap number with which the bytes begin, and the bytes after it: "seven bits a byte, low first, high bit set on all but the last byte,
/// at most four bytes, and no zero last byte unless it is the only one".
pub fn gap_number(bytes: &[u8]) -> Option<(u32, &[u8])> {
    let taken = 1 + bytes.iter().take(4).position(|b| b & 0x80 == 0)?;
    let (digits, rest) = bytes.split_at(taken);
    if taken > 1 && digits[taken - 1] == 0 {
        return None;
    }
    let value = digits.iter().rev().fold(0, |n, &b| n << 7 | u32::from(b & 0x7f));
    Some((value, rest))
}

/// Appends a gap number.
pub fn put_gap_number(out: &mut Vec<u8>, mut n: u32) {
    while n >= 0x80 {
        out.push(n as u8 | 0x80);
        n >>= 7;
    }
    out.push(n as u8);
}

#[cfg(test)]
mod tests {
    use super::*;

    #[test]
    fn gap_numbers_read_back_at_each_edge() {
        for n in [0, 1, 127, 128, 129, 16_383, 16_384, 2_097_151, 2_097_152, 16_777_213, 0x0fff_ffff] {
            let mut bytes = Vec::new();
            put_gap_number(&mut bytes, n);
            bytes.push(9);
            assert_eq!(gap_number(&bytes), Some((n, &[9][..])), "{n}");
        }
    }

    #[test]
    fn gap_numbers_at_fault() {
        assert_eq!(gap_number(&[]), None);
        assert_eq!(gap_number(&[0x80]), None);
        assert_eq!(gap_number(&[0x80, 0]), None);
        assert_eq!(gap_number(&[0x80, 0x80, 0x80, 0x80, 1]), None);
        assert_eq!(gap_number(&[0]), Some((0, &[][..])));
    }
}
