//! A body read and judged in one pass. Scores are judged at the end, by the least and the greatest of them, and docids by the last: gaps are never 0.

use super::walk::Block;

/// Whether a body is right. Hands on its postings as they are read, each with its number in the block; what a wrong body handed on is of no use.
#[inline(always)]
pub(super) fn read_body(shelf: &[u8], block: &Block, put: impl FnMut(usize, u32, u16)) -> bool {
    let body = block.body(shelf);
    if block.strip {
        read_strip(body, block, put)
    } else {
        read_pairs(body, block, put)
    }
}

pub(super) fn is_right(shelf: &[u8], block: &Block) -> bool {
    read_body(shelf, block, |_, _, _| ())
}

/// What is folded over the postings of a block.
struct Seen {
    docid: u64,
    low: u16,
    high: u16,
}

impl Seen {
    #[inline(always)]
    fn first(block: &Block, score: u16) -> Seen {
        Seen { docid: block.least.into(), low: score, high: score }
    }

    #[inline(always)]
    fn next(&mut self, less_one: u32, score: u16) {
        self.docid += u64::from(less_one) + 1;
        self.low = self.low.min(score);
        self.high = self.high.max(score);
    }

    #[inline(always)]
    fn fits(&self, block: &Block) -> bool {
        (self.low > 0) & (self.high == block.top) & (self.docid == u64::from(block.greatest))
    }
}

/// A gap number, and the bytes after it.
#[inline(always)]
fn gap(bytes: &[u8]) -> Option<(u32, &[u8])> {
    match *bytes {
        [a, ref after @ ..] if a < 0x80 => Some((a.into(), after)),
        [a, b, ref after @ ..] if b < 0x80 => (b > 0).then_some((u32::from(a & 0x7f) | u32::from(b) << 7, after)),
        _ => long_gap(bytes),
    }
}

/// A gap number of three or four bytes, and the bytes after it.
fn long_gap(bytes: &[u8]) -> Option<(u32, &[u8])> {
    let len = 1 + bytes.iter().take(4).position(|&b| b < 0x80)?;
    let (number, after) = bytes.split_at(len);
    let value = number.iter().rev().fold(0, |value, &b| value << 7 | u32::from(b & 0x7f));
    (number[len - 1] > 0).then_some((value, after))
}

#[inline(always)]
fn read_pairs(body: &[u8], block: &Block, mut put: impl FnMut(usize, u32, u16)) -> bool {
    let Some((&first, mut rest)) = body.split_first_chunk() else { return false };
    let first = u16::from_be_bytes(first);
    put(0, block.least, first);
    let mut seen = Seen::first(block, first);
    for i in 1..block.count.into() {
        let Some((less_one, score, after)) = pair(rest) else { return false };
        rest = after;
        seen.next(less_one, score);
        put(i, seen.docid as u32, score);
    }
    rest.is_empty() & seen.fits(block)
}

/// A gap number and a score, and the bytes after them. Five bytes are asked for at once: they hold any but a gap number of four.
#[inline(always)]
fn pair(bytes: &[u8]) -> Option<(u32, u16, &[u8])> {
    match *bytes {
        [a, s0, s1, _, _, ..] if a < 0x80 => Some((a.into(), u16::from_be_bytes([s0, s1]), &bytes[3..])),
        [a, b, s0, s1, _, ..] if b < 0x80 => (b > 0).then_some((u32::from(a & 0x7f) | u32::from(b) << 7, u16::from_be_bytes([s0, s1]), &bytes[4..])),
        [a, b, c, s0, s1, ..] if c < 0x80 => {
            (c > 0).then_some((u32::from(a & 0x7f) | u32::from(b & 0x7f) << 7 | u32::from(c) << 14, u16::from_be_bytes([s0, s1]), &bytes[5..]))
        }
        _ => {
            let (less_one, after) = gap(bytes)?;
            let (&score, after) = after.split_first_chunk()?;
            Some((less_one, u16::from_be_bytes(score), after))
        }
    }
}

#[inline(always)]
fn read_strip(body: &[u8], block: &Block, mut put: impl FnMut(usize, u32, u16)) -> bool {
    let Some(gap_bytes) = body.len().checked_sub(2 * usize::from(block.count)) else { return false };
    let (mut gaps, scores) = body.split_at(gap_bytes);
    let Some((&first, scores)) = scores.split_first_chunk() else { return false };
    let first = u16::from_be_bytes(first);
    put(0, block.least, first);
    let mut seen = Seen::first(block, first);
    for (i, &score) in scores.as_chunks().0.iter().enumerate() {
        let Some((less_one, after)) = gap(gaps) else { return false };
        let score = u16::from_be_bytes(score);
        gaps = after;
        seen.next(less_one, score);
        put(i + 1, seen.docid as u32, score);
    }
    gaps.is_empty() & seen.fits(block)
}
