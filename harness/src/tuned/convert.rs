//! The converter: the shelf copied as it stands, then each body of the list written over at its place, its bytes moved and no number worked out.

use super::walk::blocks_of;
use super::{check_lists, Refusal};

/// In the order 6/7, 8, 12, 9.
pub fn convert(shelf: &[u8], term: u32, out: &mut [u8]) -> Result<usize, Refusal> {
    let mut found = None;
    check_lists(shelf, |list| {
        if list.term == term {
            found = Some(*list);
        }
    })?;
    let list = found.ok_or((12, 0))?;
    let out = out.get_mut(..shelf.len()).ok_or((9, 0))?;
    out.copy_from_slice(shelf);
    for block in blocks_of(shelf, &list) {
        let (at, body) = (block.body_at(), block.body(shelf));
        out[at] = if block.strip { 3 } else { 4 };
        let turned = &mut out[at + 3..][..body.len()];
        let gap_bytes = body.len() - 2 * usize::from(block.count);
        if block.strip {
            to_pairs(body, gap_bytes, turned)
        } else {
            to_strip(body, gap_bytes, turned)
        }
    }
    Ok(shelf.len())
}

fn to_strip(body: &[u8], gap_bytes: usize, out: &mut [u8]) {
    let (gaps, scores) = out.split_at_mut(gap_bytes);
    scores[..2].copy_from_slice(&body[..2]);
    let (mut from, mut to) = (2, 0);
    for score in &mut scores.as_chunks_mut::<2>().0[1..] {
        loop {
            gaps[to] = body[from];
            (from, to) = (from + 1, to + 1);
            if body[from - 1] < 0x80 {
                break;
            }
        }
        score.copy_from_slice(&body[from..from + 2]);
        from += 2;
    }
}

fn to_pairs(body: &[u8], gap_bytes: usize, out: &mut [u8]) {
    let (gaps, scores) = body.split_at(gap_bytes);
    out[..2].copy_from_slice(&scores[..2]);
    let (mut from, mut to) = (0, 2);
    for score in &scores.as_chunks::<2>().0[1..] {
        loop {
            out[to] = gaps[from];
            (from, to) = (from + 1, to + 1);
            if gaps[from - 1] < 0x80 {
                break;
            }
        }
        out[to..to + 2].copy_from_slice(score);
        to += 2;
    }
}
