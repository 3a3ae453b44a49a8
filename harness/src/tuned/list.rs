//! The reader and the writer of one list.

use super::body::read_body;
use super::walk::{blocks_of, walk, List};
use super::Refusal;
use crate::reference::{Layout, MAX_DOCID, MAX_POSTINGS, PER_BLOCK};

/// Reads a list into two runs, in the order 6/7, 12, 8, 9. A refusal may touch neither run, so the postings are read into memory of its own first:
/// copying them is much quicker than reading the bodies twice.
pub fn read_list(shelf: &[u8], term: u32, docids: &mut [u32], scores: &mut [u16]) -> Result<usize, Refusal> {
    let mut found = None;
    walk(shelf, |list| {
        if list.term == term {
            found = Some(*list);
        }
    })?;
    let read = Postings::read(shelf, &found.ok_or((12, 0))?, 0).map_err(|at| (8, at))?;
    let held = read.docids.len();
    let (Some(docids), Some(scores)) = (docids.get_mut(..held), scores.get_mut(..held)) else { return Err((9, 0)) };
    docids.copy_from_slice(&read.docids);
    scores.copy_from_slice(&read.scores);
    Ok(held)
}

/// The postings of one list.
#[derive(Default)]
pub(super) struct Postings {
    pub(super) docids: Vec<u32>,
    pub(super) scores: Vec<u16>,
}

impl Postings {
    /// All of a list, with room for some more; the tag of the first wrong body, where one is wrong.
    pub(super) fn read(shelf: &[u8], list: &List, more: usize) -> Result<Postings, usize> {
        let held: usize = blocks_of(shelf, list).map(|block| usize::from(block.count)).sum();
        let mut read = Postings { docids: Vec::with_capacity(held + more), scores: Vec::with_capacity(held + more) };
        read.docids.resize(held, 0);
        read.scores.resize(held, 0);
        let (mut docids, mut scores) = (&mut read.docids[..], &mut read.scores[..]);
        for block in blocks_of(shelf, list) {
            let (block_docids, later_docids) = docids.split_at_mut(block.count.into());
            let (block_scores, later_scores) = scores.split_at_mut(block.count.into());
            let right = read_body(shelf, &block, |i, docid, score| (block_docids[i], block_scores[i]) = (docid, score));
            if !right {
                return Err(block.body_at());
            }
            (docids, scores) = (later_docids, later_scores);
        }
        Ok(read)
    }
}

/// Writes a list, in the order 11, 10, 9.
pub fn write_list(layout: Layout, term: u32, docids: &[u32], scores: &[u16], out: &mut [u8]) -> Result<usize, Refusal> {
    if docids.len().max(scores.len()) > MAX_POSTINGS {
        return Err((11, 0));
    }
    if docids.len() != scores.len() || docids.is_empty() {
        return Err((10, docids.len().min(scores.len())));
    }
    if !are_right(docids, scores) {
        return Err((10, first_wrong(docids, scores)));
    }
    // the exact length is wanted only where the longest there can be would not fit
    if out.len() < longest(docids.len()) && out.len() < list_size(docids) {
        return Err((9, 0));
    }
    Ok(put_list(layout, term, docids, scores, out))
}

/// Whether docids rise and all are in range. With no way out of the loop it runs on several postings at once.
fn are_right(docids: &[u32], scores: &[u16]) -> bool {
    let rising = docids.iter().zip(&docids[1..]).fold(true, |right, (a, b)| right & (a < b));
    let above_0 = scores.iter().fold(true, |right, &score| right & (score > 0));
    rising & above_0 & (docids[0] > 0) & (docids[docids.len() - 1] <= MAX_DOCID)
}

#[cold]
fn first_wrong(docids: &[u32], scores: &[u16]) -> usize {
    let mut previous = 0;
    let wrong = |(&docid, &score): (&u32, &u16)| {
        let wrong = docid <= previous || docid > MAX_DOCID || score == 0;
        previous = docid;
        wrong
    };
    docids.iter().zip(scores).position(wrong).unwrap_or(0)
}

fn blocks_for(postings: usize) -> usize {
    postings.div_ceil(PER_BLOCK)
}

/// No list of so many postings takes more bytes.
fn longest(postings: usize) -> usize {
    8 + 15 * blocks_for(postings) + 6 * postings
}

/// How many bytes a list of right postings takes.
pub(super) fn list_size(docids: &[u32]) -> usize {
    let gap_size = |(a, b): (&u32, &u32)| {
        let less_one = b - a - 1;
        1 + usize::from(less_one >= 0x80) + usize::from(less_one >= 0x4000) + usize::from(less_one >= 0x20_0000)
    };
    let gaps = |block: &[u32]| block.iter().zip(&block[1..]).map(gap_size).sum::<usize>();
    8 + 15 * blocks_for(docids.len()) + 2 * docids.len() + docids.chunks(PER_BLOCK).map(gaps).sum::<usize>()
}

/// Writes right postings into a buffer that has room for them.
pub(super) fn put_list(layout: Layout, term: u32, docids: &[u32], scores: &[u16], out: &mut [u8]) -> usize {
    let blocks = docids.chunks(PER_BLOCK).zip(scores.chunks(PER_BLOCK));
    let [t0, t1, t2, t3] = term.to_be_bytes();
    let (summaries_at, bodies_at) = (8, 8 + 12 * blocks.len());
    out[..summaries_at].copy_from_slice(&[1, 0, 5, t0, t1, t2, t3, blocks.len() as u8]);
    for (field, (docids, scores)) in out[summaries_at..bodies_at].as_chunks_mut().0.iter_mut().zip(blocks.clone()) {
        *field = summary(docids, scores);
    }
    let mut at = bodies_at;
    for (docids, scores) in blocks {
        let body = &mut out[at + 3..];
        let len = match layout {
            Layout::Pairs => put_pairs(docids, scores, body),
            Layout::Strip => put_strip(docids, scores, body),
        };
        let [l0, l1] = (len as u16).to_be_bytes();
        out[at..at + 3].copy_from_slice(&[layout.tag(), l0, l1]);
        at += 3 + len;
    }
    at
}

fn summary(docids: &[u32], scores: &[u16]) -> [u8; 12] {
    let [_, l0, l1, l2] = docids[0].to_be_bytes();
    let [_, g0, g1, g2] = docids[docids.len() - 1].to_be_bytes();
    let [s0, s1] = scores.iter().fold(0, |top, &score| score.max(top)).to_be_bytes();
    [2, 0, 9, l0, l1, l2, g0, g1, g2, s0, s1, docids.len() as u8]
}

/// Writes a gap number of more than one byte; gives the place past it.
fn put_long_gap(mut less_one: u32, mut at: usize, out: &mut [u8]) -> usize {
    while less_one >= 0x80 {
        out[at] = less_one as u8 | 0x80;
        less_one >>= 7;
        at += 1;
    }
    out[at] = less_one as u8;
    at + 1
}

fn put_pairs(docids: &[u32], scores: &[u16], out: &mut [u8]) -> usize {
    out[..2].copy_from_slice(&scores[0].to_be_bytes());
    let mut at = 2;
    for ((a, b), score) in docids.iter().zip(&docids[1..]).zip(&scores[1..]) {
        let less_one = b - a - 1;
        let [s0, s1] = score.to_be_bytes();
        if less_one < 0x80 {
            out[at..at + 3].copy_from_slice(&[less_one as u8, s0, s1]);
            at += 3;
        } else {
            at = put_long_gap(less_one, at, out);
            out[at..at + 2].copy_from_slice(&[s0, s1]);
            at += 2;
        }
    }
    at
}

fn put_strip(docids: &[u32], scores: &[u16], out: &mut [u8]) -> usize {
    let mut at = 0;
    for (a, b) in docids.iter().zip(&docids[1..]) {
        at = put_long_gap(b - a - 1, at, out);
    }
    for (field, score) in out[at..at + 2 * scores.len()].as_chunks_mut().0.iter_mut().zip(scores) {
        *field = score.to_be_bytes();
    }
    at + 2 * scores.len()
}
