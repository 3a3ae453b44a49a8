//! The walk over all fields of a shelf: faults 6 and 7, first in byte order.

use super::query::Query;
use super::Refusal;
use crate::reference::{MAX_BLOCKS, MAX_LISTS, MAX_SHELF, MAX_TERMS, PER_BLOCK};

/// The bytes of a list's first field, and of a summary's field.
const HEADER: usize = 8;
const SUMMARY: usize = 12;

/// Where a list stands: its first field, and the place past its last body.
#[derive(Clone, Copy, Default)]
pub(super) struct List {
    pub(super) term: u32,
    pub(super) blocks: usize,
    pub(super) at: usize,
    pub(super) end: usize,
}

impl List {
    fn bodies_at(&self) -> usize {
        self.at + HEADER + SUMMARY * self.blocks
    }

    /// Whether its bodies are strips.
    pub(super) fn strip(&self, shelf: &[u8]) -> bool {
        shelf[self.bodies_at()] == 4
    }
}

/// A block: its summary's numbers, and where its body is.
#[derive(Clone, Copy, Default)]
pub(super) struct Block {
    pub(super) least: u32,
    pub(super) greatest: u32,
    tag_at: u32,
    body_len: u16,
    pub(super) top: u16,
    pub(super) count: u8,
    pub(super) strip: bool,
}

impl Block {
    fn of_summary(field: &[u8; SUMMARY]) -> Block {
        let &[_, _, _, l0, l1, l2, g0, g1, g2, s0, s1, count] = field;
        let (least, greatest) = (u32::from_be_bytes([0, l0, l1, l2]), u32::from_be_bytes([0, g0, g1, g2]));
        Block { least, greatest, top: u16::from_be_bytes([s0, s1]), count, ..Block::default() }
    }

    /// Judged with no short cut: nearly all summaries are right, so one branch is quicker than seven.
    fn summary_is_right(&self, previous: u32) -> bool {
        let (more, span) = (u32::from(self.count).wrapping_sub(1), self.greatest.wrapping_sub(self.least));
        (self.least > previous)
            & (self.least <= self.greatest)
            & (self.top > 0)
            & (more < PER_BLOCK as u32)
            & (more <= span)
            & ((more == 0) == (span == 0))
    }

    /// The offset of its body's tag.
    pub(super) fn body_at(&self) -> usize {
        self.tag_at as usize
    }

    pub(super) fn body<'a>(&self, shelf: &'a [u8]) -> &'a [u8] {
        &shelf[self.body_at() + 3..][..usize::from(self.body_len)]
    }
}

/// Hands on each list as its fields are found right.
#[inline]
pub(super) fn walk(shelf: &[u8], mut each: impl FnMut(&List)) -> Result<(), Refusal> {
    if shelf.len() > MAX_SHELF {
        return Err((6, 0));
    }
    let (mut at, mut floor, mut lists) = (0, 0, 0);
    while at < shelf.len() {
        let &[1, 0, 5, t0, t1, t2, t3, blocks] = shelf[at..].first_chunk().ok_or((6, at))? else { return Err((6, at)) };
        let (term, blocks) = (u32::from_be_bytes([t0, t1, t2, t3]), usize::from(blocks));
        if u64::from(term) < floor || lists == MAX_LISTS || blocks == 0 || blocks > MAX_BLOCKS {
            return Err((6, at));
        }
        let fields = &shelf[at + HEADER..];
        let Some(len) = right_fields(fields, blocks) else { return Err(first_fault(shelf, at + HEADER, blocks)) };
        let list = List { term, blocks, at, end: at + HEADER + len };
        each(&list);
        (at, floor, lists) = (list.end, u64::from(term) + 1, lists + 1);
    }
    Ok(())
}

/// The bytes of a list behind its first field. Each body's length says where the next one is, which is a chain of waits for memory; the summaries are
/// judged while it waits. Only where something is wrong does the order of the bytes matter: then they are walked again.
#[inline]
fn right_fields(fields: &[u8], blocks: usize) -> Option<usize> {
    let (summaries, bodies) = fields.split_at_checked(SUMMARY * blocks)?;
    let tag = *bodies.first()?;
    if tag != 3 && tag != 4 {
        return None;
    }
    let (mut at, mut previous) = (0, 0);
    for field in summaries.as_chunks().0 {
        let &[here, l0, l1] = bodies.get(at..)?.first_chunk()?;
        at += 3 + usize::from(u16::from_be_bytes([l0, l1]));
        let block = Block::of_summary(field);
        if (field[..3] != [2, 0, 9]) | (here != tag) | !block.summary_is_right(previous) {
            return None;
        }
        previous = block.greatest;
    }
    (at <= bodies.len()).then_some(SUMMARY * blocks + at)
}

/// The first fault of a list's summaries and bodies in byte order.
#[cold]
fn first_fault(shelf: &[u8], mut at: usize, blocks: usize) -> Refusal {
    let mut previous = 0;
    for _ in 0..blocks {
        let Some(field @ &[2, 0, 9, ..]) = shelf[at..].first_chunk::<SUMMARY>() else { return (6, at) };
        let block = Block::of_summary(field);
        if !block.summary_is_right(previous) {
            return (7, at);
        }
        (previous, at) = (block.greatest, at + SUMMARY);
    }
    let tag = if shelf.get(at) == Some(&4) { 4 } else { 3 };
    loop {
        match shelf.get(at..).and_then(|rest| rest.first_chunk()) {
            Some(&[here, l0, l1]) if here == tag && at + 3 + usize::from(u16::from_be_bytes([l0, l1])) <= shelf.len() => {
                at += 3 + usize::from(u16::from_be_bytes([l0, l1]));
            }
            _ => return (6, at),
        }
    }
}

/// The blocks of a list that the walk has passed.
#[inline]
pub(super) fn blocks_of<'a>(shelf: &'a [u8], list: &List) -> impl Iterator<Item = Block> + use<'a> {
    let mut at = list.bodies_at();
    let strip = shelf[at] == 4;
    let summaries: &[[u8; SUMMARY]] = shelf[list.at + HEADER..at].as_chunks().0;
    summaries.iter().map(move |field| {
        let body_len = u16::from_be_bytes([shelf[at + 1], shelf[at + 2]]);
        let block = Block { tag_at: at as u32, body_len, strip, ..Block::of_summary(field) };
        at += 3 + usize::from(body_len);
        block
    })
}

/// Walks the whole shelf and gives the query's lists, in the query's order; one without blocks where the shelf has none of the term.
/// Lists rise in their terms, so with the query's terms sorted one comparison a list is enough.
#[inline]
pub(super) fn walk_for(shelf: &[u8], query: &Query) -> Result<[List; MAX_TERMS], Refusal> {
    let mut wanted = [u64::MAX; MAX_TERMS + 1];
    for (i, (want, asked)) in wanted.iter_mut().zip(query.terms()).enumerate() {
        *want = u64::from(asked.term) << 8 | i as u64;
    }
    wanted[..query.terms().len()].sort_unstable();
    let mut found = [List::default(); MAX_TERMS];
    let mut next = 0;
    walk(shelf, |list| {
        while wanted[next] >> 8 < u64::from(list.term) {
            next += 1;
        }
        if wanted[next] >> 8 == u64::from(list.term) {
            found[wanted[next] as usize % MAX_TERMS] = *list;
            next += 1;
        }
    })?;
    Ok(found)
}
