//! The pruned ranking with its book.

use super::best::Best;
use super::merge::{key_from, least, Lanes, END};
use super::query::{read_query, Query};
use super::rank::offer_block;
use super::walk::{blocks_of, walk_for, Block, List};
use super::Refusal;
use crate::reference::prune::{NOT_REACHED, OPENED, SKIPPED, STOPPED};
use crate::reference::MAX_DOCID;

/// The book's lent runs, and how many rows the last search filled: also where it stopped at a wrong body.
pub struct Book<'a> {
    pub firsts: &'a mut [u32],
    pub ceilings: &'a mut [u32],
    pub marks: &'a mut [u8],
    pub intervals: usize,
}

impl<'a> Book<'a> {
    pub fn new(firsts: &'a mut [u32], ceilings: &'a mut [u32], marks: &'a mut [u8]) -> Book<'a> {
        Book { firsts, ceilings, marks, intervals: 0 }
    }

    fn room(&self) -> usize {
        self.firsts.len().min(self.ceilings.len()).min(self.marks.len())
    }
}

#[derive(Debug, PartialEq, Eq)]
pub struct Found {
    pub hits: usize,
    pub opened: usize,
    pub blocks: usize,
}

/// One of the query's lists.
#[derive(Clone, Copy)]
struct Weighted<'a> {
    weight: u32,
    blocks: &'a [Block],
}

/// In the order 1 to 5, 6/7, 9, 8.
pub fn search(query: &[u8], shelf: &[u8], docids: &mut [u32], scores: &mut [u32], book: &mut Book) -> Result<Found, Refusal> {
    book.intervals = 0;
    let query = read_query(query)?;
    let lists = walk_for(shelf, &query)?;
    let mut all = Vec::with_capacity(lists.iter().map(|list| list.blocks).sum());
    for list in lists.iter().filter(|list| list.blocks > 0) {
        all.extend(blocks_of(shelf, list));
    }
    if docids.len().min(scores.len()) < query.k {
        return Err((9, 0));
    }
    let mut best = Best::new(query.k);
    let opened = match query.terms().len() {
        1 => alone(shelf, &weighted(&query, &lists, &all), book, &mut best),
        2 => several::<2, 1>(shelf, &weighted(&query, &lists, &all), book, &mut best),
        3 | 4 => several::<4, 1>(shelf, &weighted(&query, &lists, &all), book, &mut best),
        _ => several::<8, 2>(shelf, &weighted(&query, &lists, &all), book, &mut best),
    }?;
    Ok(Found { hits: best.write(docids, scores), opened, blocks: all.len() })
}

/// The query's lists, filled up with empty ones.
fn weighted<'a, const N: usize>(query: &Query, lists: &[List], all: &'a [Block]) -> [Weighted<'a>; N] {
    let mut rest = all;
    std::array::from_fn(|i| {
        let (blocks, after) = rest.split_at(lists[i].blocks);
        rest = after;
        Weighted { weight: query.terms().get(i).map_or(0, |asked| asked.weight), blocks }
    })
}

/// One list: an interval whose ceiling is above 0 is a block. Gives how many blocks were opened.
fn alone(shelf: &[u8], lists: &[Weighted; 1], book: &mut Book, best: &mut Best) -> Result<usize, Refusal> {
    fill(book, lists)?;
    let Weighted { weight, blocks } = lists[0];
    let (mut blocks, mut opened) = (blocks.iter(), 0);
    take_intervals(book, best, |first, _, best| match blocks.find(|block| block.least == first) {
        Some(block) if !offer_block(shelf, block, weight, best) => Err(block.body_at()),
        _ => {
            opened += 1;
            Ok(())
        }
    })?;
    Ok(opened)
}

/// For as many lists, or a few more. Gives how many blocks were opened.
fn several<const N: usize, const G: usize>(shelf: &[u8], lists: &[Weighted; N], book: &mut Book, best: &mut Best) -> Result<usize, Refusal> {
    fill(book, lists)?;
    let mut places = Places::<N, G>::new(shelf, lists);
    take_intervals(book, best, |first, last, best| places.open(first, last, best))?;
    Ok(places.opened)
}

/// The book's intervals and ceilings. Where its runs have room for as many cuts as there can be, the intervals need not be counted first.
fn fill<const N: usize>(book: &mut Book, lists: &[Weighted; N]) -> Result<(), Refusal> {
    let blocks: usize = lists.iter().map(|list| list.blocks.len()).sum();
    if book.room() <= 2 * blocks && book.room() < intervals(lists) {
        return Err((9, 0));
    }
    let mut filled = 0;
    each_interval(lists, |first, ceiling| {
        (book.firsts[filled], book.ceilings[filled]) = (first, ceiling);
        filled += 1;
    });
    book.intervals = filled;
    Ok(())
}

/// Intervals in docid order: skipped, or opened as the caller does it, until a body is wrong.
#[inline(always)]
fn take_intervals(book: &mut Book, best: &mut Best, mut open: impl FnMut(u32, u32, &mut Best) -> Result<(), usize>) -> Result<(), Refusal> {
    let (firsts, ceilings, marks) = (&book.firsts[..book.intervals], &book.ceilings[..book.intervals], &mut book.marks[..book.intervals]);
    let lasts = firsts[1..].iter().map(|next| next - 1).chain([MAX_DOCID]);
    for (i, ((&first, last), &ceiling)) in firsts.iter().zip(lasts).zip(ceilings).enumerate() {
        if ceiling < best.worth() {
            marks[i] = SKIPPED;
        } else if let Err(at) = open(first, last, best) {
            marks[i] = STOPPED;
            marks[i + 1..].fill(NOT_REACHED);
            return Err((8, at));
        } else {
            marks[i] = OPENED;
        }
    }
    Ok(())
}

fn intervals<const N: usize>(lists: &[Weighted; N]) -> usize {
    let mut intervals = 0;
    each_interval(lists, |_, _| intervals += 1);
    intervals
}

/// The first docid of each interval and its ceiling, in one sweep: every list goes from edge to edge of its blocks, the least edge first, and the
/// ceiling is added to where a block begins and taken from where it ends.
#[inline(always)]
fn each_interval<const N: usize>(lists: &[Weighted; N], mut interval: impl FnMut(u32, u32)) {
    let edge = |docid: Option<u32>, list: usize| docid.map_or(END, |docid| key_from(docid) | list as u64);
    let mut edges: [u64; N] = std::array::from_fn(|i| edge(lists[i].blocks.first().map(|block| block.least), i));
    let mut passed = [0; N];
    let (mut first, mut ceiling) = (1, 0);
    loop {
        let next = least(&edges);
        let cut = (next >> 32) as u32;
        if cut != first {
            interval(first, ceiling);
            first = cut;
        }
        if cut > MAX_DOCID {
            return;
        }
        let i = next as usize % N;
        let Weighted { weight, blocks } = lists[i];
        let block = &blocks[passed[i] / 2];
        passed[i] += 1;
        let following = if passed[i] % 2 == 1 {
            ceiling += weight * u32::from(block.top);
            Some(block.greatest + 1)
        } else {
            ceiling -= weight * u32::from(block.top);
            blocks.get(passed[i] / 2).map(|block| block.least)
        };
        edges[i] = edge(following, i);
    }
}

/// Where the lists stand between two intervals.
struct Places<'a, const N: usize, const G: usize> {
    shelf: &'a [u8],
    lists: &'a [Weighted<'a>; N],
    /// The first block that was not read, and its least docid.
    next: [usize; N],
    due: [u32; N],
    lanes: Lanes<N, G>,
    opened: usize,
}

impl<'a, const N: usize, const G: usize> Places<'a, N, G> {
    fn new(shelf: &'a [u8], lists: &'a [Weighted<'a>; N]) -> Places<'a, N, G> {
        let due = std::array::from_fn(|i| lists[i].blocks.first().map_or(u32::MAX, |block| block.least));
        Places { shelf, lists, next: [0; N], due, lanes: Lanes::new(), opened: 0 }
    }

    /// Offers the documents of an interval; the tag of the first wrong body among the blocks that it meets, where one is wrong.
    fn open(&mut self, first: u32, last: u32, best: &mut Best) -> Result<(), usize> {
        let mut wrong = None;
        for i in 0..N {
            if self.lanes.head(i) < key_from(first) {
                self.lanes.seek(i, key_from(first));
            }
            if self.due[i] <= first {
                wrong = wrong.into_iter().chain(self.meet(i, first).err()).min();
            }
        }
        wrong.map_or(Ok(()), Err)?;
        self.lanes.offer_below(key_from(last + 1), best, |_, _| Some(()));
        Ok(())
    }

    /// The block of a list that has a docid between its least and its greatest, passing over those before it.
    fn block_at(&mut self, list: usize, docid: u32) -> Option<&'a Block> {
        let blocks = &self.lists[list].blocks;
        self.next[list] += blocks[self.next[list]..].iter().position(|block| docid <= block.greatest)?;
        let block = &blocks[self.next[list]];
        if docid < block.least {
            self.due[list] = block.least;
            return None;
        }
        self.next[list] += 1;
        self.due[list] = blocks.get(self.next[list]).map_or(u32::MAX, |block| block.least);
        self.opened += 1;
        Some(block)
    }

    /// Reads the block of a list that is met at a docid, if there is one.
    fn meet(&mut self, list: usize, docid: u32) -> Result<(), usize> {
        match self.block_at(list, docid) {
            Some(block) if !self.lanes.enter(list, key_from(docid), self.shelf, block, self.lists[list].weight) => Err(block.body_at()),
            _ => Ok(()),
        }
    }
}
