//! Skipping by term upper bounds, the state of the art that source 003 measures itself against: "maintains an upper bound score for each term: its
//! maximal contribution to any document score"; where documents "containing only" some of the lists cannot come among the best, those lists are
//! advanced to the next list's docid, and blocks that are passed whole are not read.

use super::best::Best;
use super::body::read_body;
use super::query::read_query;
use super::walk::{blocks_of, walk_for, Block};
use super::Refusal;
use crate::reference::MAX_TERMS;

/// No docid: a list at its end.
const NONE: u32 = u32::MAX;

/// A list with its upper bound. Its block is known by its summary alone, until a posting past the first is wanted, or a score.
struct Cursor {
    weight: u32,
    bound: u32,
    blocks: Vec<Block>,
    block: usize,
    /// The docid it stands at.
    docid: u32,
    /// How many blocks were read, the last of which, and its postings from the one it stands at.
    opened: usize,
    read: Option<usize>,
    postings: Vec<(u32, u16)>,
    at: usize,
}

impl Cursor {
    fn new(weight: u32, blocks: Vec<Block>) -> Cursor {
        let bound = weight * blocks.iter().map(|block| u32::from(block.top)).max().unwrap_or(0);
        let docid = blocks.first().map_or(NONE, |block| block.least);
        Cursor { weight, bound, blocks, block: 0, docid, opened: 0, read: None, postings: Vec::with_capacity(100), at: 0 }
    }

    /// To the first posting of a block, or to the list's end.
    fn enter(&mut self, block: usize) {
        self.block = block;
        self.docid = self.blocks.get(block).map_or(NONE, |block| block.least);
    }

    /// Reads the block that the cursor is in, once.
    fn read(&mut self, shelf: &[u8]) -> Result<(), Refusal> {
        if self.read == Some(self.block) {
            return Ok(());
        }
        let (block, postings) = (&self.blocks[self.block], &mut self.postings);
        postings.clear();
        if !read_body(shelf, block, |_, docid, score| postings.push((docid, score))) {
            return Err((8, block.body_at()));
        }
        (self.read, self.at, self.opened) = (Some(self.block), 0, self.opened + 1);
        Ok(())
    }

    /// To the first posting whose docid is not below `docid`.
    fn seek(&mut self, shelf: &[u8], docid: u32) -> Result<(), Refusal> {
        if self.blocks[self.block].greatest < docid {
            self.enter(self.block + self.blocks[self.block..].partition_point(|block| block.greatest < docid));
        }
        if self.docid < docid {
            self.read(shelf)?;
            self.at += self.postings[self.at..].partition_point(|posting| posting.0 < docid);
            self.docid = self.postings[self.at].0;
        }
        Ok(())
    }

    /// The score of the posting that it stands at; then to the next.
    fn take(&mut self, shelf: &[u8]) -> Result<u32, Refusal> {
        self.read(shelf)?;
        let score = self.weight * u32::from(self.postings[self.at].1);
        self.at += 1;
        match self.postings.get(self.at) {
            Some(posting) => self.docid = posting.0,
            None => self.enter(self.block + 1),
        }
        Ok(score)
    }
}

/// Hits, blocks read and blocks in all.
pub struct Skipped {
    pub hits: usize,
    pub opened: usize,
    pub blocks: usize,
}

/// The ranking of a sound shelf, in the order 1 to 5, 6/7, 9; a wrong body is refused only where it is read.
pub fn search(query: &[u8], shelf: &[u8], docids: &mut [u32], scores: &mut [u32]) -> Result<Skipped, Refusal> {
    let query = read_query(query)?;
    let lists = walk_for(shelf, &query)?;
    if docids.len().min(scores.len()) < query.k {
        return Err((9, 0));
    }
    let blocks = |i: usize| if lists[i].blocks == 0 { Vec::new() } else { blocks_of(shelf, &lists[i]).collect() };
    let mut cursors: Vec<Cursor> = query.terms().iter().enumerate().map(|(i, asked)| Cursor::new(asked.weight, blocks(i))).collect();
    let mut order: [usize; MAX_TERMS] = std::array::from_fn(|i| i);
    let order = &mut order[..cursors.len()];
    let mut best = Best::new(query.k);
    loop {
        order.sort_unstable_by_key(|&i| cursors[i].docid);
        let Some(pivot) = pivot(&cursors, order, best.worth()) else { break };
        let docid = cursors[order[pivot]].docid;
        if cursors[order[0]].docid == docid {
            let mut score = 0;
            for cursor in cursors.iter_mut().filter(|cursor| cursor.docid == docid) {
                score += cursor.take(shelf)?;
            }
            best.offer(docid, score);
        } else {
            for &i in &order[..pivot] {
                cursors[i].seek(shelf, docid)?;
            }
        }
    }
    let (opened, blocks) = cursors.iter().fold((0, 0), |(opened, blocks), c| (opened + c.opened, blocks + c.blocks.len()));
    Ok(Skipped { hits: best.write(docids, scores), opened, blocks })
}

/// The first list, in docid order, with which the bounds of the lists up to it are worth a look: no lower docid can come among the best.
fn pivot(cursors: &[Cursor], order: &[usize], worth: u32) -> Option<usize> {
    let mut bound = 0;
    order.iter().position(|&i| {
        bound += cursors[i].bound;
        cursors[i].docid != NONE && bound >= worth
    })
}
