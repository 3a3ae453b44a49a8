//! The pruned search, with its book, by the paper's rule taken literally.

use super::query::read_query;
use super::rank::{first_k, query_lists, Hit, Weighted};
use super::shelf::{walk, Block};
use super::{refuse, Refusal, MAX_DOCID};
use std::collections::{BTreeMap, BTreeSet};

pub const SKIPPED: u8 = 0;
pub const OPENED: u8 = 1;
pub const STOPPED: u8 = 2;
pub const NOT_REACHED: u8 = 3;

/// "The book has one row per interval in three lent runs: first docid, ceiling, mark."
#[derive(Clone, Debug, Default, PartialEq, Eq)]
pub struct Book {
    pub firsts: Vec<u32>,
    pub ceilings: Vec<u32>,
    pub marks: Vec<u8>,
}

#[derive(Clone, Debug, PartialEq, Eq)]
pub struct Found {
    pub hits: Vec<Hit>,
    pub book: Book,
    /// "the number of blocks met by an opened interval (each block once)"
    pub opened: usize,
    /// "the number of blocks in the query's lists"
    pub blocks: usize,
}

/// A search that stopped: the refusal, and the book where it is filled all the same ("except 8 in a pruned search").
#[derive(Clone, Debug, PartialEq, Eq)]
pub struct Stopped {
    pub refusal: Refusal,
    pub book: Option<Book>,
}

impl From<Refusal> for Stopped {
    fn from(refusal: Refusal) -> Stopped {
        Stopped { refusal, book: None }
    }
}

/// How many rows are lent for hits, and for the shortest of the book's runs.
#[derive(Clone, Copy, Debug)]
pub struct Room {
    pub rows: usize,
    pub book: usize,
}

/// "Cut before every least docid and after every greatest docid of the query's blocks, dropping cuts at 1 or above 16,777,215 and keeping equal
/// ones once": the first docid of each interval.
fn interval_starts(lists: &[Weighted]) -> Vec<u32> {
    let summaries = lists.iter().flat_map(|l| &l.blocks).map(|b| b.summary);
    let cuts = summaries.flat_map(|s| [s.least, s.greatest + 1]).filter(|&c| c <= MAX_DOCID);
    let starts: BTreeSet<u32> = cuts.chain([1]).collect();
    starts.into_iter().collect()
}

/// The blocks that an interval meets, each with its weight: every docid of an interval meets the same, so its first stands for all.
fn blocks_met<'a>(lists: &'a [Weighted<'a>], first: u32) -> Vec<(u32, &'a Block<'a>)> {
    let meets = |b: &&Block| b.summary.least <= first && first <= b.summary.greatest;
    lists.iter().flat_map(|l| l.blocks.iter().find(meets).map(|b| (l.weight, b))).collect()
}

/// Numbers 1 to 5, then 6/7, 9, 8.
pub fn search(query: &[u8], shelf: &[u8], room: Room) -> Result<Found, Stopped> {
    let query = read_query(query)?;
    let all_lists = walk(shelf)?;
    let lists = query_lists(&query, &all_lists);
    let firsts = interval_starts(&lists);
    if room.rows < usize::from(query.k) || room.book < firsts.len() {
        return refuse(9, 0)?;
    }
    let ceiling = |&first: &u32| blocks_met(&lists, first).iter().map(|(w, b)| w * b.summary.top).sum();
    let ceilings = firsts.iter().map(ceiling).collect();
    let marks = vec![NOT_REACHED; firsts.len()];
    let book = Book { firsts, ceilings, marks };
    take_intervals(query.k.into(), &lists, book)
}

/// "Intervals are taken in docid order."
fn take_intervals(k: usize, lists: &[Weighted], mut book: Book) -> Result<Found, Stopped> {
    let mut found: BTreeMap<u32, u32> = BTreeMap::new();
    let mut opened: BTreeSet<usize> = BTreeSet::new();
    let mut best: Vec<Hit> = Vec::new();
    for i in 0..book.firsts.len() {
        let ceiling = book.ceilings[i];
        if ceiling == 0 || best.len() == k && ceiling <= best[k - 1].1 {
            book.marks[i] = SKIPPED;
            continue;
        }
        let met = blocks_met(lists, book.firsts[i]);
        if let Some(offset) = met.iter().filter(|(_, b)| b.postings().is_none()).map(|(_, b)| b.body_at).min() {
            book.marks[i] = STOPPED;
            return Err(Stopped { refusal: Refusal { number: 8, offset }, book: Some(book) });
        }
        book.marks[i] = OPENED;
        let first = book.firsts[i];
        let last = book.firsts.get(i + 1).map_or(MAX_DOCID, |next| next - 1);
        for (weight, block) in met {
            opened.insert(block.body_at);
            for (docid, score) in block.postings().expect("the body is right") {
                if (first..=last).contains(&docid) {
                    *found.entry(docid).or_insert(0) += weight * u32::from(score);
                }
            }
        }
        best = first_k(&found, k);
    }
    let blocks = lists.iter().map(|l| l.blocks.len()).sum();
    Ok(Found { hits: best, book, opened: opened.len(), blocks })
}
