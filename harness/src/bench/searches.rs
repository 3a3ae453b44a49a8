//! Both rankers of the archive and of the measure, and skipping by term upper bounds.

use super::workload::{Kind, Workload, KS, TERMS};
use super::{times, Time};
use crate::tuned;
use std::hint::black_box;
use tagmurlen::Book;

/// One workload, number of terms and k; all numbers are means over the queries.
pub struct Row {
    pub kind: &'static Kind,
    pub terms: usize,
    pub k: u8,
    pub postings: f64,
    /// Blocks of the query's lists that were opened, of all: by the pruned search, and by skipping.
    pub opened: f64,
    pub skipping_opened: f64,
    pub pruned: Time,
    pub rust_pruned: Time,
    pub all: Time,
    pub rust_all: Time,
    pub skipping: Time,
}

impl Row {
    pub fn name(&self) -> String {
        format!("{}, {} t., k {}", self.kind.name, self.terms, self.k)
    }

    /// The same row of two passes.
    pub fn better(self, other: &Row) -> Row {
        Row {
            pruned: self.pruned.better(other.pruned),
            rust_pruned: self.rust_pruned.better(other.rust_pruned),
            all: self.all.better(other.all),
            rust_all: self.rust_all.better(other.rust_all),
            skipping: self.skipping.better(other.skipping),
            ..self
        }
    }

    pub fn pruned_ratio(&self) -> f64 {
        self.pruned.best / self.rust_pruned.best
    }

    pub fn all_ratio(&self) -> f64 {
        self.all.best / self.rust_all.best
    }
}

/// What one query takes, and the blocks that are opened for it.
struct Asked {
    times: [Time; 5],
    opened: usize,
    skipping_opened: usize,
    blocks: usize,
}

pub fn rows(work: &Workload) -> Vec<Row> {
    let shapes = TERMS.iter().flat_map(|&terms| KS.iter().map(move |&k| (terms, k)));
    shapes.map(|(terms, k)| row(work, terms, k)).collect()
}

fn row(work: &Workload, terms: usize, k: u8) -> Row {
    let queries = work.queries(terms, k);
    let asked: Vec<Asked> = queries.iter().map(|query| measure(query, &work.shelf)).collect();
    let n = queries.len() as f64;
    let [pruned, rust_pruned, all, rust_all, skipping] = std::array::from_fn(|i| asked.iter().map(|a| a.times[i]).sum::<Time>() / n);
    let postings: usize = queries.iter().map(|query| postings(work, query)).sum();
    let blocks: usize = asked.iter().map(|a| a.blocks).sum();
    let share = |opened: fn(&Asked) -> usize| asked.iter().map(opened).sum::<usize>() as f64 / blocks as f64;
    Row {
        kind: work.kind,
        terms,
        k,
        postings: postings as f64 / n,
        opened: share(|a| a.opened),
        skipping_opened: share(|a| a.skipping_opened),
        pruned,
        rust_pruned,
        all,
        rust_all,
        skipping,
    }
}

fn postings(work: &Workload, query: &[u8]) -> usize {
    let terms = query[4..].chunks_exact(8).map(|field| u32::from_be_bytes([field[3], field[4], field[5], field[6]]));
    terms.map(|term| work.lists[&term].len()).sum()
}

/// Runs for one ranker's hits and book.
struct Runs {
    docids: [u32; 100],
    scores: [u32; 100],
    firsts: [u32; 1_025],
    ceilings: [u32; 1_025],
    marks: [u8; 1_025],
}

impl Runs {
    fn new() -> Runs {
        Runs { docids: [0; 100], scores: [0; 100], firsts: [0; 1_025], ceilings: [0; 1_025], marks: [0; 1_025] }
    }

    fn archive(&mut self, query: &[u8], shelf: &[u8]) -> (usize, usize) {
        let mut book = Book::new(&mut self.firsts, &mut self.ceilings, &mut self.marks);
        let found = tagmurlen::search(black_box(query), black_box(shelf), &mut self.docids, &mut self.scores, &mut book).expect("the shelf is sound");
        (found.opened, found.blocks)
    }

    fn rust(&mut self, query: &[u8], shelf: &[u8]) -> (usize, usize) {
        let mut book = tuned::pruned::Book::new(&mut self.firsts, &mut self.ceilings, &mut self.marks);
        let found =
            tuned::pruned::search(black_box(query), black_box(shelf), &mut self.docids, &mut self.scores, &mut book).expect("the shelf is sound");
        (found.opened, found.blocks)
    }

    fn archive_all(&mut self, query: &[u8], shelf: &[u8]) {
        assert!(tagmurlen::rank_all(black_box(query), black_box(shelf), &mut self.docids, &mut self.scores).is_ok());
    }

    fn rust_all(&mut self, query: &[u8], shelf: &[u8]) {
        assert!(tuned::rank::rank_all(black_box(query), black_box(shelf), &mut self.docids, &mut self.scores).is_ok());
    }

    fn skipping(&mut self, query: &[u8], shelf: &[u8]) -> usize {
        tuned::skipping::search(black_box(query), black_box(shelf), &mut self.docids, &mut self.scores).expect("the shelf is sound").opened
    }
}

/// All five find the same, or this stops.
fn measure(query: &[u8], shelf: &[u8]) -> Asked {
    let [mut a, mut b, mut c, mut d, mut e] = std::array::from_fn(|_| Runs::new());
    let (opened, blocks) = a.archive(query, shelf);
    assert_eq!((opened, blocks), b.rust(query, shelf), "blocks opened, of all");
    c.archive_all(query, shelf);
    d.rust_all(query, shelf);
    let skipping_opened = e.skipping(query, shelf);
    for other in [&b, &c, &d, &e] {
        assert_eq!((a.docids, a.scores), (other.docids, other.scores), "the hits");
    }
    assert_eq!((a.firsts, a.ceilings, a.marks), (b.firsts, b.ceilings, b.marks), "the book");
    let times = times([
        &mut || assert_eq!(a.archive(query, shelf).0, opened),
        &mut || assert_eq!(b.rust(query, shelf).0, opened),
        &mut || c.archive_all(query, shelf),
        &mut || d.rust_all(query, shelf),
        &mut || assert_eq!(e.skipping(query, shelf), skipping_opened),
    ]);
    Asked { times, opened, skipping_opened, blocks }
}
