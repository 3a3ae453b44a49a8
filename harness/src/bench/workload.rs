//! The shelves that are measured, and the queries asked of them. All are made up, from fixed seeds.

use crate::reference::list::pack_as;
use crate::reference::query::put_query;
use crate::reference::{Layout, Posting};
use crate::rng::Rng;
use std::collections::{BTreeMap, BTreeSet};

/// How many queries are asked for each number of terms.
const QUERIES: usize = 12;
pub const TERMS: [usize; 4] = [1, 2, 4, 8];
pub const KS: [u8; 3] = [1, 10, 100];

#[derive(Clone, Copy, PartialEq)]
enum Scores {
    /// Any score is as likely as any other, so that the ceilings of full blocks are nearly alike.
    Flat,
    /// Few high and many low.
    Zipf,
}

#[derive(Clone, Copy, PartialEq)]
enum Docids {
    /// Anywhere up to so much.
    To(u32),
    /// Four in five in a few stretches, as neighbours belong together.
    Clustered(u32),
}

pub struct Kind {
    pub name: &'static str,
    pub size: &'static str,
    bytes: usize,
    longest: usize,
    scores: Scores,
    docids: Docids,
    layout: Layout,
}

const LAB: u32 = 200_000;
const ALL: u32 = 16_777_215;

const fn kind(name: &'static str, size: &'static str, scores: Scores, docids: Docids, layout: Layout) -> Kind {
    let (bytes, longest) = match size.as_bytes() {
        b"1k" => (1 << 10, 36),
        b"64k" => (1 << 16, 3_200),
        _ => (1 << 20, 45_000),
    };
    Kind { name, size, bytes, longest, scores, docids, layout }
}

pub const KINDS: [Kind; 9] = [
    kind("1k zipf", "1k", Scores::Zipf, Docids::To(LAB), Layout::Pairs),
    kind("64k flat", "64k", Scores::Flat, Docids::To(LAB), Layout::Pairs),
    kind("64k zipf", "64k", Scores::Zipf, Docids::To(LAB), Layout::Pairs),
    kind("64k zipf strips", "64k", Scores::Zipf, Docids::To(LAB), Layout::Strip),
    kind("1m flat", "1m", Scores::Flat, Docids::To(LAB), Layout::Pairs),
    kind("1m zipf", "1m", Scores::Zipf, Docids::To(LAB), Layout::Pairs),
    kind("1m zipf clustered", "1m", Scores::Zipf, Docids::Clustered(LAB), Layout::Pairs),
    kind("1m flat sparse", "1m", Scores::Flat, Docids::To(ALL), Layout::Pairs),
    kind("1m zipf sparse", "1m", Scores::Zipf, Docids::To(ALL), Layout::Pairs),
];

pub struct Workload {
    pub kind: &'static Kind,
    pub shelf: Vec<u8>,
    pub lists: BTreeMap<u32, Vec<Posting>>,
    /// Terms, the longest list's first.
    by_length: Vec<u32>,
}

impl Workload {
    /// Lists whose lengths fall like 1 / rank, until the shelf is full, each under a term number of its own. A shelf of 1 KiB is eight short lists.
    pub fn new(kind: &'static Kind) -> Workload {
        let mut rng = Rng::new(kind.longest as u64);
        let (mut lists, mut by_length, mut bytes) = (BTreeMap::new(), Vec::new(), 0);
        for rank in 1..=1_000 {
            let n = if kind.size == "1k" { 39 - 3 * rank } else { (kind.longest / rank).clamp(1, 6_400) };
            let (term, run) = (rng.draw() as u32, a_list(&mut rng, kind, n));
            bytes += pack_as(kind.layout, term, &run).len();
            if bytes > kind.bytes || (kind.size == "1k" && rank > 8) {
                break;
            }
            by_length.push(term);
            lists.insert(term, run);
        }
        let shelf = lists.iter().flat_map(|(&term, run)| pack_as(kind.layout, term, run)).collect();
        Workload { kind, shelf, lists, by_length }
    }

    /// Queries of so many terms: any, but long lists are asked for most.
    pub fn queries(&self, terms: usize, k: u8) -> Vec<Vec<u8>> {
        let mut rng = Rng::new(terms as u64);
        let query = |_| {
            let mut asked: Vec<(u32, u8)> = Vec::new();
            while asked.len() < terms {
                let part = rng.within(0, 1_000_000) as f64 / 1_000_000.0;
                let rank = (self.by_length.len() as f64).powf(part) as usize;
                let term = self.by_length[rank.min(self.by_length.len()) - 1];
                if asked.iter().all(|a| a.0 != term) {
                    asked.push((term, rng.within(1, 255) as u8));
                }
            }
            put_query(k, &asked)
        };
        (0..QUERIES).map(query).collect()
    }

    pub fn longest(&self) -> (u32, &[Posting]) {
        (self.by_length[0], &self.lists[&self.by_length[0]])
    }
}

fn a_list(rng: &mut Rng, kind: &Kind, n: usize) -> Vec<Posting> {
    let (limit, stretches) = match kind.docids {
        Docids::To(limit) => (limit as usize, Vec::new()),
        Docids::Clustered(limit) => {
            let width = (2 * n).max(64);
            (limit as usize, (0..3).map(|_| (rng.within(1, limit as usize - width), width)).collect())
        }
    };
    let mut docids = BTreeSet::new();
    while docids.len() < n {
        let docid = if stretches.is_empty() || rng.once_in(5) {
            rng.within(1, limit)
        } else {
            let (start, width) = rng.pick(&stretches);
            start + rng.within(0, width - 1)
        };
        docids.insert(docid as u32);
    }
    docids.into_iter().map(|docid| (docid, score(rng, kind.scores))).collect()
}

fn score(rng: &mut Rng, scores: Scores) -> u16 {
    match scores {
        Scores::Flat => rng.within(1, 65_535) as u16,
        Scores::Zipf => (24_000_000 / rng.within(1, 1_000_000)).min(65_535) as u16,
    }
}
