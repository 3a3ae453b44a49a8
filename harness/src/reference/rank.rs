//! The exhaustive ranking: every match scored, then sorted.

use super::query::{read_query, Query};
use super::shelf::{walk, Block, List};
use super::{refuse, Refusal};
use std::collections::BTreeMap;

/// A docid beside its score.
pub type Hit = (u32, u32);

/// The blocks of one of the query's lists, with its weight. "A term not on the shelf is a list without blocks."
pub struct Weighted<'a> {
    pub weight: u32,
    pub blocks: Vec<Block<'a>>,
}

/// The query's lists, in the query's order.
pub fn query_lists<'a>(query: &Query, lists: &[List<'a>]) -> Vec<Weighted<'a>> {
    let blocks_of = |term: u32| lists.iter().find(|l| l.term == term).map_or(Vec::new(), |l| l.blocks.clone());
    query.terms.iter().map(|&(term, weight)| Weighted { weight: weight.into(), blocks: blocks_of(term) }).collect()
}

/// "Order: higher score, then lower docid. The answer is the first k matches."
pub fn first_k(scores: &BTreeMap<u32, u32>, k: usize) -> Vec<Hit> {
    let mut hits: Vec<Hit> = scores.iter().map(|(&docid, &score)| (docid, score)).collect();
    hits.sort_by_key(|&(docid, score)| (std::cmp::Reverse(score), docid));
    hits.truncate(k);
    hits
}

/// Numbers 1 to 5, then 6/7, 9, 8 over "all bodies of the query's lists".
pub fn rank_all(query: &[u8], shelf: &[u8], rows: usize) -> Result<Vec<Hit>, Refusal> {
    let query = read_query(query)?;
    let lists = walk(shelf)?;
    if rows < usize::from(query.k) {
        return refuse(9, 0);
    }
    let asked = query_lists(&query, &lists);
    let all = || asked.iter().flat_map(|l| l.blocks.iter().map(|b| (l.weight, b)));
    if let Some(body_at) = all().filter(|(_, b)| b.postings().is_none()).map(|(_, b)| b.body_at).min() {
        return refuse(8, body_at);
    }
    let mut scores = BTreeMap::new();
    for (weight, block) in all() {
        for (docid, score) in block.postings().expect("no body is wrong") {
            *scores.entry(docid).or_insert(0) += weight * u32::from(score);
        }
    }
    Ok(first_k(&scores, query.k.into()))
}
