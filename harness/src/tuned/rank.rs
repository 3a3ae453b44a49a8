//! The exhaustive ranking.

use super::best::Best;
use super::body::{is_right, read_body};
use super::merge::{Lanes, END};
use super::query::{read_query, Query};
use super::walk::{blocks_of, walk_for, Block, List};
use super::Refusal;

/// In the order 1 to 5, 6/7, 9, 8.
pub fn rank_all(query: &[u8], shelf: &[u8], docids: &mut [u32], scores: &mut [u32]) -> Result<usize, Refusal> {
    let query = read_query(query)?;
    let lists = walk_for(shelf, &query)?;
    let lists = &lists[..query.terms().len()];
    if docids.len().min(scores.len()) < query.k {
        return Err((9, 0));
    }
    let mut best = Best::new(query.k);
    let ranked = match lists.len() {
        1 => one_list(shelf, &query, &lists[0], &mut best),
        2 => several::<2, 1>(shelf, &query, lists, &mut best),
        3 | 4 => several::<4, 1>(shelf, &query, lists, &mut best),
        _ => several::<8, 2>(shelf, &query, lists, &mut best),
    };
    ranked.ok_or_else(|| (8, first_wrong(shelf, lists)))?;
    Ok(best.write(docids, scores))
}

/// A list alone needs no merging: its postings are the documents, offered as they are read.
fn one_list(shelf: &[u8], query: &Query, list: &List, best: &mut Best) -> Option<()> {
    if list.blocks == 0 {
        return Some(());
    }
    let weight = query.terms()[0].weight;
    blocks_of(shelf, list).all(|block| offer_block(shelf, &block, weight, best)).then_some(())
}

/// Offers the postings of a block as documents; whether its body is right.
#[inline]
pub(super) fn offer_block(shelf: &[u8], block: &Block, weight: u32, best: &mut Best) -> bool {
    read_body(shelf, block, |_, docid, score| best.offer(docid, weight * u32::from(score)))
}

/// For as many lists, or a few more.
fn several<const N: usize, const G: usize>(shelf: &[u8], query: &Query, lists: &[List], best: &mut Best) -> Option<()> {
    let weights: [u32; N] = std::array::from_fn(|i| query.terms().get(i).map_or(0, |asked| asked.weight));
    let mut blocks: [_; N] = std::array::from_fn(|i| lists.get(i).filter(|list| list.blocks > 0).map(|list| blocks_of(shelf, list)));
    let mut follow = |lanes: &mut Lanes<N, G>, i: usize| match blocks[i].as_mut().and_then(|blocks| blocks.next()) {
        Some(block) => lanes.follow(i, shelf, &block, weights[i]),
        None => Some(()),
    };
    let mut lanes = Lanes::new();
    for i in 0..N {
        follow(&mut lanes, i)?;
        if lanes.advance(i) == END {
            follow(&mut lanes, i)?;
        }
    }
    lanes.offer_below(END, best, follow)
}

/// The tag of the first wrong body, in byte order.
#[cold]
fn first_wrong(shelf: &[u8], lists: &[List]) -> usize {
    let blocks = lists.iter().filter(|list| list.blocks > 0).flat_map(|list| blocks_of(shelf, list));
    blocks.filter(|block| !is_right(shelf, block)).map(|block| block.body_at()).min().unwrap_or(0)
}
