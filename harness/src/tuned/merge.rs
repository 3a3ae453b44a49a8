//! Documents in rising order out of several lists, with one accumulator.

use super::best::Best;
use super::body::read_body;
use super::walk::Block;
use crate::reference::PER_BLOCK;

/// Behind the last posting of a block that was read; no posting's key is as great.
pub(super) const END: u64 = u64::MAX;

/// A posting as one number: its docid, above the number of its list, above what it adds to the score, which is below 2^24. The least of the heads is
/// the next posting, and tells the list and the score with it.
#[inline(always)]
fn key(docid: u32, list: usize, adds: u32) -> u64 {
    u64::from(docid) << 32 | (list as u64) << 24 | u64::from(adds)
}

/// A key that no posting below this docid has, and none from it on is below.
#[inline(always)]
pub(super) fn key_from(docid: u32) -> u64 {
    key(docid, 0, 0)
}

/// The least of some keys, by halves and without a branch.
#[inline(always)]
pub(super) fn least<const N: usize>(keys: &[u64; N]) -> u64 {
    let mut best = *keys;
    let mut width = N;
    while width > 1 {
        width /= 2;
        for i in 0..width {
            best[i] = best[i].min(best[i + width]);
        }
    }
    best[0]
}

/// As many postings as a block has, END behind them, and a power of two, so that no place in it is out of bounds.
const RUN: usize = 128;
const _: () = assert!(PER_BLOCK + 2 <= RUN);

/// `N` lists as they stand, in `G` groups: of each its head, the posting behind the head, and the block that was read last. A list's next head is known
/// before it is wanted, so that the loop does not wait for two loads.
pub(super) struct Lanes<const N: usize, const G: usize> {
    heads: [u64; N],
    ahead: [u64; N],
    /// Where `ahead` stands in the run.
    at: [usize; N],
    runs: [[u64; RUN]; N],
}

impl<const N: usize, const G: usize> Lanes<N, G> {
    pub(super) fn new() -> Lanes<N, G> {
        Lanes { heads: [END; N], ahead: [END; N], at: [0; N], runs: [[END; RUN]; N] }
    }

    pub(super) fn head(&self, list: usize) -> u64 {
        self.heads[list]
    }

    /// Reads a block into a list's run, END behind it; whether its body is right.
    #[inline(never)]
    fn read(&mut self, list: usize, shelf: &[u8], block: &Block, weight: u32) -> bool {
        let run = &mut self.runs[list];
        let right = read_body(shelf, block, |i, docid, score| run[i % RUN] = key(docid, list, weight * u32::from(score)));
        run[usize::from(block.count) % RUN] = END;
        run[(usize::from(block.count) + 1) % RUN] = END;
        right
    }

    /// Reads a block and stands at its first posting that is not below `from`; whether its body is right.
    pub(super) fn enter(&mut self, list: usize, from: u64, shelf: &[u8], block: &Block, weight: u32) -> bool {
        let right = self.read(list, shelf, block, weight);
        self.at[list] = 0;
        self.seek(list, from);
        right
    }

    /// Stands at the first posting of the block that is not below `from`, or at END.
    pub(super) fn seek(&mut self, list: usize, from: u64) {
        let run = &self.runs[list];
        let at = self.at[list].saturating_sub(1);
        let at = at + run[at..].iter().position(|&key| key >= from).unwrap_or(0);
        (self.heads[list], self.ahead[list], self.at[list]) = (run[at % RUN], run[(at + 1) % RUN], at + 1);
    }

    /// The posting behind a list's head becomes its head; gives what is behind it then.
    #[inline(always)]
    pub(super) fn advance(&mut self, list: usize) -> u64 {
        self.heads[list] = self.ahead[list];
        self.at[list] += 1;
        self.ahead[list] = self.runs[list][self.at[list] % RUN];
        self.ahead[list]
    }

    /// Takes the posting `next`, which is the least of the groups' least heads; gives what it adds to the score.
    ///
    /// Only the group that it was in has a new least. It is worked out from the other heads and from the one that follows, which is chosen from those
    /// at hand and not stored and loaded again: that would be the longest wait of all.
    #[inline(always)]
    fn take(&mut self, leasts: &mut [u64; G], next: u64, refill: &mut impl FnMut(&mut Self, usize) -> Option<()>) -> Option<u32> {
        let (list, group) = ((next >> 24) as usize % N, N / G);
        let following = self.ahead[list];
        let least = following.min((1..group).fold(END, |least, other| least.min(self.heads[list ^ other])));
        for (i, of_group) in leasts.iter_mut().enumerate() {
            *of_group = if i == list / group { least } else { *of_group };
        }
        if self.advance(list) == END {
            refill(self, list)?;
        }
        Some(next as u32 & 0xff_ffff)
    }

    /// Offers all documents whose keys are below `limit`. Where a list is at its block's end, `refill` may put another behind it.
    ///
    /// A document's postings come one after another. Its sum is compared after each of them, so that nothing is asked at a document's end: only a sum
    /// that is worth it, which is seldom, is brought to its end and offered.
    #[inline(always)]
    pub(super) fn offer_below(&mut self, limit: u64, best: &mut Best, mut refill: impl FnMut(&mut Self, usize) -> Option<()>) -> Option<()> {
        let mut leasts: [u64; G] = std::array::from_fn(|i| self.heads[i * (N / G)..][..N / G].iter().fold(END, |least, &head| head.min(least)));
        let (mut docid, mut score) = (0, 0);
        loop {
            let next = least(&leasts);
            if next >= limit {
                return Some(());
            }
            let here = (next >> 32) as u32;
            score = self.take(&mut leasts, next, &mut refill)? + if here == docid { score } else { 0 };
            docid = here;
            if score >= best.worth() {
                loop {
                    let next = least(&leasts);
                    if (next >> 32) as u32 != docid {
                        break;
                    }
                    score += self.take(&mut leasts, next, &mut refill)?;
                }
                best.take(docid, score);
            }
        }
    }

    /// Puts another block behind a list's head; nothing where its body is wrong.
    pub(super) fn follow(&mut self, list: usize, shelf: &[u8], block: &Block, weight: u32) -> Option<()> {
        let right = self.read(list, shelf, block, weight);
        (self.ahead[list], self.at[list]) = (self.runs[list][0], 0);
        right.then_some(())
    }
}
