//! The k best hits so far. The tie rule stands here and nowhere else: `rank_key` says which of two equal scores comes first, and `least_worth` what a
//! later document, or a later interval's ceiling, must reach. Documents are offered in rising docid order.

use crate::reference::MAX_K;

/// "Order: higher score, then lower docid": the greater key comes first.
#[inline(always)]
fn rank_key(docid: u32, score: u32) -> u64 {
    u64::from(score) << 32 | u64::from(!docid)
}

fn docid_of(key: u64) -> u32 {
    !(key as u32)
}

fn score_of(key: u64) -> u32 {
    (key >> 32) as u32
}

/// The least score with which a later document comes among the best, when k are found and the kth has this score.
#[inline(always)]
fn least_worth(kth: u32) -> u32 {
    kth + 1
}

pub(super) struct Best {
    k: usize,
    found: usize,
    /// A heap with the kth at its top, once k are found; until then in the order of finding.
    keys: [u64; MAX_K as usize],
    worth: u32,
}

impl Best {
    pub(super) fn new(k: usize) -> Best {
        Best { k, found: 0, keys: [0; MAX_K as usize], worth: 1 }
    }

    /// The least score, or ceiling, that is worth a look: 1 before k are found.
    #[inline(always)]
    pub(super) fn worth(&self) -> u32 {
        self.worth
    }

    #[inline(always)]
    pub(super) fn offer(&mut self, docid: u32, score: u32) {
        if score >= self.worth {
            self.take(docid, score);
        }
    }

    /// Takes a hit that is worth it.
    #[inline(never)]
    pub(super) fn take(&mut self, docid: u32, score: u32) {
        let key = rank_key(docid, score);
        if self.found < self.k {
            self.keys[self.found] = key;
            self.found += 1;
            if self.found < self.k {
                return;
            }
            (0..self.k / 2).rev().for_each(|i| self.sift(i, self.keys[i]));
        } else {
            self.sift(0, key);
        }
        self.worth = least_worth(score_of(self.keys[0]));
    }

    /// Puts a key at a place of the heap, or below it.
    fn sift(&mut self, mut at: usize, key: u64) {
        let heap = &mut self.keys[..self.k];
        while 2 * at + 1 < heap.len() {
            let left = 2 * at + 1;
            let child = left + usize::from(left + 1 < heap.len() && heap[left + 1] < heap[left]);
            if key <= heap[child] {
                break;
            }
            heap[at] = heap[child];
            at = child;
        }
        heap[at] = key;
    }

    /// Writes the hits, best first; gives how many.
    pub(super) fn write(mut self, docids: &mut [u32], scores: &mut [u32]) -> usize {
        let keys = &mut self.keys[..self.found];
        keys.sort_unstable_by(|a, b| b.cmp(a));
        for ((&mut key, docid), score) in keys.iter_mut().zip(docids).zip(scores) {
            (*docid, *score) = (docid_of(key), score_of(key));
        }
        self.found
    }
}
