//! Set, clear and withdraw: the shelf is checked, and a list is read only where it changes.

use super::body::{is_right, read_body};
use super::list::{list_size, put_list, Postings};
use super::walk::{Block, List};
use super::{check_lists, check_with, Refusal};
use crate::reference::{Layout, MAX_DOCID, MAX_LISTS, MAX_POSTINGS, MAX_SHELF};
use std::cell::Cell;

/// A list as it is to be: the bytes it takes the place of, and its postings.
struct Changed {
    list: List,
    layout: Layout,
    postings: Postings,
}

impl Changed {
    /// A list of a sound shelf, with room for another posting.
    fn read(shelf: &[u8], list: &List) -> Changed {
        let layout = if list.strip(shelf) { Layout::Strip } else { Layout::Pairs };
        Changed { list: *list, layout, postings: Postings::read(shelf, list, 1).unwrap_or_default() }
    }

    /// A list that is not there yet.
    fn new(term: u32, at: usize) -> Changed {
        Changed { list: List { term, at, end: at, blocks: 0 }, layout: Layout::Pairs, postings: Postings::default() }
    }

    fn put(&mut self, docid: u32, score: u16) {
        let Postings { docids, scores } = &mut self.postings;
        match docids.binary_search(&docid) {
            Ok(i) => scores[i] = score,
            Err(i) => {
                docids.insert(i, docid);
                scores.insert(i, score);
            }
        }
    }

    /// Whether the docid was there.
    fn remove(&mut self, docid: u32) -> bool {
        let Ok(i) = self.postings.docids.binary_search(&docid) else { return false };
        self.postings.docids.remove(i);
        self.postings.scores.remove(i);
        true
    }

    /// The bytes it takes; a list left without postings goes.
    fn size(&self) -> usize {
        if self.postings.docids.is_empty() {
            0
        } else {
            list_size(&self.postings.docids)
        }
    }

    fn write(&self, out: &mut [u8]) -> usize {
        let Postings { docids, scores } = &self.postings;
        if docids.is_empty() {
            0
        } else {
            put_list(self.layout, self.list.term, docids, scores, out)
        }
    }
}

/// Writes a shelf with some lists changed, in their order, the others copied: 11, 9.
fn write_shelf(shelf: &[u8], changed: &[Changed], out: &mut [u8]) -> Result<usize, Refusal> {
    let size = changed.iter().fold(shelf.len(), |size, c| size - (c.list.end - c.list.at) + c.size());
    if size > MAX_SHELF {
        return Err((11, 0));
    }
    let out = out.get_mut(..size).ok_or((9, 0))?;
    let (mut from, mut to) = (0, 0);
    for one in changed {
        let kept = &shelf[from..one.list.at];
        out[to..to + kept.len()].copy_from_slice(kept);
        to += kept.len();
        to += one.write(&mut out[to..]);
        from = one.list.end;
    }
    out[to..].copy_from_slice(&shelf[from..]);
    Ok(size)
}

fn in_range(docid: u32) -> Result<(), Refusal> {
    if (1..=MAX_DOCID).contains(&docid) {
        Ok(())
    } else {
        Err((10, 0))
    }
}

/// In the order 10, 6/7, 8, 11, 9.
pub fn set(shelf: &[u8], term: u32, docid: u32, score: u16, out: &mut [u8]) -> Result<usize, Refusal> {
    in_range(docid)?;
    if score == 0 {
        return Err((10, 0));
    }
    let (mut lists, mut seat) = (0, None);
    check_lists(shelf, |list| {
        lists += 1;
        if seat.is_none() && list.term >= term {
            seat = Some(*list);
        }
    })?;
    let mut changed = match seat {
        Some(list) if list.term == term => Changed::read(shelf, &list),
        _ if lists == MAX_LISTS => return Err((11, 0)),
        _ => Changed::new(term, seat.map_or(shelf.len(), |list| list.at)),
    };
    changed.put(docid, score);
    if changed.postings.docids.len() > MAX_POSTINGS {
        return Err((11, 0));
    }
    write_shelf(shelf, &[changed], out)
}

/// In the order 10, 6/7, 8, 12, 11, 9.
pub fn clear(shelf: &[u8], term: u32, docid: u32, out: &mut [u8]) -> Result<usize, Refusal> {
    in_range(docid)?;
    let mut found = None;
    check_lists(shelf, |list| {
        if list.term == term {
            found = Some(*list);
        }
    })?;
    let mut changed = Changed::read(shelf, &found.ok_or((12, 0))?);
    if !changed.remove(docid) {
        return Err((12, 0));
    }
    write_shelf(shelf, &[changed], out)
}

/// In the order 10, 6/7, 8, 12, 11, 9. Which lists hold the docid is seen while their bodies are checked.
pub fn withdraw(shelf: &[u8], docid: u32, out: &mut [u8]) -> Result<usize, Refusal> {
    in_range(docid)?;
    let mut holders = Vec::new();
    let held = Cell::new(false);
    let right = |block: &Block| {
        if docid < block.least || block.greatest < docid {
            return is_right(shelf, block);
        }
        let mut here = false;
        let right = read_body(shelf, block, |_, posting, _| here |= posting == docid);
        held.set(here);
        right
    };
    check_with(shelf, right, |list| {
        if held.take() {
            holders.push(*list);
        }
    })?;
    if holders.is_empty() {
        return Err((12, 0));
    }
    let mut changed: Vec<Changed> = holders.iter().map(|list| Changed::read(shelf, list)).collect();
    changed.iter_mut().for_each(|one| assert!(one.remove(docid)));
    write_shelf(shelf, &changed, out)
}
