//! A shelf: its walk (6 and 7) and its checker (then 8).

use super::fields::{field, gap_number, number};
use super::{refuse, Layout, Posting, Refusal, MAX_BLOCKS, MAX_LISTS, MAX_SHELF, PER_BLOCK};

/// "least docid (3), greatest docid (3), greatest score (2), posting count (1)"
#[derive(Clone, Copy, Debug, PartialEq, Eq)]
pub struct Summary {
    pub least: u32,
    pub greatest: u32,
    pub top: u32,
    pub count: u32,
}

impl Summary {
    fn read(value: &[u8]) -> Summary {
        Summary { least: number(&value[0..3]), greatest: number(&value[3..6]), top: number(&value[6..8]), count: number(&value[8..9]) }
    }

    /// "A summary is wrong if .."
    fn is_wrong(&self, previous_greatest: u32) -> bool {
        self.least == 0
            || self.least > self.greatest
            || self.top == 0
            || !(1..=PER_BLOCK as u32).contains(&self.count)
            || self.count > self.greatest - self.least + 1
            || self.count == 1 && self.least != self.greatest
            || self.least <= previous_greatest
    }
}

/// One block: its summary, and its body with the body's layout and the offset of its tag.
#[derive(Clone, Copy, Debug)]
pub struct Block<'a> {
    pub summary: Summary,
    pub layout: Layout,
    pub body_at: usize,
    pub body: &'a [u8],
}

/// The gap number with which the bytes begin, which are moved past it.
fn take_gap(rest: &mut &[u8]) -> Option<u32> {
    let (gap, after) = gap_number(rest)?;
    *rest = after;
    Some(gap)
}

/// The score with which the bytes begin, which are moved past it.
fn take_score(rest: &mut &[u8]) -> Option<u16> {
    let (score, after) = rest.split_at_checked(2)?;
    *rest = after;
    Some(number(score) as u16)
}

impl Block<'_> {
    /// The gap numbers and the scores that the body reads as, to its last byte.
    fn numbers(&self) -> Option<(Vec<u32>, Vec<u16>)> {
        let mut rest = self.body;
        let (mut gaps, mut scores) = (Vec::new(), Vec::new());
        match self.layout {
            Layout::Pairs => {
                scores.push(take_score(&mut rest)?);
                for _ in 1..self.summary.count {
                    gaps.push(take_gap(&mut rest)?);
                    scores.push(take_score(&mut rest)?);
                }
            }
            Layout::Strip => {
                for _ in 1..self.summary.count {
                    gaps.push(take_gap(&mut rest)?);
                }
                for _ in 0..self.summary.count {
                    scores.push(take_score(&mut rest)?);
                }
            }
        }
        rest.is_empty().then_some((gaps, scores))
    }

    /// The block's postings; nothing where its body is wrong: "unless it reads, to its last byte, as exactly count postings with scores of 1 or
    /// more, the last docid being greatest, and the largest score equal to the summary's".
    pub fn postings(&self) -> Option<Vec<Posting>> {
        let (gaps, scores) = self.numbers()?;
        let mut docids = vec![u64::from(self.summary.least)];
        for gap_less_one in gaps {
            docids.push(docids[docids.len() - 1] + u64::from(gap_less_one) + 1);
        }
        let right = docids.last() == Some(&u64::from(self.summary.greatest))
            && scores.iter().all(|&score| score >= 1)
            && scores.iter().max().map(|&top| u32::from(top)) == Some(self.summary.top);
        right.then(|| docids.into_iter().map(|docid| docid as u32).zip(scores).collect())
    }
}

/// One list: its term, its bytes' place on the shelf, its layout and its blocks.
#[derive(Clone, Debug)]
pub struct List<'a> {
    pub term: u32,
    pub start: usize,
    pub end: usize,
    pub layout: Layout,
    pub blocks: Vec<Block<'a>>,
}

impl List<'_> {
    /// All postings of a list whose bodies are right.
    pub fn postings(&self) -> Option<Vec<Posting>> {
        let blocks: Option<Vec<_>> = self.blocks.iter().map(Block::postings).collect();
        Some(blocks?.concat())
    }

    /// The tag of its first wrong body.
    pub fn wrong_body(&self) -> Option<usize> {
        self.blocks.iter().find(|b| b.postings().is_none()).map(|b| b.body_at)
    }
}

/// The lists of a shelf: "Faults 6 and 7 are found in one walk, first in byte order."
pub fn walk(shelf: &[u8]) -> Result<Vec<List<'_>>, Refusal> {
    if shelf.len() > MAX_SHELF {
        return refuse(6, 0);
    }
    let mut lists: Vec<List> = Vec::new();
    let mut at = 0;
    while at < shelf.len() {
        if lists.len() == MAX_LISTS {
            return refuse(6, at);
        }
        let list = one_list(shelf, at, lists.last().map(|l| l.term))?;
        at = list.end;
        lists.push(list);
    }
    Ok(lists)
}

/// A list's term and block count. A term that does not rise is a fault at the header's tag, before any of the fields behind it.
fn header(shelf: &[u8], at: usize, previous: Option<u32>) -> Option<(u32, usize)> {
    let value = field(shelf, at, 1).filter(|v| v.len() == 5)?;
    let (term, blocks) = (number(&value[..4]), number(&value[4..]) as usize);
    let rises = previous.is_none_or(|p| p < term);
    (rises && (1..=MAX_BLOCKS).contains(&blocks)).then_some((term, blocks))
}

/// The first body's tag is the list's: "mixed tags in one list are 6".
fn one_list(shelf: &[u8], start: usize, previous: Option<u32>) -> Result<List<'_>, Refusal> {
    let Some((term, count)) = header(shelf, start, previous) else { return refuse(6, start) };
    let mut at = start + 8;
    let mut summaries: Vec<Summary> = Vec::new();
    for _ in 0..count {
        let Some(value) = field(shelf, at, 2).filter(|v| v.len() == 9) else { return refuse(6, at) };
        let summary = Summary::read(value);
        if summary.is_wrong(summaries.last().map_or(0, |s| s.greatest)) {
            return refuse(7, at);
        }
        summaries.push(summary);
        at += 12;
    }
    let Some(layout) = Layout::BOTH.into_iter().find(|l| shelf.get(at) == Some(&l.tag())) else { return refuse(6, at) };
    let mut blocks = Vec::new();
    for summary in summaries {
        let Some(body) = field(shelf, at, layout.tag()) else { return refuse(6, at) };
        blocks.push(Block { summary, layout, body_at: at, body });
        at += 3 + body.len();
    }
    Ok(List { term, start, end: at, layout, blocks })
}

/// "Checker 6/7, 8."
pub fn check(shelf: &[u8]) -> Result<Vec<List<'_>>, Refusal> {
    let lists = walk(shelf)?;
    match lists.iter().find_map(List::wrong_body) {
        Some(body_at) => refuse(8, body_at),
        None => Ok(lists),
    }
}
