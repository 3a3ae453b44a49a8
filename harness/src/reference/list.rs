//! One posting list: read into two runs, and written from two runs.

use super::fields::{put_field, put_gap_number};
use super::shelf::{walk, Summary};
use super::{refuse, Layout, Posting, Refusal, MAX_DOCID, MAX_POSTINGS, PER_BLOCK};

/// "List reading 6/7, 12, 8 (that list), 9": the list's postings, where each of two runs has room for them.
pub fn read_list(shelf: &[u8], term: u32, docid_room: usize, score_room: usize) -> Result<Vec<Posting>, Refusal> {
    let lists = walk(shelf)?;
    let Some(list) = lists.iter().find(|l| l.term == term) else { return refuse(12, 0) };
    if let Some(body_at) = list.wrong_body() {
        return refuse(8, body_at);
    }
    let postings = list.postings().expect("no body is wrong");
    if docid_room.min(score_room) < postings.len() {
        return refuse(9, 0);
    }
    Ok(postings)
}

/// "Writing 11 (the longer run), 10 (unequal runs first), 9": the bytes, where a buffer has room for them. "The writer is told which" layout.
pub fn write_list(layout: Layout, term: u32, docids: &[u32], scores: &[u16], room: usize) -> Result<Vec<u8>, Refusal> {
    if docids.len().max(scores.len()) > MAX_POSTINGS {
        return refuse(11, 0);
    }
    if docids.len() != scores.len() {
        return refuse(10, docids.len().min(scores.len()));
    }
    if docids.is_empty() {
        return refuse(10, 0);
    }
    let rises = |i: usize| i == 0 || docids[i - 1] < docids[i];
    let in_range = |i: usize| (1..=MAX_DOCID).contains(&docids[i]) && scores[i] >= 1;
    if let Some(i) = (0..docids.len()).find(|&i| !rises(i) || !in_range(i)) {
        return refuse(10, i);
    }
    let postings: Vec<Posting> = docids.iter().copied().zip(scores.iter().copied()).collect();
    let bytes = pack_as(layout, term, &postings);
    if bytes.len() > room { refuse(9, 0) } else { Ok(bytes) }
}

/// "The writer fills every block but the last with 100."
pub fn pack_as(layout: Layout, term: u32, postings: &[Posting]) -> Vec<u8> {
    let blocks: Vec<&[Posting]> = postings.chunks(PER_BLOCK).collect();
    put_blocks_as(layout, term, &blocks)
}

/// The same with tag 03: "a new list gets 03".
pub fn pack(term: u32, postings: &[Posting]) -> Vec<u8> {
    pack_as(Layout::Pairs, term, postings)
}

/// A list with these blocks, whatever their sizes, with tag 03.
pub fn put_blocks(term: u32, blocks: &[&[Posting]]) -> Vec<u8> {
    put_blocks_as(Layout::Pairs, term, blocks)
}

/// A list with these blocks in a layout.
pub fn put_blocks_as(layout: Layout, term: u32, blocks: &[&[Posting]]) -> Vec<u8> {
    let mut out = Vec::new();
    let mut header = term.to_be_bytes().to_vec();
    header.push(blocks.len() as u8);
    put_field(&mut out, 1, &header);
    for block in blocks {
        put_summary(&mut out, summary_of(block));
    }
    for block in blocks {
        put_field(&mut out, layout.tag(), &body_of(layout, block));
    }
    out
}

/// What a block's summary must say.
pub fn summary_of(block: &[Posting]) -> Summary {
    Summary {
        least: block[0].0,
        greatest: block[block.len() - 1].0,
        top: block.iter().map(|p| u32::from(p.1)).max().unwrap_or(0),
        count: block.len() as u32,
    }
}

/// Appends a summary's field.
pub fn put_summary(out: &mut Vec<u8>, s: Summary) {
    let mut value = s.least.to_be_bytes()[1..].to_vec();
    value.extend(&s.greatest.to_be_bytes()[1..]);
    value.extend(&s.top.to_be_bytes()[2..]);
    value.push(s.count as u8);
    put_field(out, 2, &value);
}

/// Tag 03: "the first posting's score, then for each later posting the gap minus one and the score"; tag 04: "all gap numbers first, then all
/// scores, two bytes each, the first posting's score first".
pub fn body_of(layout: Layout, block: &[Posting]) -> Vec<u8> {
    let mut body = Vec::new();
    if layout == Layout::Strip {
        block.windows(2).for_each(|pair| put_gap_number(&mut body, pair[1].0 - pair[0].0 - 1));
    }
    for (i, posting) in block.iter().enumerate() {
        if layout == Layout::Pairs && i > 0 {
            put_gap_number(&mut body, posting.0 - block[i - 1].0 - 1);
        }
        body.extend(posting.1.to_be_bytes());
    }
    body
}
