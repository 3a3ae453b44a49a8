//! The converter.

use super::list::put_blocks_as;
use super::shelf::check;
use super::{refuse, Posting, Refusal};

/// "A converter turns a list to the other layout, block by block. .. converter 6/7, 8 (whole shelf), 12, 9": the new shelf, where a buffer has room
/// for it.
pub fn convert(shelf: &[u8], term: u32, room: usize) -> Result<Vec<u8>, Refusal> {
    let lists = check(shelf)?;
    let Some(list) = lists.iter().find(|l| l.term == term) else { return refuse(12, 0) };
    let blocks: Vec<Vec<Posting>> = list.blocks.iter().map(|b| b.postings().expect("the shelf is sound")).collect();
    let blocks: Vec<&[Posting]> = blocks.iter().map(Vec::as_slice).collect();
    let turned = put_blocks_as(list.layout.other(), term, &blocks);
    let bytes = [&shelf[..list.start], &turned, &shelf[list.end..]].concat();
    if bytes.len() > room { refuse(9, 0) } else { Ok(bytes) }
}
