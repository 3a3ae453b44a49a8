//! The measure for the benchmarks: the same rules once more, written for speed in safe Rust with the standard library alone.
//!
//! What was found to matter, by measuring, stands with the code that does it. Nothing here is kept between two calls.

mod best;
mod body;
pub mod convert;
pub mod edit;
pub mod list;
mod merge;
pub mod pruned;
mod query;
pub mod rank;
pub mod skipping;
mod walk;

use body::is_right;
use walk::{blocks_of, walk, Block, List};

/// A refusal's number and offset.
pub type Refusal = (u32, usize);

/// The first fault, in the order 6/7, 8.
pub fn check(shelf: &[u8]) -> Result<(), Refusal> {
    check_lists(shelf, |_| ())
}

/// The same, and hands on each list.
#[inline]
fn check_lists(shelf: &[u8], each: impl FnMut(&List)) -> Result<(), Refusal> {
    check_with(shelf, |block| is_right(shelf, block), each)
}

/// The same, each body judged as the caller says. A list's bodies are read while its fields are still at hand; only what is named waits for the walk's
/// end, and once a body is wrong no list is handed on.
#[inline]
fn check_with(shelf: &[u8], mut right: impl FnMut(&Block) -> bool, mut each: impl FnMut(&List)) -> Result<(), Refusal> {
    let mut wrong = None;
    walk(shelf, |list| {
        if wrong.is_none() {
            wrong = blocks_of(shelf, list).find(|block| !right(block)).map(|block| block.body_at());
            each(list);
        }
    })?;
    wrong.map_or(Ok(()), |at| Err((8, at)))
}
