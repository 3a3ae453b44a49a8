//! A search over errata sheets: safe functions over the proved archive. Each reads only the slices it is given and returns its result, or a
//! [`Refusal`]. A refusal leaves every output as it was, but for the book of a search that stops at a wrong body.
//!
//! ```
//! use tagmurlen::{rank_all, set, Query, Refusal};
//!
//! fn best_sheet() -> Result<u32, Refusal> {
//!     let mut shelf = [0; 64];
//!     let length = set(&[], 7, 9, 300, &mut shelf)?; // term 7, sheet 9, score 300, on the empty shelf
//!     let query = Query::new(1).term(7, 10).build()?;
//!     let mut docid = [0];
//!     rank_all(&query, &shelf[..length], &mut docid, &mut [0])?;
//!     Ok(docid[0])
//! }
//!
//! assert_eq!(best_sheet(), Ok(9));
//! ```
#![warn(missing_docs)]

mod check;
mod edit;
mod list;
mod query;
pub mod raw;
mod refusal;
mod search;

pub use check::{check, check_query};
pub use edit::{clear, convert, set, withdraw};
pub use list::{read_list, write_list, Layout};
pub use query::Query;
pub use refusal::Refusal;
pub use search::{rank_all, search, Book, Searched, MAX_INTERVALS};

/// A call's answer: it was accepted where the number is 0, and `value` is then its result, otherwise the refusal's offset.
fn answer(call: impl FnOnce(*mut u64) -> u32) -> Result<usize, Refusal> {
    let mut value = 0;
    match call(&mut value) {
        0 => Ok(value as usize),
        number => Err(Refusal { number, offset: value }),
    }
}
