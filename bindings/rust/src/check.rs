//! A shelf checked, and a query.

use crate::{answer, raw, Refusal};

/// Whether a shelf is sound: numbers 6, 7, 8.
///
/// ```
/// # use tagmurlen::{check, Refusal};
/// assert_eq!(check(&[]), Ok(())); // the empty shelf
/// assert_eq!(check(&[1, 0, 5, 0]), Err(Refusal { number: 6, offset: 0 })); // a list's first field, cut short
/// ```
pub fn check(shelf: &[u8]) -> Result<(), Refusal> {
    // SAFETY: the slice lives through the call, which reads it and stores one number.
    answer(|value| unsafe { raw::tagmurlen_check(shelf.as_ptr(), shelf.len(), value) }).map(drop)
}

/// How many rows a query wants, k: numbers 1 to 5. [`Query`](crate::Query) makes the bytes.
///
/// ```
/// # use tagmurlen::{check_query, Refusal};
/// assert_eq!(check_query(&[0x20, 0, 1, 2, 0x21, 0, 5, 0, 0, 0, 7, 10]), Ok(2)); // the best 2 for term 7, weight 10
/// assert_eq!(check_query(&[0x20, 0, 1, 2]), Err(Refusal { number: 3, offset: 4 })); // no term
/// ```
pub fn check_query(query: &[u8]) -> Result<usize, Refusal> {
    // SAFETY: as in `check`.
    answer(|value| unsafe { raw::tagmurlen_check_query(query.as_ptr(), query.len(), value) })
}
