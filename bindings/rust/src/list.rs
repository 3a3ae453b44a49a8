//! One posting list between bytes and runs.

use crate::{answer, raw, Refusal};

/// How the bodies of a list are laid out. A search answers alike on both, and a list is equally long in both.
#[derive(Clone, Copy, Debug, PartialEq, Eq)]
pub enum Layout {
    /// Tag 03: each posting's gap number, then its score. A list that [`set`](crate::set) begins is so.
    Pairs,
    /// Tag 04, a strip: all gap numbers of a block, then all its scores.
    Strip,
}

/// Reads the list of a term to the front of two runs and gives how many postings there are: numbers 6, 7, 12, 8 (that list), 9.
///
/// ```
/// use tagmurlen::{read_list, write_list, Layout, Refusal};
///
/// let mut shelf = [0; 28];
/// write_list(Layout::Pairs, 7, &[2, 4], &[5, 3], &mut shelf)?;
/// let (mut docids, mut scores) = ([0; 3], [0; 3]);
/// assert_eq!(read_list(&shelf, 7, &mut docids, &mut scores), Ok(2));
/// assert_eq!((docids, scores), ([2, 4, 0], [5, 3, 0]));
/// assert_eq!(read_list(&shelf, 8, &mut docids, &mut scores), Err(Refusal { number: 12, offset: 0 }));
/// # Ok::<(), Refusal>(())
/// ```
pub fn read_list(shelf: &[u8], term: u32, docids: &mut [u32], scores: &mut [u16]) -> Result<usize, Refusal> {
    // SAFETY: the slices live through the call; both runs are borrowed alone, and the call stores within their lengths.
    answer(|value| unsafe {
        raw::tagmurlen_read_list(
            shelf.as_ptr(),
            shelf.len(),
            term,
            docids.as_mut_ptr(),
            docids.len(),
            scores.as_mut_ptr(),
            scores.len(),
            value,
        )
    })
}

/// Writes a list in a layout to the front of a buffer and gives its length: numbers 11, 10, 9.
///
/// ```
/// use tagmurlen::{write_list, Layout, Refusal};
///
/// let mut out = [0; 30];
/// assert_eq!(write_list(Layout::Strip, 7, &[2, 4], &[5, 3], &mut out), Ok(28));
/// assert_eq!(out[20..], [4, 0, 5, 1, 0, 5, 0, 3, 0, 0]); // the gap minus one, then both scores
/// assert_eq!(write_list(Layout::Strip, 7, &[4, 2], &[5, 3], &mut out), Err(Refusal { number: 10, offset: 1 }));
/// ```
pub fn write_list(layout: Layout, term: u32, docids: &[u32], scores: &[u16], out: &mut [u8]) -> Result<usize, Refusal> {
    // SAFETY: the slices live through the call; `out` is borrowed alone, and the call stores within its length.
    answer(|value| unsafe {
        raw::tagmurlen_write_list(
            layout == Layout::Strip,
            term,
            docids.as_ptr(),
            docids.len(),
            scores.as_ptr(),
            scores.len(),
            out.as_mut_ptr(),
            out.len(),
            value,
        )
    })
}
