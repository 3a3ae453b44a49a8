//! The three edits and the converter: each reads one shelf and writes another.

use crate::{answer, raw, Refusal};

/// Adds a posting or replaces its score; a list keeps its layout: the new shelf to the front of `out`, and its length: numbers 10, 6, 7, 8, 11, 9.
///
/// ```
/// use tagmurlen::{set, Refusal};
///
/// let mut shelf = [0; 25];
/// assert_eq!(set(&[], 7, 9, 300, &mut shelf), Ok(25));
/// assert_eq!(set(&shelf, 7, 9, 0, &mut [0; 25]), Err(Refusal { number: 10, offset: 0 })); // scores begin at 1
/// ```
pub fn set(shelf: &[u8], term: u32, docid: u32, score: u16, out: &mut [u8]) -> Result<usize, Refusal> {
    // SAFETY: the slices live through the call; `out` is borrowed alone, and the call stores within its length.
    answer(|value| unsafe {
        raw::tagmurlen_set(shelf.as_ptr(), shelf.len(), term, docid, score, out.as_mut_ptr(), out.len(), value)
    })
}

/// Removes a posting: the new shelf to the front of `out`, and its length: numbers 10, 6, 7, 8, 12, 11, 9.
///
/// ```
/// use tagmurlen::{clear, set, Refusal};
///
/// let mut shelf = [0; 25];
/// set(&[], 7, 9, 300, &mut shelf)?;
/// assert_eq!(clear(&shelf, 7, 8, &mut [0; 25]), Err(Refusal { number: 12, offset: 0 }));
/// assert_eq!(clear(&shelf, 7, 9, &mut []), Ok(0)); // a list left without postings goes
/// # Ok::<(), Refusal>(())
/// ```
pub fn clear(shelf: &[u8], term: u32, docid: u32, out: &mut [u8]) -> Result<usize, Refusal> {
    // SAFETY: as in `set`.
    answer(|value| unsafe { raw::tagmurlen_clear(shelf.as_ptr(), shelf.len(), term, docid, out.as_mut_ptr(), out.len(), value) })
}

/// Removes a sheet from every list: the new shelf to the front of `out`, and its length: numbers 10, 6, 7, 8, 12, 11, 9.
///
/// ```
/// use tagmurlen::{set, withdraw, Refusal};
///
/// let (mut one, mut two) = ([0; 25], [0; 50]);
/// set(&[], 7, 9, 300, &mut one)?;
/// set(&one, 8, 9, 200, &mut two)?;
/// assert_eq!(withdraw(&two, 8, &mut [0; 50]), Err(Refusal { number: 12, offset: 0 }));
/// assert_eq!(withdraw(&two, 9, &mut [0; 50]), Ok(0));
/// # Ok::<(), Refusal>(())
/// ```
pub fn withdraw(shelf: &[u8], docid: u32, out: &mut [u8]) -> Result<usize, Refusal> {
    // SAFETY: as in `set`.
    answer(|value| unsafe { raw::tagmurlen_withdraw(shelf.as_ptr(), shelf.len(), docid, out.as_mut_ptr(), out.len(), value) })
}

/// Turns the list of a term to the other layout, block by block, changing no posting: the new shelf to the front of `out`, and its length, which is
/// the old one's: numbers 6, 7, 8, 12, 9.
///
/// ```
/// use tagmurlen::{convert, write_list, Layout, Refusal};
///
/// let (mut pairs, mut strips) = ([0; 28], [0; 28]);
/// write_list(Layout::Pairs, 7, &[2, 4], &[5, 3], &mut pairs)?;
/// assert_eq!(convert(&pairs, 7, &mut strips), Ok(28));
/// assert_eq!((&pairs[20..], &strips[20..]), (&[3, 0, 5, 0, 5, 1, 0, 3][..], &[4, 0, 5, 1, 0, 5, 0, 3][..]));
/// assert_eq!(convert(&pairs, 8, &mut strips), Err(Refusal { number: 12, offset: 0 }));
/// # Ok::<(), Refusal>(())
/// ```
pub fn convert(shelf: &[u8], term: u32, out: &mut [u8]) -> Result<usize, Refusal> {
    // SAFETY: as in `set`.
    answer(|value| unsafe { raw::tagmurlen_convert(shelf.as_ptr(), shelf.len(), term, out.as_mut_ptr(), out.len(), value) })
}
