//! A shelf's bytes. Only the proved core reads or writes them; this lends it buffers that are long enough and gives what it made.

use crate::fields::{MAX_SHEETS_OF_A_WORD, MAX_SHELF};
use proved::{Layout, Refusal};

/// A sheet and its score.
pub type Posting = (u32, u16);

/// The refusal of a list that is not there.
const NOT_THERE: u32 = 12;

/// The new shelf that an edit makes.
pub fn edited(edit: impl FnOnce(&mut [u8]) -> Result<usize, Refusal>) -> Result<Vec<u8>, Refusal> {
    let mut new = vec![0; MAX_SHELF];
    let length = edit(&mut new)?;
    new.truncate(length);
    Ok(new)
}

/// A term's postings in rising sheet number: none where the shelf has no list of it.
pub fn postings(shelf: &[u8], term: u32) -> Result<Vec<Posting>, Refusal> {
    let (mut sheets, mut scores) = (vec![0; MAX_SHEETS_OF_A_WORD], vec![0; MAX_SHEETS_OF_A_WORD]);
    match proved::read_list(shelf, term, &mut sheets, &mut scores) {
        Ok(count) => Ok(sheets.into_iter().zip(scores).take(count).collect()),
        Err(refusal) if refusal.number == NOT_THERE => Ok(Vec::new()),
        Err(refusal) => Err(refusal),
    }
}

/// One list's bytes, as a list that an edit begins is laid out, so that a shelf built at once equals the one that the same edits make.
pub fn list(term: u32, postings: &[Posting]) -> Result<Vec<u8>, Refusal> {
    let (sheets, scores): (Vec<u32>, Vec<u16>) = postings.iter().copied().unzip();
    edited(|out| proved::write_list(Layout::Pairs, term, &sheets, &scores, out))
}
