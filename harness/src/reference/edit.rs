//! The edits: set, clear, withdraw.

use super::list::pack_as;
use super::shelf::{check, List};
use super::{refuse, Layout, Posting, Refusal, MAX_DOCID, MAX_LISTS, MAX_POSTINGS, MAX_SHELF};

#[derive(Clone, Copy, Debug, PartialEq, Eq)]
pub enum Edit {
    /// "Set (term, docid, score) adds or replaces."
    Set(u32, u32, u16),
    /// "Clear (term, docid) removes one posting."
    Clear(u32, u32),
    /// "Withdraw (docid) removes a sheet from every list."
    Withdraw(u32),
}

/// A list of the result: as it stands on the shelf, or its postings to be packed anew. "an edit keeps a list's tag"
enum Piece<'a> {
    Kept(&'a [u8]),
    Packed(Layout, u32, Vec<Posting>),
}

/// "Edits 10, 6/7, 8 (whole shelf), 12, 11, 9": the new shelf, where a buffer has room for it.
pub fn edit(edit: Edit, shelf: &[u8], room: usize) -> Result<Vec<u8>, Refusal> {
    if out_of_range(edit) {
        return refuse(10, 0);
    }
    let lists = check(shelf)?;
    let Some(pieces) = edited(edit, shelf, &lists) else { return refuse(12, 0) };
    if pieces.len() > MAX_LISTS || pieces.iter().any(|p| matches!(p, Piece::Packed(_, _, ps) if ps.len() > MAX_POSTINGS)) {
        return refuse(11, 0);
    }
    let bytes: Vec<u8> = pieces.iter().flat_map(bytes_of).collect();
    if bytes.len() > MAX_SHELF {
        return refuse(11, 0);
    }
    if bytes.len() > room { refuse(9, 0) } else { Ok(bytes) }
}

fn out_of_range(edit: Edit) -> bool {
    let (docid, score) = match edit {
        Edit::Set(_, docid, score) => (docid, score),
        Edit::Clear(_, docid) | Edit::Withdraw(docid) => (docid, 1),
    };
    !(1..=MAX_DOCID).contains(&docid) || score == 0
}

fn bytes_of(piece: &Piece) -> Vec<u8> {
    match piece {
        Piece::Kept(bytes) => bytes.to_vec(),
        Piece::Packed(layout, term, postings) => pack_as(*layout, *term, postings),
    }
}

/// The lists of the result, "a list left without postings goes"; nothing where the list or the posting is not there.
fn edited<'a>(edit: Edit, shelf: &'a [u8], lists: &[List<'a>]) -> Option<Vec<Piece<'a>>> {
    match edit {
        Edit::Set(term, docid, score) => Some(with_posting(shelf, lists, term, (docid, score))),
        Edit::Clear(term, docid) => without(shelf, lists, docid, |t| t == term),
        Edit::Withdraw(docid) => without(shelf, lists, docid, |_| true),
    }
}

/// "a new list gets 03"
fn with_posting<'a>(shelf: &'a [u8], lists: &[List<'a>], term: u32, posting: Posting) -> Vec<Piece<'a>> {
    let mut pieces: Vec<Piece> = Vec::new();
    let (mut layout, mut named) = (Layout::Pairs, Vec::new());
    for list in lists.iter().filter(|l| l.term < term) {
        pieces.push(Piece::Kept(&shelf[list.start..list.end]));
    }
    if let Some(list) = lists.iter().find(|l| l.term == term) {
        (layout, named) = (list.layout, list.postings().expect("the shelf is sound"));
    }
    named.retain(|p| p.0 != posting.0);
    named.push(posting);
    named.sort_unstable();
    pieces.push(Piece::Packed(layout, term, named));
    for list in lists.iter().filter(|l| l.term > term) {
        pieces.push(Piece::Kept(&shelf[list.start..list.end]));
    }
    pieces
}

fn without<'a>(shelf: &'a [u8], lists: &[List<'a>], docid: u32, named: impl Fn(u32) -> bool) -> Option<Vec<Piece<'a>>> {
    let mut there = false;
    let mut pieces = Vec::new();
    for list in lists {
        let mut postings = list.postings().expect("the shelf is sound");
        let holds = named(list.term) && postings.iter().any(|p| p.0 == docid);
        if !holds {
            pieces.push(Piece::Kept(&shelf[list.start..list.end]));
            continue;
        }
        there = true;
        postings.retain(|p| p.0 != docid);
        if !postings.is_empty() {
            pieces.push(Piece::Packed(list.layout, list.term, postings));
        }
    }
    there.then_some(pieces)
}
