//! The two rankings: all lists read, and the pruned search with its book.

use crate::{answer, raw, Refusal};

/// The best k documents of a query, all its lists read, to the front of two runs; gives how many there are: numbers 1 to 5, 6, 7, 9, 8.
///
/// ```
/// use tagmurlen::{rank_all, write_list, Layout, Query, Refusal};
///
/// let mut shelf = [0; 28];
/// write_list(Layout::Pairs, 7, &[2, 4], &[5, 3], &mut shelf)?;
/// let query = Query::new(3).term(7, 10).build()?;
/// let (mut docids, mut scores) = ([0; 3], [0; 3]);
/// assert_eq!(rank_all(&query, &shelf, &mut docids, &mut scores), Ok(2));
/// assert_eq!((docids, scores), ([2, 4, 0], [50, 30, 0]));
/// assert_eq!(rank_all(&query, &shelf, &mut docids[..2], &mut scores), Err(Refusal { number: 9, offset: 0 })); // k rows are to be lent
/// # Ok::<(), Refusal>(())
/// ```
pub fn rank_all(query: &[u8], shelf: &[u8], docids: &mut [u32], scores: &mut [u32]) -> Result<usize, Refusal> {
    // SAFETY: the slices live through the call; both runs are borrowed alone, and the call stores within their lengths.
    answer(|value| unsafe {
        raw::tagmurlen_rank_all(
            query.as_ptr(),
            query.len(),
            shelf.as_ptr(),
            shelf.len(),
            docids.as_mut_ptr(),
            docids.len(),
            scores.as_mut_ptr(),
            scores.len(),
            value,
        )
    })
}

/// As many rows as a book can need.
pub const MAX_INTERVALS: usize = 1025;

/// The book of a search: a row for each interval of sheets, in docid order, in three runs that the caller lends.
pub struct Book<'a> {
    firsts: &'a mut [u32],
    ceilings: &'a mut [u32],
    marks: &'a mut [u8],
    intervals: usize,
}

impl<'a> Book<'a> {
    /// A book in three runs: the first docid of an interval, its ceiling, and its mark (0 skipped, 1 opened, 2 stopped here, 3 not reached). A run
    /// shorter than the number of intervals is refused as 9; [`MAX_INTERVALS`] rows are always enough.
    ///
    /// ```
    /// use tagmurlen::{search, Book, Query, Refusal};
    ///
    /// let query = Query::new(1).term(7, 1).build()?;
    /// let (mut firsts, mut ceilings, mut marks) = ([0; 1], [0; 1], [9; 1]);
    /// let mut book = Book::new(&mut firsts, &mut ceilings, &mut marks);
    /// search(&query, &[], &mut [0], &mut [0], &mut book)?; // on the empty shelf all sheets are one interval
    /// assert_eq!((firsts, ceilings, marks), ([1], [0], [0]));
    /// # Ok::<(), Refusal>(())
    /// ```
    pub fn new(firsts: &'a mut [u32], ceilings: &'a mut [u32], marks: &'a mut [u8]) -> Book<'a> {
        Book { firsts, ceilings, marks, intervals: 0 }
    }

    /// How many rows the last search filled, at the front of each run: one for each interval where it was accepted, and also where it stopped at a
    /// wrong body (8); none after any other refusal.
    ///
    /// ```
    /// use tagmurlen::{search, write_list, Book, Layout, Query, Refusal};
    ///
    /// let mut shelf = [0; 28];
    /// write_list(Layout::Pairs, 7, &[2, 4], &[5, 3], &mut shelf)?;
    /// shelf[23..25].fill(0); // the first posting's score: the body is wrong now
    /// let query = Query::new(1).term(7, 1).build()?;
    /// let (mut firsts, mut ceilings, mut marks) = ([0; 3], [0; 3], [9; 3]);
    /// let mut book = Book::new(&mut firsts, &mut ceilings, &mut marks);
    /// let refusal = search(&query, &shelf, &mut [0], &mut [0], &mut book).unwrap_err();
    /// assert_eq!((refusal.number, refusal.offset, book.intervals()), (8, 20, 3));
    /// assert_eq!((firsts, ceilings, marks), ([1, 2, 5], [0, 5, 0], [0, 2, 3]));
    /// # Ok::<(), Refusal>(())
    /// ```
    pub fn intervals(&self) -> usize {
        self.intervals
    }
}

/// What a search found.
#[derive(Clone, Copy, Debug, PartialEq, Eq)]
pub struct Searched {
    /// How many hits there are.
    pub hits: usize,
    /// How many blocks it opened.
    pub opened: usize,
    /// How many blocks the query's lists have.
    pub blocks: usize,
}

/// The best k documents of a query, only the blocks opened that can still matter, to the front of two runs: numbers 1 to 5, 6, 7, 9, 8 (the blocks
/// it opens). On a sound shelf they are those of [`rank_all`].
///
/// ```
/// use tagmurlen::{search, write_list, Book, Layout, Query, Refusal, Searched, MAX_INTERVALS};
///
/// let mut shelf = [0; 28];
/// write_list(Layout::Pairs, 7, &[2, 4], &[5, 3], &mut shelf)?;
/// let query = Query::new(2).term(7, 10).build()?;
/// let (mut docids, mut scores) = ([0; 2], [0; 2]);
/// let (mut firsts, mut ceilings, mut marks) = ([0; MAX_INTERVALS], [0; MAX_INTERVALS], [0; MAX_INTERVALS]);
/// let mut book = Book::new(&mut firsts, &mut ceilings, &mut marks);
/// let found = search(&query, &shelf, &mut docids, &mut scores, &mut book)?;
/// assert_eq!(found, Searched { hits: 2, opened: 1, blocks: 1 });
/// assert_eq!((docids, scores), ([2, 4], [50, 30]));
/// assert_eq!(book.intervals(), 3); // sheet 1, sheets 2 to 4, and all behind
/// # Ok::<(), Refusal>(())
/// ```
pub fn search(query: &[u8], shelf: &[u8], docids: &mut [u32], scores: &mut [u32], book: &mut Book) -> Result<Searched, Refusal> {
    let (mut intervals, mut opened, mut blocks) = (0, 0, 0);
    // SAFETY: the slices live through the call; the five runs are borrowed alone, and the call stores within their lengths.
    let found = answer(|value| unsafe {
        raw::tagmurlen_search(
            query.as_ptr(),
            query.len(),
            shelf.as_ptr(),
            shelf.len(),
            docids.as_mut_ptr(),
            docids.len(),
            scores.as_mut_ptr(),
            scores.len(),
            book.firsts.as_mut_ptr(),
            book.firsts.len(),
            book.ceilings.as_mut_ptr(),
            book.ceilings.len(),
            book.marks.as_mut_ptr(),
            book.marks.len(),
            value,
            &mut intervals,
            &mut opened,
            &mut blocks,
        )
    });
    book.intervals = intervals as usize;
    found.map(|hits| Searched { hits, opened: opened as usize, blocks: blocks as usize })
}
