//! The archive's functions as they are, by `include/tagmurlen.h`. A slice is a pointer to its first element and how many there are.
//!
//! Each is safe to call with pointers and lengths of live slices, of which those that it may write overlap no other. It returns the refusal's number,
//! 0 where it accepts, and stores the refusal's offset or its result through `value`.
//!
//! ```
//! let (shelf, mut value) = ([9], 0);
//! // SAFETY: both live through the call.
//! let number = unsafe { tagmurlen::raw::tagmurlen_check(shelf.as_ptr(), shelf.len(), &mut value) };
//! assert_eq!((number, value), (6, 0)); // 9 is no tag of a list
//! ```

unsafe extern "C" {
    /// As [`check`](crate::check).
    pub fn tagmurlen_check(shelf: *const u8, shelf_len: usize, value: *mut u64) -> u32;

    /// As [`check_query`](crate::check_query).
    pub fn tagmurlen_check_query(query: *const u8, query_len: usize, value: *mut u64) -> u32;

    /// As [`read_list`](crate::read_list).
    pub fn tagmurlen_read_list(
        shelf: *const u8,
        shelf_len: usize,
        term: u32,
        docids: *mut u32,
        docids_len: usize,
        scores: *mut u16,
        scores_len: usize,
        value: *mut u64,
    ) -> u32;

    /// As [`write_list`](crate::write_list), in strips if `strip`.
    pub fn tagmurlen_write_list(
        strip: bool,
        term: u32,
        docids: *const u32,
        docids_len: usize,
        scores: *const u16,
        scores_len: usize,
        out: *mut u8,
        out_len: usize,
        value: *mut u64,
    ) -> u32;

    /// As [`rank_all`](crate::rank_all).
    pub fn tagmurlen_rank_all(
        query: *const u8,
        query_len: usize,
        shelf: *const u8,
        shelf_len: usize,
        docids: *mut u32,
        docids_len: usize,
        scores: *mut u32,
        scores_len: usize,
        value: *mut u64,
    ) -> u32;

    /// As [`search`](crate::search); stores three counts as well, which are 0 in a refusal, but for the intervals in number 8.
    pub fn tagmurlen_search(
        query: *const u8,
        query_len: usize,
        shelf: *const u8,
        shelf_len: usize,
        docids: *mut u32,
        docids_len: usize,
        scores: *mut u32,
        scores_len: usize,
        firsts: *mut u32,
        firsts_len: usize,
        ceilings: *mut u32,
        ceilings_len: usize,
        marks: *mut u8,
        marks_len: usize,
        value: *mut u64,
        intervals: *mut u64,
        opened: *mut u64,
        blocks: *mut u64,
    ) -> u32;

    /// As [`set`](crate::set).
    pub fn tagmurlen_set(
        shelf: *const u8,
        shelf_len: usize,
        term: u32,
        docid: u32,
        score: u16,
        out: *mut u8,
        out_len: usize,
        value: *mut u64,
    ) -> u32;

    /// As [`clear`](crate::clear).
    pub fn tagmurlen_clear(
        shelf: *const u8,
        shelf_len: usize,
        term: u32,
        docid: u32,
        out: *mut u8,
        out_len: usize,
        value: *mut u64,
    ) -> u32;

    /// As [`withdraw`](crate::withdraw).
    pub fn tagmurlen_withdraw(shelf: *const u8, shelf_len: usize, docid: u32, out: *mut u8, out_len: usize, value: *mut u64) -> u32;

    /// As [`convert`](crate::convert).
    pub fn tagmurlen_convert(shelf: *const u8, shelf_len: usize, term: u32, out: *mut u8, out_len: usize, value: *mut u64) -> u32;
}
