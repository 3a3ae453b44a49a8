//! Each function accepted and refused, the outputs past what is written, and the refusals' text. What the archive answers is proved; these see that
//! the bindings hand it on.

use tagmurlen::*;

/// What stands in an output before a call.
const OLD: u8 = 0xA5;

fn refused<T>(number: u32, offset: u64) -> Result<T, Refusal> {
    Err(Refusal { number, offset })
}

/// The paper's search, with k hits.
fn m1_query(k: u8) -> Vec<u8> {
    Query::new(k).term(7, 1).term(9, 2).build().expect("it is right")
}

/// The paper's shelf of 73 bytes.
const M1: [u8; 73] = [
    1, 0, 5, 0, 0, 0, 7, 2, 2, 0, 9, 0, 0, 2, 0, 0, 4, 0, 5, 2, 2, 0, 9, 0, 0, 9, 0, 0, 9, 0, 1, 1, 3, 0, 5, 0, 5, 1, 0, 3, 3, 0, 2, 0, 1, //
    1, 0, 5, 0, 0, 0, 9, 1, 2, 0, 9, 0, 0, 4, 0, 0, 6, 0, 4, 2, 3, 0, 5, 0, 4, 1, 0, 2,
];

/// M1's shelf with the second summary's score made 3, so that the body at 40 is wrong.
fn m5() -> [u8; 73] {
    let mut shelf = M1;
    shelf[30] = 3;
    shelf
}

/// Sheets 2 and 4 of term 7, scores 5 and 3.
fn small() -> [u8; 28] {
    let mut shelf = [0; 28];
    assert_eq!(write_list(Layout::Pairs, 7, &[2, 4], &[5, 3], &mut shelf), Ok(28));
    shelf
}

/// Runs an edit with a buffer of `room` bytes, in the middle of a longer one of which the rest must stay as it was.
fn into_room(room: usize, edit: impl FnOnce(&mut [u8]) -> Result<usize, Refusal>) -> Result<Vec<u8>, Refusal> {
    let mut buffer = vec![OLD; room + 32];
    let done = edit(&mut buffer[16..16 + room]);
    let written = done.unwrap_or(0);
    assert!(buffer[..16].iter().chain(&buffer[16 + written..]).all(|&b| b == OLD), "a byte past the {written} was touched");
    done.map(|n| buffer[16..16 + n].to_vec())
}

#[test]
fn shelves_are_checked() {
    assert_eq!(check(&[]), Ok(()));
    assert_eq!(check(&M1), Ok(()));
    assert_eq!(check(&M1[..72]), refused(6, 65));
    let mut wrong = M1;
    wrong[25] = 4; // the second summary's least docid is not above the first's greatest
    assert_eq!(check(&wrong), refused(7, 20));
    assert_eq!(check(&m5()), refused(8, 40));
}

#[test]
fn queries_are_built_and_checked() {
    assert_eq!(m1_query(1), [0x20, 0, 1, 1, 0x21, 0, 5, 0, 0, 0, 7, 1, 0x21, 0, 5, 0, 0, 0, 9, 2]);
    assert_eq!(Query::new(1).term(0x0102_0304, 5).build(), Ok(vec![0x20, 0, 1, 1, 0x21, 0, 5, 1, 2, 3, 4, 5]));
    assert_eq!(check_query(&m1_query(100)), Ok(100));
    assert_eq!(check_query(&m1_query(1)[..19]), refused(1, 12));
}

#[test]
fn wrong_queries_are_not_built() {
    let terms = |n: u32| (1..=n).fold(Query::new(1), |query, term| query.term(term, 1)).build();
    assert_eq!(Query::new(0).term(7, 1).build(), refused(2, 0));
    assert_eq!(Query::new(101).term(7, 1).build(), refused(2, 0));
    assert_eq!(terms(0), refused(3, 4));
    assert_eq!(terms(8).map(|bytes| bytes.len()), Ok(68));
    assert_eq!(terms(9), refused(3, 68));
    assert_eq!(Query::new(1).term(7, 1).term(8, 0).build(), refused(4, 12));
    assert_eq!(Query::new(1).term(7, 1).term(8, 1).term(7, 2).build(), refused(5, 20));
}

#[test]
fn lists_are_read() {
    let (mut docids, mut scores) = ([77; 5], [88; 5]);
    assert_eq!(read_list(&M1, 7, &mut docids[..4], &mut scores[..3]), Ok(3));
    assert_eq!((docids, scores), ([2, 4, 9, 77, 77], [5, 3, 1, 88, 88]));
    let (mut docids, mut scores) = ([77; 3], [88; 3]);
    assert_eq!(read_list(&M1, 8, &mut docids, &mut scores), refused(12, 0));
    assert_eq!(read_list(&M1, 7, &mut docids[..2], &mut scores), refused(9, 0));
    assert_eq!(read_list(&m5(), 7, &mut docids, &mut scores), refused(8, 40));
    assert_eq!((docids, scores), ([77; 3], [88; 3]));
}

#[test]
fn lists_are_written() {
    let write = |layout, docids: &[u32], room| into_room(room, |out| write_list(layout, 7, docids, &[5, 3], out));
    assert_eq!(write(Layout::Pairs, &[2, 4], 30).map(|list| list[20..].to_vec()), Ok(vec![3, 0, 5, 0, 5, 1, 0, 3]));
    assert_eq!(write(Layout::Strip, &[2, 4], 28).map(|list| list[20..].to_vec()), Ok(vec![4, 0, 5, 1, 0, 5, 0, 3]));
    assert_eq!(write(Layout::Strip, &[2, 4], 27), refused(9, 0));
    assert_eq!(write(Layout::Pairs, &[4, 2], 28), refused(10, 1));
    assert_eq!(write(Layout::Pairs, &[0; 6_401], 28), refused(11, 0));
    assert_eq!(write_list(Layout::Pairs, 7, &[], &[], &mut []), refused(10, 0));
}

#[test]
fn edits_give_another_shelf() {
    let raised = into_room(40, |out| set(&small(), 7, 4, 9, out)).expect("it is accepted");
    assert_eq!((raised.len(), raised[18], &raised[25..]), (28, 9, &[1, 0, 9][..]));
    assert_eq!(into_room(40, |out| clear(&raised, 7, 2, out)).map(|shelf| shelf.len()), Ok(25));
    assert_eq!(into_room(73, |out| withdraw(&M1, 4, out)).map(|shelf| shelf.len()), Ok(53));
    assert_eq!(into_room(0, |out| clear(&into_room(25, |out| set(&[], 7, 9, 1, out))?, 7, 9, out)), Ok(vec![]));
}

#[test]
fn edits_are_refused() {
    assert_eq!(into_room(40, |out| set(&small(), 7, 0, 1, out)), refused(10, 0));
    assert_eq!(into_room(27, |out| set(&small(), 7, 4, 9, out)), refused(9, 0));
    assert_eq!(into_room(40, |out| clear(&small(), 7, 3, out)), refused(12, 0));
    assert_eq!(into_room(73, |out| clear(&m5(), 7, 2, out)), refused(8, 40));
    assert_eq!(into_room(40, |out| withdraw(&small(), 9, out)), refused(12, 0));
    let full: Vec<u32> = (1..=6_400).collect();
    let full = into_room(30_000, |out| write_list(Layout::Pairs, 7, &full, &[1; 6_400], out)).expect("it is accepted");
    assert_eq!(into_room(30_000, |out| set(&full, 7, 6_401, 1, out)), refused(11, 0));
}

#[test]
fn a_list_is_converted_and_back() {
    let strips = into_room(40, |out| convert(&small(), 7, out)).expect("it is accepted");
    assert_eq!(strips[20..], [4, 0, 5, 1, 0, 5, 0, 3]);
    assert_eq!(into_room(28, |out| convert(&strips, 7, out)), Ok(small().to_vec()));
    assert_eq!(into_room(28, |out| convert(&small(), 8, out)), refused(12, 0));
    assert_eq!(into_room(27, |out| convert(&small(), 7, out)), refused(9, 0));
}

#[test]
fn all_lists_are_ranked() {
    let (mut docids, mut scores) = ([77; 7], [88; 7]);
    assert_eq!(rank_all(&m1_query(5), &M1, &mut docids[..5], &mut scores[..6]), Ok(4));
    assert_eq!((docids, scores), ([4, 2, 6, 9, 77, 77, 77], [11, 5, 4, 1, 88, 88, 88]));
    let (mut docids, mut scores) = ([77; 5], [88; 5]);
    assert_eq!(rank_all(&m1_query(5), &M1, &mut docids, &mut scores[..4]), refused(9, 0));
    assert_eq!(rank_all(&m1_query(5), &m5(), &mut docids, &mut scores), refused(8, 40));
    assert_eq!(rank_all(&[], &M1, &mut docids, &mut scores), refused(1, 0));
    assert_eq!((docids, scores), ([77; 5], [88; 5]));
}

/// A search's outputs, each two elements longer than what is lent.
struct Runs {
    docids: [u32; 6],
    scores: [u32; 6],
    firsts: [u32; 9],
    ceilings: [u32; 9],
    marks: [u8; 9],
}

const UNTOUCHED: Runs = Runs { docids: [77; 6], scores: [88; 6], firsts: [66; 9], ceilings: [55; 9], marks: [99; 9] };

impl Runs {
    /// The search's answer, and how many rows its book has.
    fn search(&mut self, k: u8, shelf: &[u8], rows: usize) -> (Result<Searched, Refusal>, usize) {
        let mut book = Book::new(&mut self.firsts[..7], &mut self.ceilings[..7], &mut self.marks[..7]);
        let found = search(&m1_query(k), shelf, &mut self.docids[..rows], &mut self.scores[..rows], &mut book);
        (found, book.intervals())
    }
}

#[test]
fn a_search_finds_and_keeps_its_book() {
    let mut runs = UNTOUCHED;
    assert_eq!(runs.search(2, &M1, 4), (Ok(Searched { hits: 2, opened: 2, blocks: 3 }), 7));
    assert_eq!((runs.docids, runs.scores), ([4, 2, 77, 77, 77, 77], [11, 5, 88, 88, 88, 88]));
    assert_eq!(runs.firsts, [1, 2, 4, 5, 7, 9, 10, 66, 66]);
    assert_eq!(runs.ceilings, [0, 5, 13, 8, 0, 1, 0, 55, 55]);
    assert_eq!(runs.marks, [0, 1, 1, 1, 0, 0, 0, 99, 99]);
}

#[test]
fn a_search_that_stops_fills_the_book_alone() {
    let mut runs = UNTOUCHED;
    assert_eq!(runs.search(4, &m5(), 4), (refused(8, 40), 7));
    assert_eq!(runs.marks, [0, 1, 1, 1, 0, 2, 3, 99, 99]);
    assert_eq!((runs.docids, runs.scores), (UNTOUCHED.docids, UNTOUCHED.scores));
}

#[test]
fn a_refused_search_touches_nothing() {
    let mut runs = UNTOUCHED;
    assert_eq!(runs.search(4, &M1, 3), (refused(9, 0), 0));
    assert_eq!(runs.search(4, &M1[..72], 4), (refused(6, 65), 0));
    assert_eq!((runs.docids, runs.scores), (UNTOUCHED.docids, UNTOUCHED.scores));
    assert_eq!((runs.firsts, runs.ceilings, runs.marks), (UNTOUCHED.firsts, UNTOUCHED.ceilings, UNTOUCHED.marks));
}

/// A book that was filled has no rows after a search that fills none.
#[test]
fn a_book_counts_its_last_search() {
    let (mut firsts, mut ceilings, mut marks) = ([0; 7], [0; 7], [0; 7]);
    let mut book = Book::new(&mut firsts, &mut ceilings, &mut marks);
    assert_eq!(book.intervals(), 0);
    search(&m1_query(1), &M1, &mut [0], &mut [0], &mut book).expect("it is accepted");
    assert_eq!(book.intervals(), 7);
    search(&m1_query(2), &M1, &mut [0], &mut [0], &mut book).expect_err("k is 2");
    assert_eq!(book.intervals(), 0);
}

#[test]
fn a_refusal_prints_its_sentence() {
    let refusal = check(&m5()).expect_err("a body is wrong");
    assert_eq!(refusal.to_string(), "wrong body (number 8, at 40)");
    let boxed: Box<dyn std::error::Error> = refusal.into();
    assert_eq!(boxed.to_string(), "wrong body (number 8, at 40)");
}

#[test]
fn each_number_has_a_sentence_of_its_own() {
    let sentences: std::collections::BTreeSet<&str> = (1..=12).map(|number| Refusal { number, offset: 0 }.sentence()).collect();
    assert_eq!(sentences.len(), 12);
    assert!(!sentences.contains(Refusal { number: 13, offset: 0 }.sentence()));
}
