//! Corners of the pruned search, each with the paper's answer.

use super::{is, run_of, Corner};
use crate::compare::search::{search, Rooms, Told};
use crate::compare::Tally;
use crate::reference::list::{pack, put_blocks};
use crate::reference::m1::{m1_query, m1_shelf, m5_shelf};
use crate::reference::query::put_query;
use crate::reference::rank::Hit;
use crate::reference::{Posting, MAX_DOCID};
use tagmurlen::{Book, Refusal, Searched};

pub const CORNERS: [Corner; 13] = [
    ("M1 to M4 searched: hits, book and counts", more_hits),
    ("M5 and M6 searched: a wrong score that is skipped, and one that is met", wrong_score),
    ("M7 and M8 searched: an equal ceiling, the empty shelf", equal_and_empty),
    ("1,025 intervals, and each run of the book one short of them", most_intervals),
    ("each run one short: two for hits, three for the book", runs_one_short),
    ("a search refused in the order 1, 6, 9, 8", order_of_refusals),
    ("a wrong body that is never opened, in each way", never_opened),
    ("two wrong bodies met at once: the first in byte order", first_of_two),
    ("more rows asked for than there are matches", more_than_matches),
    ("a block ends where another begins; cuts at 1 and past 16,777,215", where_blocks_touch),
    ("ties at the ceiling, and a low ceiling before k are found", ties),
    ("the largest score, and eight lists of 64 full blocks", largest),
    ("the safe function for Rust: found, too short, stopped at a wrong body", safe_function),
];

const SKIPPED: u8 = 0;
const OPENED: u8 = 1;
const STOPPED: u8 = 2;
const NOT_REACHED: u8 = 3;

/// The hits, the marks, and the counts: intervals, blocks opened, blocks in all.
fn finds(t: &mut Tally, told: &Told, hits: &[Hit], marks: &[u8], counts: [u64; 3]) {
    is(t, told.answer, (0, hits.len() as u64));
    is(t, &told.hits[..], hits);
    is(t, &told.book.marks[..], marks);
    is(t, told.counts, counts);
}

fn refuses(t: &mut Tally, told: &Told, number: u32, offset: u64) {
    is(t, told.answer, (number, offset));
    is(t, told.counts, [0; 3]);
}

fn more_hits(t: &mut Tally) {
    let all = [(4, 11), (2, 5), (6, 4), (9, 1)];
    let cases: [(u8, usize, [u8; 7], u64); 4] =
        [(1, 1, [0, 1, 1, 0, 0, 0, 0], 2), (2, 2, [0, 1, 1, 1, 0, 0, 0], 2), (3, 3, [0, 1, 1, 1, 0, 0, 0], 2), (5, 4, [0, 1, 1, 1, 0, 1, 0], 3)];
    for (k, hits, marks, opened) in cases {
        let told = search(t, &m1_query(k), &m1_shelf(), Rooms::WIDE);
        finds(t, &told, &all[..hits], &marks, [7, opened, 3]);
        is(t, &told.book.firsts[..], &[1, 2, 4, 5, 7, 9, 10]);
        is(t, &told.book.ceilings[..], &[0, 5, 13, 8, 0, 1, 0]);
    }
}

fn wrong_score(t: &mut Tally) {
    let told = search(t, &m1_query(1), &m5_shelf(), Rooms::WIDE);
    finds(t, &told, &[(4, 11)], &[0, 1, 1, 0, 0, 0, 0], [7, 2, 3]);
    let told = search(t, &m1_query(4), &m5_shelf(), Rooms::WIDE);
    is(t, told.answer, (8, 40));
    is(t, told.counts, [7, 0, 0]);
    is(t, &told.book.marks[..], &[SKIPPED, OPENED, OPENED, OPENED, SKIPPED, STOPPED, NOT_REACHED]);
}

fn equal_and_empty(t: &mut Tally) {
    let told = search(t, &put_query(1, &[(7, 1)]), &put_blocks(7, &[&[(3, 6)], &[(8, 6)]]), Rooms::WIDE);
    finds(t, &told, &[(3, 6)], &[0, 1, 0, 0, 0], [5, 1, 2]);
    let told = search(t, &m1_query(1), &[], Rooms::WIDE);
    finds(t, &told, &[], &[SKIPPED], [1, 0, 0]);
}

/// Eight lists of 64 blocks of one sheet, no two of them neighbours: 512 blocks, and a gap before, between and after. The query, and the shelf.
pub fn blocks_apart(first: u32, score: u16, weight: u8) -> (Vec<u8>, Vec<u8>) {
    let list = |term: u32| {
        let sheets: Vec<Posting> = (0..64).map(|i| (first + 2 * (8 * i + term), score)).collect();
        put_blocks(term, &sheets.chunks(1).collect::<Vec<_>>())
    };
    let terms = [0, 1, 2, 3, 4, 5, 6, 7].map(|term| (term, weight));
    (put_query(100, &terms), (0..8).flat_map(list).collect())
}

fn most_intervals(t: &mut Tally) {
    let (query, shelf) = blocks_apart(2, 1, 1);
    let told = search(t, &query, &shelf, Rooms::WIDE);
    is(t, told.answer, (0, 100));
    is(t, told.counts, [1_025, 100, 512]);
    for short in [Rooms { firsts: 1_024, ..Rooms::WIDE }, Rooms { ceilings: 1_024, ..Rooms::WIDE }, Rooms { marks: 1_024, ..Rooms::WIDE }] {
        let told = search(t, &query, &shelf, short);
        refuses(t, &told, 9, 0);
    }
}

/// M2 wants two rows and has seven intervals.
fn runs_one_short(t: &mut Tally) {
    let exact = Rooms::of(2, 7);
    let told = search(t, &m1_query(2), &m1_shelf(), exact);
    finds(t, &told, &[(4, 11), (2, 5)], &[0, 1, 1, 1, 0, 0, 0], [7, 2, 3]);
    for short in [
        Rooms { docids: 1, ..exact },
        Rooms { scores: 1, ..exact },
        Rooms { firsts: 6, ..exact },
        Rooms { ceilings: 6, ..exact },
        Rooms { marks: 6, ..exact },
        Rooms::of(0, 0),
    ] {
        let told = search(t, &m1_query(2), &m1_shelf(), short);
        refuses(t, &told, 9, 0);
    }
    // rows are as many as k, also where there are fewer hits
    let told = search(t, &m1_query(5), &m1_shelf(), Rooms::of(4, 7));
    refuses(t, &told, 9, 0);
    let told = search(t, &m1_query(1), &[], Rooms::of(1, 0));
    refuses(t, &told, 9, 0);
}

/// "pruned search 1, 2, 3, 4, 5, then 6/7, 9, 8"
fn order_of_refusals(t: &mut Tally) {
    let none = Rooms::of(0, 0);
    let nine: Vec<(u32, u8)> = (1..=9).map(|term| (term, 0)).collect();
    let queries = [
        (put_query(0, &nine)[..75].to_vec(), (1, 68)),
        (put_query(0, &nine), (2, 0)),
        (put_query(101, &nine[..8]), (2, 0)),
        (put_query(1, &nine), (3, 68)),
        (put_query(1, &[]), (3, 4)),
        (put_query(1, &[(7, 1), (7, 0)]), (4, 12)),
        (put_query(1, &[(7, 1), (9, 1), (7, 1)]), (5, 20)),
    ];
    for (query, (number, offset)) in queries {
        let told = search(t, &query, &[9], none);
        refuses(t, &told, number, offset);
    }
    let mut shelf = m5_shelf();
    let told = search(t, &m1_query(4), &shelf[..72], none);
    refuses(t, &told, 6, 65);
    shelf[63] = 0;
    let told = search(t, &m1_query(4), &shelf, none);
    refuses(t, &told, 7, 53);
    for short in [Rooms::of(3, 7), Rooms::of(4, 6)] {
        let told = search(t, &m1_query(4), &m5_shelf(), short);
        refuses(t, &told, 9, 0);
    }
    let told = search(t, &m1_query(4), &m5_shelf(), Rooms::of(4, 7));
    is(t, told.answer, (8, 40));
}

/// The second body of list 7, two bytes at 43, is not met with k=1: its summary alone says that it cannot matter.
fn never_opened(t: &mut Tally) {
    for (at, byte) in [(44, 0), (44, 2), (43, 255)] {
        let mut shelf = m1_shelf();
        shelf[at] = byte;
        let told = search(t, &m1_query(1), &shelf, Rooms::WIDE);
        finds(t, &told, &[(4, 11)], &[0, 1, 1, 0, 0, 0, 0], [7, 2, 3]);
        let told = search(t, &m1_query(4), &shelf, Rooms::WIDE);
        is(t, told.answer, (8, 40));
    }
    // a body of no byte, and one that goes on
    for body in [&[][..], &[0, 1, 0][..]] {
        let shelf = m1_shelf();
        let shelf = [&shelf[..42], &[body.len() as u8], body, &shelf[45..]].concat();
        let told = search(t, &m1_query(1), &shelf, Rooms::WIDE);
        finds(t, &told, &[(4, 11)], &[0, 1, 1, 0, 0, 0, 0], [7, 2, 3]);
    }
    // the wrong body of a list that the query does not name
    let mut shelf = m1_shelf();
    shelf[69] = 9;
    let told = search(t, &put_query(4, &[(7, 1)]), &shelf, Rooms::WIDE);
    finds(t, &told, &[(2, 5), (4, 3), (9, 1)], &[0, 1, 0, 1, 0], [5, 2, 2]);
}

/// [4,4] meets the first block of list 7 and the block of list 9; the query names the later list first.
fn first_of_two(t: &mut Tally) {
    let query = put_query(1, &[(9, 2), (7, 1)]);
    let mut shelf = m1_shelf();
    shelf[69] = 9;
    let told = search(t, &query, &shelf, Rooms::WIDE);
    is(t, told.answer, (8, 65));
    is(t, &told.book.marks[..], &[0, 1, 2, 3, 3, 3, 3]);
    shelf[36] = 9;
    let told = search(t, &query, &shelf, Rooms::WIDE);
    is(t, told.answer, (8, 32));
    is(t, &told.book.marks[..], &[0, 2, 3, 3, 3, 3, 3]);
    // both begin at one sheet, so that both are met first in one interval
    let mut both = [pack(3, &[(5, 1), (6, 1)]), pack(4, &[(5, 1), (6, 1)])].concat();
    let (first, second) = (20, 28 + 20);
    both[first + 4] = 9;
    both[second + 4] = 9;
    for terms in [[(3, 1), (4, 1)], [(4, 1), (3, 1)]] {
        let told = search(t, &put_query(1, &terms), &both, Rooms::WIDE);
        is(t, told.answer, (8, first as u64));
        is(t, &told.book.marks[..], &[0, 2, 3]);
    }
}

fn more_than_matches(t: &mut Tally) {
    let told = search(t, &m1_query(100), &m1_shelf(), Rooms::WIDE);
    finds(t, &told, &[(4, 11), (2, 5), (6, 4), (9, 1)], &[0, 1, 1, 1, 0, 1, 0], [7, 3, 3]);
    let told = search(t, &put_query(100, &[(8, 1)]), &m1_shelf(), Rooms::WIDE);
    finds(t, &told, &[], &[SKIPPED], [1, 0, 0]);
}

fn where_blocks_touch(t: &mut Tally) {
    // three blocks share sheet 4: one ends there, one begins there, one is that sheet alone
    let shelf = [pack(1, &[(2, 1), (4, 2)]), pack(2, &[(4, 3), (6, 1)]), pack(3, &[(4, 5)])].concat();
    let told = search(t, &put_query(9, &[(1, 1), (2, 1), (3, 1)]), &shelf, Rooms::WIDE);
    finds(t, &told, &[(4, 10), (2, 1), (6, 1)], &[0, 1, 1, 1, 0], [5, 3, 3]);
    is(t, &told.book.firsts[..], &[1, 2, 4, 5, 7]);
    is(t, &told.book.ceilings[..], &[0, 2, 10, 3, 0]);
    // one begins right after another ends: no gap, and one cut
    let told = search(t, &put_query(9, &[(7, 1)]), &put_blocks(7, &[&[(1, 1), (2, 2)], &[(3, 1), (MAX_DOCID, 4)]]), Rooms::WIDE);
    finds(t, &told, &[(MAX_DOCID, 4), (2, 2), (1, 1), (3, 1)], &[1, 1], [2, 2, 2]);
    is(t, &told.book.firsts[..], &[1, 3]);
    // the last sheet alone
    let told = search(t, &put_query(1, &[(7, 255)]), &pack(7, &[(MAX_DOCID, 65_535)]), Rooms::WIDE);
    finds(t, &told, &[(MAX_DOCID, 255 * 65_535)], &[0, 1], [2, 1, 1]);
}

fn ties(t: &mut Tally) {
    // weighted ceilings 6, 6, 7: the equal one is skipped, the higher opened; weight 1 and 2 swap which is which
    let shelf = [put_blocks(1, &[&[(3, 6)], &[(5, 6)], &[(9, 7)]]), put_blocks(2, &[&[(4, 3)], &[(6, 4)]])].concat();
    let told = search(t, &put_query(1, &[(1, 1), (2, 2)]), &shelf, Rooms::WIDE);
    finds(t, &told, &[(6, 8)], &[0, 1, 0, 0, 1, 0, 0, 0], [8, 2, 5]);
    let told = search(t, &put_query(2, &[(1, 1), (2, 2)]), &shelf, Rooms::WIDE);
    finds(t, &told, &[(6, 8), (9, 7)], &[0, 1, 1, 0, 1, 0, 1, 0], [8, 4, 5]);
    // low ceilings are opened while fewer than k are found
    let rising: Vec<Posting> = (1..=6).map(|d| (10 * d, 7 - d as u16)).collect();
    let told = search(t, &put_query(4, &[(1, 1)]), &put_blocks(1, &rising.chunks(1).collect::<Vec<_>>()), Rooms::WIDE);
    finds(t, &told, &[(10, 6), (20, 5), (30, 4), (40, 3)], &[0, 1, 0, 1, 0, 1, 0, 1, 0, 0, 0, 0, 0], [13, 4, 6]);
}

fn largest(t: &mut Tally) {
    let lists: Vec<u8> = (1..=8).flat_map(|term| pack(term, &[(MAX_DOCID, 65_535)])).collect();
    let terms: Vec<(u32, u8)> = (1..=8).map(|term| (term, 255)).collect();
    let told = search(t, &put_query(1, &terms), &lists, Rooms::WIDE);
    finds(t, &told, &[(MAX_DOCID, 133_691_400)], &[0, 1], [2, 8, 8]);
    is(t, told.book.ceilings[1], 133_691_400);
    let lists: Vec<u8> = (1..=8).flat_map(|term| pack(term, &run_of(6_400))).collect();
    let told = search(t, &put_query(100, &terms), &lists, Rooms::WIDE);
    is(t, told.answer, (0, 100));
    is(t, told.counts, [65, 8, 512]);
}

fn safe_function(t: &mut Tally) {
    let (mut docids, mut scores) = ([0; 4], [0; 4]);
    let (mut firsts, mut ceilings, mut marks) = ([0; 7], [0; 7], [9; 7]);
    let mut search = |k: u8, shelf: &[u8], rows: usize| {
        let mut book = Book::new(&mut firsts, &mut ceilings, &mut marks);
        let found = tagmurlen::search(&m1_query(k), shelf, &mut docids[..rows], &mut scores[..rows], &mut book);
        (found, book.intervals())
    };
    let found = search(1, &m1_shelf(), 1);
    is(t, found, (Ok(Searched { hits: 1, opened: 2, blocks: 3 }), 7));
    let short = search(4, &m1_shelf(), 3);
    is(t, short, (Err(Refusal { number: 9, offset: 0 }), 0));
    let stopped = search(4, &m5_shelf(), 4);
    is(t, stopped, (Err(Refusal { number: 8, offset: 40 }), 7));
    is(t, marks, [0, 1, 1, 1, 0, 2, 3]);
    is(t, (docids, scores), ([4, 0, 0, 0], [11, 0, 0, 0]));
}
