//! Corner cases by name, each with the answer that the paper gives, run through the archive and beside the reference.

pub mod search;
pub mod strips;

use crate::compare::{check, check_query, edit, rank_all, read_list, write_list, Answer, Tally};
use crate::generate::field_starts;
use crate::reference::edit::Edit;
use crate::reference::fields::put_field;
use crate::reference::list::{pack, put_blocks, put_summary};
use crate::reference::m1::{m1_query, m1_shelf, m5_shelf};
use crate::reference::query::put_query;
use crate::reference::shelf::Summary;
use crate::reference::{Layout, Posting, MAX_DOCID, MAX_SHELF};

/// Every corner. Each compares what it runs with the reference, and with the paper's answer that stands beside it.
pub fn all(t: &mut Tally) {
    for (name, corner) in CORNERS.into_iter().chain(search::CORNERS).chain(strips::CORNERS) {
        t.case = format!("corner '{name}'");
        let before = t.differ;
        corner(t);
        println!("{} {name}", if t.differ == before { "ok  " } else { "FAIL" });
    }
}

/// A corner's name, and what it runs.
type Corner = (&'static str, fn(&mut Tally));

const CORNERS: [Corner; 26] = [
    ("the empty shelf", empty_shelf),
    ("the paper's shelf, and each of its bytes made another", each_byte_changed),
    ("a shelf cut short at every byte", cut_at_every_byte),
    ("a shelf of 1,048,576 and of 1,048,577 bytes", longest_shelf),
    ("1,024 and 1,025 lists", most_lists),
    ("0, 1, 64 and 65 blocks", block_counts),
    ("a fault of number 7 before one of 6, and the other way round", first_in_byte_order),
    ("a body of length 0, of 65,535, and one that runs past the end", body_lengths),
    ("terms equal, falling, and the highest", term_order),
    ("each way a summary is wrong", wrong_summaries),
    ("each way a body is wrong", wrong_bodies),
    ("100, 101, 6,400 and 6,401 postings", posting_counts),
    ("docids 1 and 16,777,215, and the gap number's edges", docid_edges),
    ("each way a run is refused, and in which order", refused_runs),
    ("a buffer of exactly the length, and one byte shorter", exact_room),
    ("a list read: exact room, one short in either run, not there, its body wrong, another's body wrong", lists_read),
    ("a list of 64 blocks and of 6,400 postings read", long_lists_read),
    ("M1 to M8 ranked", marked_ranked),
    ("a search refused: 1 before 6, 6 before 9, 9 before 8, bad bodies in byte order", refused_searches),
    ("k 100 of 101 matches, and the largest score", ranking_limits),
    ("queries: k, terms, weights, repeats, cut at every byte", queries),
    ("M9 and M10 by edits from the empty shelf", marked_edits),
    ("edits: the same posting again, the greatest score lowered and cleared, the only posting of a block and of a list", small_edits),
    ("edits: 6,400 postings and the 6,401st", fullest_list),
    ("edits: the 1,025th list, and a shelf that would pass 1,048,576 bytes", fullest_shelf),
    ("edits refused, and in which order", refused_edits),
];

fn is<T: PartialEq + std::fmt::Debug>(t: &mut Tally, archive: T, paper: T) {
    t.note("the paper's answer", (archive != paper).then(|| format!("archive {archive:?}, paper {paper:?}")));
}

/// A list of one posting, docid 1 and score 1.
fn least_list(term: u32) -> Vec<u8> {
    pack(term, &[(1, 1)])
}

fn run_of(n: u32) -> Vec<Posting> {
    (1..=n).map(|d| (d, 1)).collect()
}

fn empty_shelf(t: &mut Tally) {
    let found = check(t, &[]);
    is(t, found, (0, 0));
}

fn each_byte_changed(t: &mut Tally) {
    let shelf = m1_shelf();
    let found = check(t, &shelf);
    is(t, found, (0, 0));
    for at in 0..shelf.len() {
        for change in 1..=255 {
            let mut damaged = shelf.clone();
            damaged[at] = damaged[at].wrapping_add(change);
            check(t, &damaged);
        }
    }
}

fn cut_at_every_byte(t: &mut Tally) {
    cut_m1(t, &m1_shelf());
}

/// M1, in either layout: "its tag, also when cut short; shelf length where a field is due and no byte is left"
fn cut_m1(t: &mut Tally, shelf: &[u8]) {
    let starts = field_starts(shelf);
    for end in 1..shelf.len() {
        let found = check(t, &shelf[..end]);
        let second_list = 45;
        let due = starts.iter().rev().find(|&&s| s <= end).map_or(0, |&s| s as u64);
        is(t, found, if end == second_list { (0, 0) } else { (6, due) });
    }
}

/// As many lists of 6,400 postings as fit, then one whose length makes the sum exact.
fn longest_shelf(t: &mut Tally) {
    let mut shelf = Vec::new();
    let mut term = 0;
    let full = pack(0, &run_of(6_400));
    while MAX_SHELF - shelf.len() >= 2 * full.len() {
        shelf.extend(pack(term, &run_of(6_400)));
        term += 1;
    }
    // A gap of 129 takes one byte more than a gap of 1: single bytes make up what is missing.
    let missing = |n: usize, wide: usize| -> Vec<u8> {
        let mut docid = 0;
        let postings = (0..n).map(|i| {
            docid += if i % 100 != 0 && i < wide { 129 } else { 1 };
            (docid, 1)
        });
        pack(term, &postings.collect::<Vec<_>>())
    };
    let left = MAX_SHELF - shelf.len();
    let n = (1..=6_400).rev().find(|&n| missing(n, 0).len() <= left).expect("one fits");
    let wide = (0..=n).find(|&w| missing(n, w).len() == left).expect("a byte at a time");
    shelf.extend(missing(n, wide));
    let found = check(t, &shelf);
    is(t, found, (0, 0));
    shelf.push(1);
    let found = check(t, &shelf);
    is(t, found, (6, 0));
}

fn most_lists(t: &mut Tally) {
    let shelf: Vec<u8> = (0..1_024).flat_map(least_list).collect();
    let found = check(t, &shelf);
    is(t, found, (0, 0));
    let one_more = [shelf.clone(), least_list(1_024)].concat();
    let found = check(t, &one_more);
    is(t, found, (6, shelf.len() as u64));
    let byte_more = [shelf.clone(), vec![1]].concat();
    let found = check(t, &byte_more);
    is(t, found, (6, shelf.len() as u64));
}

fn block_counts(t: &mut Tally) {
    let blocks = run_of(65);
    for (n, paper) in [(1, (0, 0)), (64, (0, 0)), (65, (6, 0)), (0, (6, 0))] {
        let each: Vec<&[Posting]> = blocks[..n].chunks(1).collect();
        let found = check(t, &put_blocks(3, &each));
        is(t, found, paper);
    }
}

fn first_in_byte_order(t: &mut Tally) {
    // the second summary's least docid is not above the first's greatest: 7 at 20; the last field is cut short: 6
    let mut shelf = m1_shelf();
    shelf[25] = 4;
    shelf.pop();
    let found = check(t, &shelf);
    is(t, found, (7, 20));
    // the first summary has a wrong length: 6 at 8; the second is wrong: 7
    let mut shelf = m1_shelf();
    shelf[10] = 8;
    shelf[25] = 4;
    let found = check(t, &shelf);
    is(t, found, (6, 8));
    // a wrong body before a wrong header: the walk comes first
    let mut shelf = m1_shelf();
    shelf[36] = 0;
    shelf[45] = 9;
    let found = check(t, &shelf);
    is(t, found, (6, 45));
    // a wrong body before a wrong summary
    let mut shelf = m1_shelf();
    shelf[36] = 0;
    shelf[63] = 0;
    let found = check(t, &shelf);
    is(t, found, (7, 53));
}

/// A list of one block with this summary and this body.
fn one_block(s: Summary, body: &[u8]) -> Vec<u8> {
    one_block_as(Layout::Pairs, s, body)
}

fn one_block_as(layout: Layout, s: Summary, body: &[u8]) -> Vec<u8> {
    let mut shelf = vec![1, 0, 5, 0, 0, 0, 7, 1];
    put_summary(&mut shelf, s);
    put_field(&mut shelf, layout.tag(), body);
    shelf
}

const ONE: Summary = Summary { least: 5, greatest: 5, top: 9, count: 1 };
const THREE: Summary = Summary { least: 5, greatest: 300, top: 9, count: 3 };

fn body_lengths(t: &mut Tally) {
    for body in [vec![], vec![0; 65_535], vec![9], vec![0, 9, 0]] {
        let found = check(t, &one_block(ONE, &body));
        is(t, found, (8, 20));
    }
    let found = check(t, &one_block(ONE, &[0, 9]));
    is(t, found, (0, 0));
    let mut longer = one_block(ONE, &[0, 9]);
    longer[22] = 3;
    let found = check(t, &longer);
    is(t, found, (6, 20));
}

fn term_order(t: &mut Tally) {
    for (first, second, paper) in [(7, 7, (6, 25)), (7, 6, (6, 25)), (7, 8, (0, 0)), (0, u32::MAX, (0, 0)), (u32::MAX, 0, (6, 25))] {
        let found = check(t, &[least_list(first), least_list(second)].concat());
        is(t, found, paper);
    }
}

fn wrong_summaries(t: &mut Tally) {
    let right = THREE;
    for wrong in [
        Summary { least: 0, ..right },
        Summary { least: 301, ..right },
        Summary { top: 0, ..right },
        Summary { count: 0, ..right },
        Summary { count: 101, greatest: 1_000, ..right },
        Summary { greatest: 6, ..right },
        Summary { count: 1, ..right },
    ] {
        let found = check(t, &one_block(wrong, &[0, 9, 127, 0, 1, 0x26, 0, 1]));
        is(t, found, (7, 8));
    }
}

/// Docids 5, 133 and 300: gap numbers 127 and 166.
fn wrong_bodies(t: &mut Tally) {
    let right: &[u8] = &[0, 9, 127, 0, 8, 0xa6, 1, 0, 1];
    let found = check(t, &one_block(THREE, right));
    is(t, found, (0, 0));
    let wrong: [&[u8]; 10] = [
        &right[..8],
        &[0, 9, 127, 0, 8, 0xa6, 1, 0, 1, 0],
        &[0, 0, 127, 0, 9, 0xa6, 1, 0, 1],
        &[0, 9, 127, 0, 8, 0xa6, 1, 0, 0],
        &[0, 8, 127, 0, 8, 0xa6, 1, 0, 1],
        &[0, 9, 127, 0, 10, 0xa6, 1, 0, 1],
        &[0, 9, 127, 0, 8, 0xa5, 1, 0, 1],
        &[0, 9, 127, 0, 8, 0xa7, 1, 0, 1],
        &[0, 9, 0xff, 0, 0, 8, 0xa6, 1, 0, 1],
        &[0, 9, 0xff, 0x80, 0x80, 0x80, 0, 0, 8, 0xa6, 1, 0, 1],
    ];
    for body in wrong {
        let found = check(t, &one_block(THREE, body));
        is(t, found, (8, 20));
    }
}

fn posting_counts(t: &mut Tally) {
    for (n, length) in [(1, 25), (100, 322), (101, 339), (6_400, 20_104)] {
        let (docids, scores): (Vec<u32>, Vec<u16>) = run_of(n).into_iter().unzip();
        let found = write_list(t, Layout::Pairs, 7, &docids, &scores, 30_000);
        is(t, found, (0, length));
        let found = check(t, &pack(7, &run_of(n)));
        is(t, found, (0, 0));
    }
    let (docids, scores): (Vec<u32>, Vec<u16>) = run_of(6_401).into_iter().unzip();
    for (docids, scores) in [(&docids[..], &scores[..]), (&docids[..], &scores[..1]), (&docids[..1], &scores[..])] {
        let found = write_list(t, Layout::Pairs, 7, docids, scores, 30_000);
        is(t, found, (11, 0));
    }
    // a block of 101 cannot be written; one that says so is a wrong summary
    let found = check(t, &put_blocks(7, &[&run_of(101)]));
    is(t, found, (7, 8));
}

fn docid_edges(t: &mut Tally) {
    for gap in [1, 2, 127, 128, 129, 16_384, 16_385, 2_097_152, 2_097_153, 16_777_214] {
        for docids in [[1, 1 + gap], [MAX_DOCID - gap, MAX_DOCID]] {
            let bytes_of_gap = match gap - 1 {
                0..=127 => 1,
                128..=16_383 => 2,
                16_384..=2_097_151 => 3,
                _ => 4,
            };
            let found = write_list(t, Layout::Pairs, 7, &docids, &[1, 65_535], 100);
            is(t, found, (0, 27 + bytes_of_gap));
            let found = check(t, &pack(7, &[(docids[0], 1), (docids[1], 65_535)]));
            is(t, found, (0, 0));
        }
    }
}

fn refused_runs(t: &mut Tally) {
    let cases: [(&[u32], &[u16], Answer); 11] = [
        (&[], &[], (10, 0)),
        (&[], &[1], (10, 0)),
        (&[1, 2], &[1], (10, 1)),
        (&[0, 2], &[1], (10, 1)),
        (&[0], &[1], (10, 0)),
        (&[1, MAX_DOCID + 1], &[1, 1], (10, 1)),
        (&[1, 2, u32::MAX], &[1, 1, 1], (10, 2)),
        (&[1, 2, 2], &[1, 1, 1], (10, 2)),
        (&[1, 2, 1], &[1, 0, 1], (10, 1)),
        (&[1, 2, 3], &[1, 1, 0], (10, 2)),
        (&[1, 2, 3], &[1, 1, 1], (9, 0)),
    ];
    for (docids, scores, paper) in cases {
        let found = write_list(t, Layout::Pairs, 7, docids, scores, 30);
        is(t, found, paper);
    }
}

fn exact_room(t: &mut Tally) {
    for n in [1, 100, 101, 6_400] {
        let (docids, scores): (Vec<u32>, Vec<u16>) = run_of(n).into_iter().unzip();
        let length = pack(7, &run_of(n)).len();
        let found = write_list(t, Layout::Pairs, 7, &docids, &scores, length);
        is(t, found, (0, length as u64));
        for room in [length - 1, 1, 0] {
            let found = write_list(t, Layout::Pairs, 7, &docids, &scores, room);
            is(t, found, (9, 0));
        }
    }
}

fn lists_read(t: &mut Tally) {
    let mut shelf = m1_shelf();
    for (term, docid_room, score_room, paper) in [
        (7, 3, 3, (0, 3)),
        (7, 2, 3, (9, 0)),
        (7, 3, 2, (9, 0)),
        (7, 0, 0, (9, 0)),
        (9, 2, 9, (0, 2)),
        (8, 3, 3, (12, 0)),
        (8, 0, 0, (12, 0)),
    ] {
        let found = read_list(t, &shelf, term, docid_room, score_room);
        is(t, found, paper);
    }
    // the second body of list 7 is wrong: 8 before 9, and list 9 reads all the same
    shelf[44] = 2;
    for (term, room, paper) in [(7, 3, (8, 40)), (7, 0, (8, 40)), (9, 2, (0, 2)), (8, 0, (12, 0))] {
        let found = read_list(t, &shelf, term, room, room);
        is(t, found, paper);
    }
    // a fault of the walk behind the list comes before all
    shelf.pop();
    let found = read_list(t, &shelf, 7, 0, 0);
    is(t, found, (6, 65));
}

fn long_lists_read(t: &mut Tally) {
    let run = run_of(64);
    let blocks: Vec<&[Posting]> = run.chunks(1).collect();
    let found = read_list(t, &put_blocks(3, &blocks), 3, 64, 64);
    is(t, found, (0, 64));
    let found = read_list(t, &pack(3, &run_of(6_400)), 3, 6_400, 6_400);
    is(t, found, (0, 6_400));
    let found = read_list(t, &pack(3, &run_of(6_400)), 3, 6_400, 6_399);
    is(t, found, (9, 0));
}

fn marked_ranked(t: &mut Tally) {
    let shelf = m1_shelf();
    for (k, hits) in [(1, 1), (2, 2), (3, 3), (5, 4)] {
        let found = rank_all(t, &m1_query(k), &shelf, 5, 5);
        is(t, found, (0, hits));
    }
    let wrong_score = m5_shelf();
    let found = rank_all(t, &m1_query(1), &wrong_score, 1, 1);
    is(t, found, (8, 40));
    let found = rank_all(t, &put_query(1, &[(9, 2)]), &wrong_score, 1, 1);
    is(t, found, (0, 1));
    let found = rank_all(t, &put_query(1, &[(7, 1)]), &put_blocks(7, &[&[(3, 6)], &[(8, 6)]]), 1, 1);
    is(t, found, (0, 1));
    let found = rank_all(t, &put_query(1, &[(7, 1)]), &[], 1, 1);
    is(t, found, (0, 0));
}

fn refused_searches(t: &mut Tally) {
    let right = put_query(2, &[(9, 2), (7, 1)]);
    let found = rank_all(t, &right[..11], &[9], 0, 0);
    is(t, found, (1, 4));
    let found = rank_all(t, &right, &[9], 0, 0);
    is(t, found, (6, 0));
    // both lists have a wrong body; the query names the later list first
    let mut shelf = m1_shelf();
    shelf[36] = 9;
    shelf[69] = 9;
    for (docid_room, score_room, paper) in [(1, 2, (9, 0)), (2, 1, (9, 0)), (2, 2, (8, 32))] {
        let found = rank_all(t, &right, &shelf, docid_room, score_room);
        is(t, found, paper);
    }
    let found = rank_all(t, &put_query(1, &[(9, 2), (8, 1)]), &shelf, 1, 1);
    is(t, found, (8, 65));
}

fn ranking_limits(t: &mut Tally) {
    let shelf = pack(7, &run_of(101));
    let found = rank_all(t, &put_query(100, &[(7, 3)]), &shelf, 100, 100);
    is(t, found, (0, 100));
    let lists: Vec<u8> = (1..=8).flat_map(|term| pack(term, &[(MAX_DOCID, 65_535)])).collect();
    let terms: Vec<(u32, u8)> = (1..=8).map(|term| (term, 255)).collect();
    let found = rank_all(t, &put_query(1, &terms), &lists, 1, 1);
    is(t, found, (0, 1));
    let (mut docid, mut score) = ([0], [0]);
    let hits = tagmurlen::rank_all(&put_query(1, &terms), &lists, &mut docid, &mut score);
    let right = hits == Ok(1) && (docid[0], score[0]) == (MAX_DOCID, 133_691_400);
    t.note("the largest score", (!right).then(|| format!("{hits:?} {docid:?} {score:?}")));
}

fn queries(t: &mut Tally) {
    let many: Vec<(u32, u8)> = (1..=9).map(|term| (term, 1)).collect();
    let cases: [(Vec<u8>, Answer); 13] = [
        (vec![], (1, 0)),
        (put_query(0, &many), (2, 0)),
        (put_query(1, &many[..1]), (0, 1)),
        (put_query(100, &many[..8]), (0, 100)),
        (put_query(101, &many[..8]), (2, 0)),
        (put_query(255, &[]), (2, 0)),
        (put_query(100, &[]), (3, 4)),
        (put_query(100, &many), (3, 68)),
        ([put_query(0, &many), vec![0x21]].concat(), (1, 76)),
        (put_query(1, &[(7, 1), (9, 0), (7, 1)]), (4, 12)),
        (put_query(1, &[(7, 1), (9, 255), (9, 1), (7, 1)]), (5, 20)),
        (put_query(1, &[(7, 1), (9, 1), (7, 1), (9, 1)]), (5, 20)),
        ([put_query(1, &many[..1]), put_query(1, &[])].concat(), (1, 12)),
    ];
    for (query, paper) in cases {
        let found = check_query(t, &query);
        is(t, found, paper);
    }
    let query = put_query(3, &many[..2]);
    for end in 0..query.len() {
        let found = check_query(t, &query[..end]);
        is(t, found, [(1, 0), (1, 0), (1, 0), (1, 0), (3, 4)].get(end).copied().unwrap_or(if end == 12 { (0, 3) } else { (1, 4 + 8 * ((end as u64 - 4) / 8)) }));
    }
}

/// Room for any shelf.
const ROOM: usize = MAX_SHELF + 1;

/// The shelf after some edits, each of which the paper accepts; each result is checked.
fn after(t: &mut Tally, shelf: Vec<u8>, edits: &[Edit]) -> Vec<u8> {
    edits.iter().fold(shelf, |shelf, &asked| {
        let (answer, edited) = edit(t, asked, &shelf, ROOM);
        is(t, answer, (0, edited.len() as u64));
        let found = check(t, &edited);
        is(t, found, (0, 0));
        edited
    })
}

/// One writing of a list beside the shelf that edits left.
fn holds(t: &mut Tally, shelf: &[u8], writing: &[u8]) {
    t.note("the bytes of one writing", (shelf != writing).then(|| format!("{shelf:?}, should be {writing:?}")));
}

fn marked_edits(t: &mut Tally) {
    let m9 = after(t, Vec::new(), &[Edit::Set(5, 3, 6), Edit::Set(5, 8, 9), Edit::Set(5, 8, 2)]);
    holds(t, &m9, &pack(5, &[(3, 6), (8, 2)]));
    is(t, (0, u64::from(m9[17]) * 256 + u64::from(m9[18])), (0, 6));
    let m10 = [(7, 2, 5), (7, 4, 3), (7, 9, 1), (9, 4, 4), (9, 6, 2)].map(|(term, docid, score)| Edit::Set(term, docid, score));
    let m10 = after(t, Vec::new(), &m10);
    is(t, (0, m10.len() as u64), (0, 59));
}

fn small_edits(t: &mut Tally) {
    let list = pack(7, &[(2, 5), (4, 3), (9, 1)]);
    let same = after(t, list.clone(), &[Edit::Set(7, 4, 3)]);
    holds(t, &same, &list);
    let lowered = after(t, list.clone(), &[Edit::Set(7, 2, 2)]);
    holds(t, &lowered, &pack(7, &[(2, 2), (4, 3), (9, 1)]));
    let cleared = after(t, list.clone(), &[Edit::Clear(7, 2)]);
    holds(t, &cleared, &pack(7, &[(4, 3), (9, 1)]));
    // M1's second block of term 7 holds sheet 9 alone, and a list that is not packed full is packed anew.
    let gone = after(t, m1_shelf(), &[Edit::Withdraw(9)]);
    holds(t, &gone, &[pack(7, &[(2, 5), (4, 3)]), pack(9, &[(4, 4), (6, 2)])].concat());
    let emptied = after(t, [least_list(3), list.clone()].concat(), &[Edit::Withdraw(1)]);
    holds(t, &emptied, &list);
    let none = after(t, least_list(3), &[Edit::Clear(3, 1)]);
    holds(t, &none, &[]);
    let edges = after(t, Vec::new(), &[Edit::Set(u32::MAX, MAX_DOCID, 65_535), Edit::Set(0, 1, 1), Edit::Set(u32::MAX, 1, 1)]);
    holds(t, &edges, &[pack(0, &[(1, 1)]), pack(u32::MAX, &[(1, 1), (MAX_DOCID, 65_535)])].concat());
}

fn fullest_list(t: &mut Tally) {
    let nearly = pack(7, &run_of(6_399));
    let full = after(t, nearly, &[Edit::Set(7, 6_400, 1)]);
    holds(t, &full, &pack(7, &run_of(6_400)));
    let (answer, _) = edit(t, Edit::Set(7, 6_401, 1), &full, ROOM);
    is(t, answer, (11, 0));
    let replaced = after(t, full, &[Edit::Set(7, 6_400, 9), Edit::Clear(7, 1), Edit::Set(7, 6_401, 1)]);
    is(t, (0, replaced.len() as u64), (0, pack(7, &run_of(6_400)).len() as u64));
}

fn fullest_shelf(t: &mut Tally) {
    let lists: Vec<u8> = (0..1_024).flat_map(least_list).collect();
    let (answer, _) = edit(t, Edit::Set(5_000, 1, 1), &lists, ROOM);
    is(t, answer, (11, 0));
    after(t, lists.clone(), &[Edit::Set(9, 2, 1)]);
    let without: Vec<u8> = (0..1_023).flat_map(least_list).collect();
    after(t, without, &[Edit::Set(5_000, 1, 1)]);

    let mut shelf = Vec::new();
    let mut term = 0;
    loop {
        let next = pack(term, &run_of(6_400));
        if shelf.len() + next.len() > MAX_SHELF {
            break;
        }
        shelf.extend(next);
        term += 1;
    }
    let mut last = 1;
    while shelf.len() + pack(term, &run_of(last + 1)).len() <= MAX_SHELF {
        last += 1;
    }
    shelf.extend(pack(term, &run_of(last)));
    let (answer, _) = edit(t, Edit::Set(term, last + 1_000_000, 1), &shelf, ROOM);
    is(t, answer, (11, 0));
    after(t, shelf, &[Edit::Withdraw(6_400)]);
}

/// "Edits 10, 6/7, 8 (whole shelf), 12, 11, 9"
fn refused_edits(t: &mut Tally) {
    let shelf = m1_shelf();
    let cut = &shelf[..50];
    let wrong = m5_shelf();
    for asked in [Edit::Set(7, 0, 1), Edit::Set(7, MAX_DOCID + 1, 1), Edit::Set(7, 1, 0), Edit::Clear(7, 0), Edit::Withdraw(MAX_DOCID + 1)] {
        let (answer, _) = edit(t, asked, cut, 0);
        is(t, answer, (10, 0));
    }
    for asked in [Edit::Set(7, 1, 1), Edit::Clear(8, 1), Edit::Withdraw(1)] {
        let (answer, _) = edit(t, asked, cut, 0);
        is(t, answer, (6, 45));
        let (answer, _) = edit(t, asked, &wrong, 0);
        is(t, answer, (8, 40));
    }
    for asked in [Edit::Clear(8, 2), Edit::Clear(7, 3), Edit::Withdraw(5)] {
        let (answer, _) = edit(t, asked, &shelf, 0);
        is(t, answer, (12, 0));
    }
    for asked in [Edit::Set(7, 2, 5), Edit::Clear(7, 2), Edit::Withdraw(4)] {
        let length = edit(t, asked, &shelf, ROOM).1.len();
        let (answer, _) = edit(t, asked, &shelf, length - 1);
        is(t, answer, (9, 0));
        let (answer, _) = edit(t, asked, &shelf, length);
        is(t, answer, (0, length as u64));
    }
}
