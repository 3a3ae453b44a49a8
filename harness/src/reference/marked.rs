//! M1 to M10, a case for each row of the refusal table, and the strips.

use super::convert::convert;
use super::edit::{edit, Edit};
use super::list::{pack, put_blocks, put_blocks_as, read_list, write_list};
use super::m1::{m1_query, m1_shelf, m5_shelf};
use super::program::print;
use super::prune::{search, Found, Room, Stopped, NOT_REACHED, OPENED, SKIPPED, STOPPED};
use super::query::{put_query, read_query};
use super::rank::rank_all;
use super::shelf::check;
use super::{Layout, Refusal};

const WIDE: Room = Room { rows: 100, book: 1025 };

fn found(k: u8, shelf: &[u8]) -> Found {
    search(&m1_query(k), shelf, WIDE).expect("accepted")
}

fn at<T>(number: u32, offset: usize) -> Result<T, Refusal> {
    Err(Refusal { number, offset })
}

#[test]
fn m1_bytes_are_the_papers() {
    let text = "01000500000007 02 020009000002000004000502 020009000009000009000101 0300050005010003 0300020001 \
                010005000000090 1 020009000004000006000402 0300050004010002";
    let digits: Vec<u32> = text.chars().filter_map(|c| c.to_digit(16)).collect();
    let bytes: Vec<u8> = digits.chunks(2).map(|d| (d[0] * 16 + d[1]) as u8).collect();
    assert_eq!(m1_shelf(), bytes);
}

#[test]
fn m1_prints_the_papers_lines() {
    let input = [m1_query(1), m1_shelf()].concat();
    let lines = "H 1 4 11\nI 1 1 0 skipped\nI 2 3 5 opened\nI 4 4 13 opened\nI 5 6 8 skipped\nI 7 8 0 skipped\nI 9 9 1 skipped\n\
                 I 10 16777215 0 skipped\nB 2 3\n";
    assert_eq!(print(&input), lines);
}

#[test]
fn m2_to_m4_more_hits() {
    let shelf = m1_shelf();
    let m2 = found(2, &shelf);
    assert_eq!(m2.hits, [(4, 11), (2, 5)]);
    assert_eq!(m2.book.marks[3], OPENED);
    let m3 = found(3, &shelf);
    assert_eq!(m3.hits, [(4, 11), (2, 5), (6, 4)]);
    assert_eq!(m3.book.marks[5], SKIPPED);
    assert_eq!(found(5, &shelf).hits, [(4, 11), (2, 5), (6, 4), (9, 1)]);
    for k in 1..=5 {
        assert_eq!(Ok(found(k, &shelf).hits), rank_all(&m1_query(k), &shelf, 100));
    }
}

#[test]
fn m5_and_m6_a_wrong_score() {
    let shelf = m5_shelf();
    assert_eq!(found(1, &shelf).hits, [(4, 11)]);
    assert_eq!(check(&shelf).err(), Some(Refusal { number: 8, offset: 40 }));
    let Err(Stopped { refusal, book: Some(book) }) = search(&m1_query(4), &shelf, WIDE) else { panic!("not stopped") };
    assert_eq!(refusal, Refusal { number: 8, offset: 40 });
    assert_eq!(book.marks, [SKIPPED, OPENED, OPENED, OPENED, SKIPPED, STOPPED, NOT_REACHED]);
}

#[test]
fn m7_an_equal_ceiling_is_skipped() {
    let shelf = put_blocks(7, &[&[(3, 6)], &[(8, 6)]]);
    let m7 = search(&put_query(1, &[(7, 1)]), &shelf, WIDE).expect("accepted");
    assert_eq!((m7.hits, m7.opened, m7.blocks), (vec![(3, 6)], 1, 2));
}

#[test]
fn m8_the_empty_shelf() {
    assert_eq!(print(&m1_query(1)), "I 1 16777215 0 skipped\nB 0 0\n");
}

#[test]
fn m9_and_m10_edits() {
    let run = |edits: &[(u32, u32, u16)]| {
        edits.iter().fold(Vec::new(), |shelf, &(t, d, s)| edit(Edit::Set(t, d, s), &shelf, 200).expect("accepted"))
    };
    let m9 = run(&[(5, 3, 6), (5, 8, 9), (5, 8, 2)]);
    assert_eq!(m9, pack(5, &[(3, 6), (8, 2)]));
    assert_eq!(check(&m9).expect("sound")[0].blocks[0].summary.top, 6);
    assert_eq!(run(&[(7, 2, 5), (7, 4, 3), (7, 9, 1), (9, 4, 4), (9, 6, 2)]).len(), 59);
}

#[test]
fn rows_1_to_5() {
    assert_eq!(read_query(&[]), at(1, 0));
    assert_eq!(read_query(&put_query(0, &[])[..3]), at(1, 0));
    let cut = put_query(0, &[(1, 1), (2, 0)]);
    assert_eq!(read_query(&cut[..cut.len() - 1]), at(1, 12));
    assert_eq!(read_query(&put_query(0, &[])), at(2, 0));
    assert_eq!(read_query(&put_query(101, &[(1, 1)])), at(2, 0));
    assert_eq!(read_query(&put_query(100, &[])), at(3, 4));
    let nine: Vec<(u32, u8)> = (0..9).map(|t| (t, 1)).collect();
    assert_eq!(read_query(&put_query(1, &nine)), at(3, 68));
    assert!(read_query(&put_query(1, &nine[..8])).is_ok());
    let mut tenth = put_query(1, &nine);
    tenth.push(0x21);
    assert_eq!(read_query(&tenth), at(1, 76));
    assert_eq!(read_query(&put_query(1, &[(7, 1), (8, 0), (7, 0)])), at(4, 12));
    for terms in [[7, 9, 9, 7], [7, 9, 7, 9]] {
        assert_eq!(read_query(&put_query(1, &terms.map(|t| (t, 1)))), at(5, 20));
    }
}

#[test]
fn rows_6_to_8() {
    let refusal = |shelf: &[u8]| check(shelf).err().map(|r| (r.number, r.offset));
    let shelf = m1_shelf();
    assert_eq!(refusal(&shelf), None);
    assert_eq!(refusal(&shelf[..8]), Some((6, 8)));
    assert_eq!(refusal(&shelf[..9]), Some((6, 8)));
    assert_eq!(refusal(&vec![0; 1_048_577]), Some((6, 0)));
    assert_eq!(refusal(&[shelf.clone(), shelf.clone()].concat()), Some((6, 73)));
    let with = |at: usize, byte: u8| {
        let mut damaged = m1_shelf();
        damaged[at] = byte;
        refusal(&damaged)
    };
    assert_eq!(with(7, 0), Some((6, 0)));
    assert_eq!(with(7, 65), Some((6, 0)));
    assert_eq!(with(13, 0), Some((7, 8)));
    assert_eq!(with(25, 4), Some((7, 20)));
    assert_eq!(with(36, 0), Some((8, 32)));
    assert_eq!(with(18, 6), Some((8, 32)));
}

#[test]
fn rows_9_to_12() {
    let shelf = m1_shelf();
    assert_eq!(read_list(&shelf, 7, 3, 2), at(9, 0));
    assert_eq!(read_list(&shelf, 7, 3, 3), Ok(vec![(2, 5), (4, 3), (9, 1)]));
    assert_eq!(read_list(&shelf, 8, 3, 3), at(12, 0));
    for layout in Layout::BOTH {
        assert_eq!(write_list(layout, 7, &[1; 6_401], &[], 0), at(11, 0));
        assert_eq!(write_list(layout, 7, &[1, 2], &[1], 99), at(10, 1));
        assert_eq!(write_list(layout, 7, &[], &[], 99), at(10, 0));
        assert_eq!(write_list(layout, 7, &[1, 5, 5], &[1, 1, 1], 99), at(10, 2));
        assert_eq!(write_list(layout, 7, &[1], &[1], 24), at(9, 0));
    }
    assert_eq!(edit(Edit::Set(7, 0, 1), &[9], 0), at(10, 0));
    assert_eq!(edit(Edit::Withdraw(16_777_216), &[9], 0), at(10, 0));
    assert_eq!(edit(Edit::Clear(7, 3), &shelf, 0), at(12, 0));
    assert_eq!(edit(Edit::Withdraw(3), &shelf, 0), at(12, 0));
    assert_eq!(edit(Edit::Set(7, 3, 1), &shelf, 61), at(9, 0));
    let full: Vec<(u32, u16)> = (1..=6_400).map(|d| (d, 1)).collect();
    assert_eq!(edit(Edit::Set(7, 6_401, 1), &pack(7, &full), 0), at(11, 0));
    assert_eq!(print(&vec![0; 65_537]), "R 13 0\n");
}

/// "tag 04: all gap numbers first, then all scores, two bytes each, the first posting's score first"
#[test]
fn a_strips_bytes() {
    let block: &[(u32, u16)] = &[(5, 9), (133, 8), (300, 0x102)];
    let strip = put_blocks_as(Layout::Strip, 7, &[block]);
    assert_eq!(strip[20..], [4, 0, 9, 127, 0xa6, 1, 0, 9, 0, 8, 1, 2]);
    assert_eq!(put_blocks(7, &[block])[20..], [3, 0, 9, 0, 9, 127, 0, 8, 0xa6, 1, 1, 2]);
    assert_eq!(read_list(&strip, 7, 3, 3), Ok(block.to_vec()));
}

#[test]
fn mixed_tags_are_6() {
    let blocks: [&[(u32, u16)]; 3] = [&[(1, 1)], &[(2, 1)], &[(3, 1)]];
    let refusal = |layout: Layout, flipped: &[usize]| {
        let mut shelf = put_blocks_as(layout, 7, &blocks);
        flipped.iter().for_each(|&at| shelf[at] ^= 3 ^ 4);
        check(&shelf).err().map(|r| (r.number, r.offset))
    };
    for layout in Layout::BOTH {
        assert_eq!(refusal(layout, &[]), None);
        assert_eq!(refusal(layout, &[44]), Some((6, 49)));
        assert_eq!(refusal(layout, &[49]), Some((6, 49)));
        assert_eq!(refusal(layout, &[54]), Some((6, 54)));
        assert_eq!(refusal(layout, &[44, 49]), Some((6, 54)));
        assert_eq!(refusal(layout, &[44, 49, 54]), None);
    }
}

/// "converter 6/7, 8 (whole shelf), 12, 9"
#[test]
fn the_converter() {
    let shelf = m1_shelf();
    let strips = convert(&shelf, 7, 73).expect("accepted");
    assert_eq!(strips[32..45], [4, 0, 5, 1, 0, 5, 0, 3, 4, 0, 2, 0, 1]);
    assert_eq!((&strips[..32], &strips[45..]), (&shelf[..32], &shelf[45..]));
    assert_eq!(convert(&strips, 7, 73), Ok(shelf.clone()));
    assert_eq!(print(&[m1_query(1), strips].concat()), print(&[m1_query(1), shelf.clone()].concat()));
    assert_eq!(convert(&shelf[..72], 8, 0), at(6, 65));
    let mut wrong = m1_shelf();
    wrong[69] = 9;
    assert_eq!(convert(&wrong, 8, 0), at(8, 65));
    assert_eq!(convert(&shelf, 8, 0), at(12, 0));
    assert_eq!(convert(&shelf, 7, 72), at(9, 0));
}

/// "an edit keeps a list's tag and a new list gets 03"
#[test]
fn edits_keep_the_tag() {
    let run = |edits: &[Edit], shelf: Vec<u8>| edits.iter().fold(shelf, |shelf, &e| edit(e, &shelf, 200).expect("accepted"));
    let strip = put_blocks_as(Layout::Strip, 7, &[&[(2, 5), (4, 3)]]);
    let edits = [Edit::Set(7, 9, 1), Edit::Set(7, 4, 2), Edit::Clear(7, 2), Edit::Set(8, 9, 1), Edit::Withdraw(4)];
    let expected = [put_blocks_as(Layout::Strip, 7, &[&[(9, 1)]]), pack(8, &[(9, 1)])].concat();
    assert_eq!(run(&edits, strip.clone()), expected);
    let emptied = [Edit::Clear(7, 2), Edit::Clear(7, 4), Edit::Set(7, 2, 5)];
    assert_eq!(run(&emptied, strip), pack(7, &[(2, 5)]));
}
