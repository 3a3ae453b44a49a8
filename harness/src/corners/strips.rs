//! Corners of the strips, bodies tagged 04, and of the converter, each with the paper's answer.

use super::{after, cut_m1, holds, is, least_list, one_block_as, run_of, Corner, ONE, THREE};
use crate::compare::search::{search, Rooms};
use crate::compare::{check, convert, edit, rank_all, read_list, write_list, Answer, Tally};
use crate::reference::edit::Edit;
use crate::reference::list::{pack, pack_as, put_blocks, put_blocks_as};
use crate::reference::m1::{m1_query, m1_shelf, m1_strips};
use crate::reference::query::put_query;
use crate::reference::shelf::Summary;
use crate::reference::{Layout, Posting};

pub const CORNERS: [Corner; 13] = [
    ("M1 in strips: its bytes, and each of them made another", each_byte_changed),
    ("strips cut short at every byte, of the shelf and of the body", cut_at_every_byte),
    ("mixed tags in one list: at the first body that differs, in byte order with other faults", mixed_tags),
    ("a body of one posting is the same under either tag; one of two is not", either_tag),
    ("each way a strip is wrong", wrong_strips),
    ("gap numbers whose sum comes round past 32 bits to the greatest docid, in either layout", sum_past_32_bits),
    ("strips written and read: 1, 100, 101, 6,400 and 6,401 postings, exact room and one short", written_and_read),
    ("M1 to M6 in strips: both searches as before", searched),
    ("converted: the other layout, the other lists as they stand, and back again", converted),
    ("conversions refused in the order 6 or 7, 8, 12, 9", refused_conversions),
    ("a converted list is not packed anew; 64 blocks, 6,400 postings, 1,024 lists", large_conversions),
    ("edits keep a list's tag, and a new list gets 03", edits_keep_tags),
    ("the safe functions for Rust: a strip written, converted, refused", safe_functions),
];

fn each_byte_changed(t: &mut Tally) {
    let shelf = m1_strips();
    is(t, &shelf[32..45], &[4, 0, 5, 1, 0, 5, 0, 3, 4, 0, 2, 0, 1]);
    let found = check(t, &shelf);
    is(t, found, (0, 0));
    for at in 0..shelf.len() {
        for change in 1..=255 {
            let mut damaged = shelf.clone();
            damaged[at] = damaged[at].wrapping_add(change);
            check(t, &damaged);
            convert(t, &damaged, 7, shelf.len());
        }
    }
}

fn cut_at_every_byte(t: &mut Tally) {
    cut_m1(t, &m1_strips());
    for end in 0..STRIP.len() {
        let found = check(t, &one_block_as(Layout::Strip, THREE, &STRIP[..end]));
        is(t, found, (8, 20));
    }
}

/// "mixed tags in one list are 6"
fn mixed_tags(t: &mut Tally) {
    let run = run_of(3);
    let blocks: Vec<&[Posting]> = run.chunks(1).collect();
    for layout in Layout::BOTH {
        let cases: [(&[usize], Answer); 6] =
            [(&[], (0, 0)), (&[44], (6, 49)), (&[49], (6, 49)), (&[54], (6, 54)), (&[44, 49], (6, 54)), (&[44, 49, 54], (0, 0))];
        for (flipped, paper) in cases {
            let mut shelf = put_blocks_as(layout, 7, &blocks);
            flipped.iter().for_each(|&at| shelf[at] = layout.other().tag());
            let found = check(t, &shelf);
            is(t, found, paper);
            // a list behind it may have either tag
            shelf.extend(pack_as(layout.other(), 8, &run));
            let found = check(t, &shelf);
            is(t, found, paper);
            let found = read_list(t, &shelf, 8, 3, 3);
            is(t, found, if paper.0 == 0 { (0, 3) } else { paper });
            let told = search(t, &put_query(1, &[(8, 1)]), &shelf, Rooms::WIDE);
            is(t, told.answer, if paper.0 == 0 { (0, 1) } else { paper });
            let (answer, _) = convert(t, &shelf, 8, shelf.len());
            is(t, answer, if paper.0 == 0 { (0, shelf.len() as u64) } else { paper });
        }
    }
    // M1's bodies are at 32 and 40: a wrong first body is found later, a wrong summary behind comes later, one before comes first
    for (at, byte, paper) in [(36, 0, (6, 40)), (63, 0, (6, 40)), (25, 4, (7, 20)), (32, 5, (6, 32)), (40, 5, (6, 40)), (42, 60, (6, 40))] {
        let mut shelf = m1_shelf();
        shelf[40] = 4;
        shelf[at] = byte;
        let found = check(t, &shelf);
        is(t, found, paper);
    }
}

fn either_tag(t: &mut Tally) {
    for layout in Layout::BOTH {
        let found = check(t, &one_block_as(layout, ONE, &[0, 9]));
        is(t, found, (0, 0));
        for body in [vec![], vec![0; 65_535], vec![9], vec![0, 9, 0], vec![0, 0, 9]] {
            let found = check(t, &one_block_as(layout, ONE, &body));
            is(t, found, (8, 20));
        }
        let mut two = pack_as(layout, 7, &[(2, 5), (4, 3)]);
        two[20] = layout.other().tag();
        let found = check(t, &two);
        is(t, found, (8, 20));
    }
}

/// Docids 5, 133 and 300: gap numbers 127 and 166, scores 9, 8 and 1.
const STRIP: &[u8] = &[127, 0xa6, 1, 0, 9, 0, 8, 0, 1];

fn wrong_strips(t: &mut Tally) {
    let found = check(t, &one_block_as(Layout::Strip, THREE, STRIP));
    is(t, found, (0, 0));
    let wrong: [&[u8]; 14] = [
        &[127, 0xa6, 1, 0, 9, 0, 8, 0, 1, 0],
        &[127, 0xa6, 1, 0, 9, 0, 8, 0, 1, 0, 1],
        &[127, 0xa6, 1, 0, 0, 0, 9, 0, 1],
        &[127, 0xa6, 1, 0, 9, 0, 8, 0, 0],
        &[127, 0xa6, 1, 0, 8, 0, 8, 0, 1],
        &[127, 0xa6, 1, 0, 9, 0, 10, 0, 1],
        &[127, 0xa5, 1, 0, 9, 0, 8, 0, 1],
        &[127, 0xa7, 1, 0, 9, 0, 8, 0, 1],
        &[0xff, 0, 0xa6, 1, 0, 9, 0, 8, 0, 1],
        &[0xff, 0x80, 0x80, 0x80, 0, 0xa6, 1, 0, 9, 0, 8, 0, 1],
        &[0xff, 0x80, 0x80, 0x80, 0x80, 0x80, 0x80, 0x80, 0x80],
        // one gap number alone, and three of them
        &[127, 0, 9, 0, 8, 0, 1],
        &[127, 0xa6, 1, 0, 0, 9, 0, 8, 0, 1],
        // the same postings as pairs
        &[0, 9, 127, 0, 8, 0xa6, 1, 0, 1],
    ];
    for body in wrong {
        let shelf = one_block_as(Layout::Strip, THREE, body);
        let found = check(t, &shelf);
        is(t, found, (8, 20));
        let found = read_list(t, &shelf, 7, 0, 0);
        is(t, found, (8, 20));
        let found = rank_all(t, &put_query(1, &[(7, 1)]), &shelf, 1, 1);
        is(t, found, (8, 20));
        let (answer, _) = convert(t, &shelf, 8, 0);
        is(t, answer, (8, 20));
    }
}

/// Sixteen gaps as large as four bytes hold are 2 to the 32; one of 100 behind them would end at greatest.
fn sum_past_32_bits(t: &mut Tally) {
    let s = Summary { least: 1, greatest: 101, top: 1, count: 18 };
    let (gap, score) = ([0xff, 0xff, 0xff, 0x7f], [0, 1]);
    let strip = [gap.repeat(16), vec![99], score.repeat(18)].concat();
    let pairs = [score.to_vec(), [&gap[..], &score].concat().repeat(16), vec![99, 0, 1]].concat();
    for (layout, body) in [(Layout::Strip, strip), (Layout::Pairs, pairs)] {
        let shelf = one_block_as(layout, s, &body);
        let found = check(t, &shelf);
        is(t, found, (8, 20));
        let found = read_list(t, &shelf, 7, 100, 100);
        is(t, found, (8, 20));
        let told = search(t, &put_query(1, &[(7, 1)]), &shelf, Rooms::WIDE);
        is(t, told.answer, (8, 20));
    }
}

fn written_and_read(t: &mut Tally) {
    for (n, length) in [(1, 25), (100, 322), (101, 339), (6_400, 20_104)] {
        let (docids, scores): (Vec<u32>, Vec<u16>) = run_of(n).into_iter().unzip();
        let room = length as usize;
        for (room, paper) in [(room, (0, length)), (room - 1, (9, 0)), (0, (9, 0))] {
            let found = write_list(t, Layout::Strip, 7, &docids, &scores, room);
            is(t, found, paper);
        }
        let strips = pack_as(Layout::Strip, 7, &run_of(n));
        let n = n as usize;
        for (docid_room, score_room, paper) in [(n, n, (0, n as u64)), (n - 1, n, (9, 0)), (n, n - 1, (9, 0))] {
            let found = read_list(t, &strips, 7, docid_room, score_room);
            is(t, found, paper);
        }
    }
    let many: Vec<u32> = (1..=6_401).collect();
    let cases: [(&[u32], &[u16], Answer); 4] =
        [(&many, &[1], (11, 0)), (&many[..2], &[1], (10, 1)), (&[], &[], (10, 0)), (&[1, 1], &[1, 1], (10, 1))];
    for (docids, scores, paper) in cases {
        let found = write_list(t, Layout::Strip, 7, docids, scores, 0);
        is(t, found, paper);
    }
}

fn searched(t: &mut Tally) {
    for (wrong_score, ks) in [(1, [1, 2, 3, 5]), (3, [1, 2, 3, 4])] {
        for k in ks {
            let (mut pairs, mut strips) = (m1_shelf(), m1_strips());
            (pairs[30], strips[30]) = (wrong_score, wrong_score);
            let (told, before) = (search(t, &m1_query(k), &strips, Rooms::WIDE), search(t, &m1_query(k), &pairs, Rooms::WIDE));
            is(t, told, before);
            let (ranked, before) = (rank_all(t, &m1_query(k), &strips, 5, 5), rank_all(t, &m1_query(k), &pairs, 5, 5));
            is(t, ranked, before);
        }
    }
}

fn converted(t: &mut Tally) {
    let (answer, strips) = convert(t, &m1_shelf(), 7, 73);
    is(t, answer, (0, 73));
    is(t, &strips, &m1_strips());
    let (answer, back) = convert(t, &strips, 7, 100);
    is(t, answer, (0, 73));
    is(t, &back, &m1_shelf());
    // both lists, in either order
    let (_, both) = convert(t, &strips, 9, 73);
    let (_, other) = convert(t, &m1_shelf(), 9, 73);
    let (_, other) = convert(t, &other, 7, 73);
    is(t, &both, &other);
    is(t, &both[65..], &[4, 0, 5, 1, 0, 4, 0, 2]);
    let found = check(t, &both);
    is(t, found, (0, 0));
}

/// "converter 6/7, 8 (whole shelf), 12, 9"
fn refused_conversions(t: &mut Tally) {
    for shelf in [m1_shelf(), m1_strips()] {
        let mut wrong = shelf.clone();
        wrong[69] = 9; // the body of list 9
        let mut later = wrong.clone();
        later[63] = 0; // the summary of list 9
        for (shelf, term, room, paper) in [
            (&wrong[..72], 8, 0, (6, 65)),
            (&later[..], 8, 0, (7, 53)),
            (&wrong[..], 8, 0, (8, 65)),
            (&wrong[..], 7, 73, (8, 65)),
            (&shelf[..], 8, 0, (12, 0)),
            (&shelf[..], 8, 73, (12, 0)),
            (&shelf[..], 7, 0, (9, 0)),
            (&shelf[..], 7, 72, (9, 0)),
            (&shelf[..], 7, 73, (0, 73)),
            (&[], 7, 0, (12, 0)),
        ] {
            let (answer, _) = convert(t, shelf, term, room);
            is(t, answer, paper);
        }
    }
}

fn large_conversions(t: &mut Tally) {
    let run = run_of(64);
    let blocks: Vec<&[Posting]> = run.chunks(1).collect();
    let (_, turned) = convert(t, &put_blocks(3, &blocks), 3, 2_000);
    is(t, &turned, &put_blocks_as(Layout::Strip, 3, &blocks));
    let uneven: [&[Posting]; 3] = [&run[..1], &run[1..40], &run[40..]];
    let (_, turned) = convert(t, &put_blocks_as(Layout::Strip, 3, &uneven), 3, 2_000);
    is(t, &turned, &put_blocks(3, &uneven));
    let (_, turned) = convert(t, &pack(3, &run_of(6_400)), 3, 30_000);
    is(t, turned == pack_as(Layout::Strip, 3, &run_of(6_400)), true);
    let lists: Vec<u8> = (0..1_024).flat_map(least_list).collect();
    for term in [0, 500, 1_023] {
        let (answer, turned) = convert(t, &lists, term, lists.len());
        is(t, answer, (0, lists.len() as u64));
        let changed: Vec<usize> = (0..lists.len()).filter(|&i| turned[i] != lists[i]).collect();
        is(t, &changed[..], &[25 * term as usize + 20]);
    }
}

fn edits_keep_tags(t: &mut Tally) {
    let strip = |term: u32, run: &[Posting]| pack_as(Layout::Strip, term, run);
    let list = strip(7, &[(2, 5), (4, 3)]);
    let edited = after(t, list.clone(), &[Edit::Set(7, 4, 3)]);
    holds(t, &edited, &list);
    let edited = after(t, list.clone(), &[Edit::Set(7, 9, 1), Edit::Set(7, 2, 1), Edit::Clear(7, 4)]);
    holds(t, &edited, &strip(7, &[(2, 1), (9, 1)]));
    let edited = after(t, list.clone(), &[Edit::Set(6, 2, 1), Edit::Set(8, 2, 1)]);
    holds(t, &edited, &[pack(6, &[(2, 1)]), list.clone(), pack(8, &[(2, 1)])].concat());
    let edited = after(t, list.clone(), &[Edit::Clear(7, 2), Edit::Withdraw(4), Edit::Set(7, 4, 3)]);
    holds(t, &edited, &pack(7, &[(4, 3)]));
    // a sheet in lists of both layouts; a list that is not packed full is packed anew, in its layout
    let edited = after(t, m1_strips(), &[Edit::Withdraw(4)]);
    holds(t, &edited, &[strip(7, &[(2, 5), (9, 1)]), pack(9, &[(6, 2)])].concat());
    let full = after(t, strip(7, &run_of(6_399)), &[Edit::Set(7, 6_400, 1)]);
    is(t, full == strip(7, &run_of(6_400)), true);
    let (answer, _) = edit(t, Edit::Set(7, 6_401, 1), &full, 30_000);
    is(t, answer, (11, 0));
    let (answer, _) = edit(t, Edit::Set(7, 2, 1), &list, list.len() - 1);
    is(t, answer, (9, 0));
}

fn safe_functions(t: &mut Tally) {
    let (mut strips, mut pairs) = ([0; 28], [0; 28]);
    let written = tagmurlen::write_list(tagmurlen::Layout::Strip, 7, &[2, 4], &[5, 3], &mut strips);
    is(t, (written, &strips[20..]), (Ok(28), &[4, 0, 5, 1, 0, 5, 0, 3]));
    let turned = tagmurlen::convert(&strips, 7, &mut pairs);
    is(t, (turned, &pairs[20..]), (Ok(28), &[3, 0, 5, 0, 5, 1, 0, 3]));
    let written = tagmurlen::write_list(tagmurlen::Layout::Pairs, 7, &[2, 4], &[5, 3], &mut strips);
    is(t, (written, strips), (Ok(28), pairs));
    let refused = tagmurlen::convert(&pairs, 8, &mut strips);
    is(t, refused, Err(tagmurlen::Refusal { number: 12, offset: 0 }));
}
