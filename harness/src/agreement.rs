//! Tests of the harness itself, on random inputs: what the reference says in two ways must agree, and the benchmarks' measure with it.

use crate::generate;
use crate::reference::convert::convert;
use crate::reference::edit::{edit, Edit};
use crate::reference::list::{pack_as, read_list, write_list};
use crate::reference::prune::{search, Room};
use crate::reference::rank::rank_all;
use crate::reference::shelf::{check, walk};
use crate::reference::{Layout, Refusal, MAX_SHELF};
use crate::rng::Rng;
use crate::tuned;
use std::collections::BTreeMap;

const ROUNDS: u64 = 300;

fn pair(refusal: Refusal) -> (u32, usize) {
    (refusal.number, refusal.offset)
}

#[test]
fn pruned_is_exhaustive_on_sound_shelves() {
    for seed in 0..ROUNDS {
        let rng = &mut Rng::new(seed);
        let (size, spread) = (generate::size(rng), generate::spread(rng));
        let shelf = generate::shelf(rng, size, spread);
        let terms: Vec<u32> = walk(&shelf).expect("sound").iter().map(|l| l.term).collect();
        let query = generate::query(rng, &terms);
        let found = search(&query, &shelf, Room { rows: 100, book: 1025 }).expect("accepted");
        assert_eq!(Ok(found.hits), rank_all(&query, &shelf, 100), "seed {seed}");
        assert!(found.book.firsts.len() <= 1025 && found.opened <= found.blocks, "seed {seed}");
    }
}

#[test]
fn the_measure_agrees_with_the_reference() {
    for seed in 0..ROUNDS {
        let rng = &mut Rng::new(seed);
        let (size, spread) = (generate::size(rng), generate::spread(rng));
        let mut shelf = generate::shelf(rng, size, spread);
        for _ in 0..4 {
            assert_eq!(tuned::check(&shelf), check(&shelf).map(drop).map_err(pair), "seed {seed}");
            let term = rng.within(0, 3) as u32;
            let (mut docids, mut scores) = (vec![0; 6_400], vec![0; 6_400]);
            let read = tuned::list::read_list(&shelf, term, &mut docids, &mut scores);
            let postings = read.map(|n| docids.into_iter().zip(scores).take(n).collect());
            assert_eq!(postings, read_list(&shelf, term, 6_400, 6_400).map_err(pair), "seed {seed}");
            shelf = generate::damage(rng, &shelf);
        }
        let (docids, scores) = generate::runs(rng);
        for layout in Layout::BOTH {
            let mut out = vec![0; 30_000];
            let written = tuned::list::write_list(layout, 7, &docids, &scores, &mut out).map(|n| out[..n].to_vec());
            assert_eq!(written, write_list(layout, 7, &docids, &scores, 30_000).map_err(pair), "seed {seed}");
        }
    }
}

#[test]
fn the_measures_searches_agree_with_the_reference() {
    for seed in 0..ROUNDS {
        let rng = &mut Rng::new(seed);
        let (size, spread) = (generate::size(rng), generate::spread(rng));
        let mut shelf = generate::shelf(rng, size, spread);
        let terms: Vec<u32> = walk(&shelf).expect("sound").iter().map(|l| l.term).collect();
        for _ in 0..3 {
            let query = if rng.once_in(8) { generate::wrong_query(rng, &terms) } else { generate::query(rng, &terms) };
            let rows = rng.pick(&[100, 100, 100, 5]);
            let ranked = rank_all(&query, &shelf, rows).map_err(pair);
            let (mut docids, mut scores) = (vec![0; rows], vec![0; rows]);
            let hits = tuned::rank::rank_all(&query, &shelf, &mut docids, &mut scores).map(|n| together(&docids[..n], &scores[..n]));
            assert_eq!(hits, ranked, "seed {seed}");
            the_pruned_agree(&query, &shelf, rows, rng.pick(&[1025, 1025, 20, 3]), seed);
            if check(&shelf).is_ok() {
                let skipped = tuned::skipping::search(&query, &shelf, &mut docids, &mut scores);
                assert_eq!(skipped.map(|found| together(&docids[..found.hits], &scores[..found.hits])), ranked, "seed {seed}");
            }
            shelf = if walk(&shelf).is_ok() && rng.once_in(2) { generate::damage_body(rng, &shelf) } else { generate::damage(rng, &shelf) };
        }
    }
}

fn together(docids: &[u32], scores: &[u32]) -> Vec<(u32, u32)> {
    docids.iter().copied().zip(scores.iter().copied()).collect()
}

/// Hits, book and counts, into runs that may be too short; what is not to be touched is as it was.
fn the_pruned_agree(query: &[u8], shelf: &[u8], rows: usize, room: usize, seed: u64) {
    let (mut docids, mut scores) = (vec![0; rows], vec![0; rows]);
    let (mut firsts, mut ceilings, mut marks) = (vec![77; room], vec![77; room], vec![77; room]);
    let mut book = tuned::pruned::Book::new(&mut firsts, &mut ceilings, &mut marks);
    let found = tuned::pruned::search(query, shelf, &mut docids, &mut scores, &mut book);
    let filled = book.intervals;
    let counts = found.map(|f| (together(&docids[..f.hits], &scores[..f.hits]), f.opened, f.blocks));
    let reference = search(query, shelf, Room { rows, book: room });
    let (wanted, book) = match reference {
        Ok(f) => (Ok((f.hits, f.opened, f.blocks)), f.book),
        Err(stopped) => (Err(pair(stopped.refusal)), stopped.book.unwrap_or_default()),
    };
    if wanted.is_err() {
        assert!(docids.iter().chain(&scores).all(|&row| row == 0), "seed {seed}");
    }
    assert_eq!(counts, wanted, "seed {seed}");
    assert_eq!((&firsts[..filled], &ceilings[..filled], &marks[..filled]), (&book.firsts[..], &book.ceilings[..], &book.marks[..]), "seed {seed}");
    assert!(firsts[filled..].iter().chain(&ceilings[filled..]).all(|&row| row == 77), "seed {seed}");
    assert!(marks[filled..].iter().all(|&row| row == 77), "seed {seed}");
}

#[test]
fn the_measures_edits_agree_with_the_reference() {
    for seed in 0..ROUNDS {
        let rng = &mut Rng::new(seed);
        let (size, spread) = (generate::size(rng), generate::spread(rng));
        let mut shelf = generate::shelf(rng, size, spread);
        for _ in 0..4 {
            let docid = rng.within(0, 40) as u32;
            let (term, score, room) = (rng.within(0, 4) as u32, rng.within(0, 9) as u16, shelf.len() + rng.within(0, 30));
            let mut out = vec![0; room];
            let set = tuned::edit::set(&shelf, term, docid, score, &mut out).map(|n| out[..n].to_vec());
            assert_eq!(set, edit(Edit::Set(term, docid, score), &shelf, room).map_err(pair), "seed {seed}");
            let cleared = tuned::edit::clear(&shelf, term, docid, &mut out).map(|n| out[..n].to_vec());
            assert_eq!(cleared, edit(Edit::Clear(term, docid), &shelf, room).map_err(pair), "seed {seed}");
            let withdrawn = tuned::edit::withdraw(&shelf, docid, &mut out).map(|n| out[..n].to_vec());
            assert_eq!(withdrawn, edit(Edit::Withdraw(docid), &shelf, room).map_err(pair), "seed {seed}");
            let converted = tuned::convert::convert(&shelf, term, &mut out).map(|n| out[..n].to_vec());
            assert_eq!(converted, convert(&shelf, term, room).map_err(pair), "seed {seed}");
            shelf = if rng.within(0, 2) == 0 { generate::damage(rng, &shelf) } else { converted.or(set).unwrap_or(shelf) };
        }
    }
}

/// A list to the other layout and back is as it was; between, the shelf is as long, holds the same and answers alike.
#[test]
fn both_layouts_mean_the_same() {
    for seed in 0..ROUNDS {
        let rng = &mut Rng::new(seed);
        let (size, spread) = (generate::size(rng), generate::spread(rng));
        let shelf = generate::shelf(rng, size, spread);
        let terms: Vec<u32> = walk(&shelf).expect("sound").iter().map(|l| l.term).collect();
        let Some(&term) = terms.last() else { continue };
        let turned = convert(&shelf, term, shelf.len()).expect("there is room");
        assert_ne!(turned, shelf, "seed {seed}");
        assert_eq!(convert(&turned, term, shelf.len()), Ok(shelf.clone()), "seed {seed}");
        assert_eq!(read_list(&turned, term, 6_400, 6_400), read_list(&shelf, term, 6_400, 6_400), "seed {seed}");
        let query = generate::query(rng, &terms);
        let room = Room { rows: 100, book: 1025 };
        assert_eq!(search(&query, &turned, room), search(&query, &shelf, room), "seed {seed}");
    }
}

/// What a history adds up to: a list's layout and its postings, by term.
type Held = BTreeMap<u32, (Layout, BTreeMap<u32, u16>)>;

fn add_up(held: &mut Held, asked: Edit) {
    match asked {
        Edit::Set(term, docid, score) => {
            held.entry(term).or_insert((Layout::Pairs, BTreeMap::new())).1.insert(docid, score);
        }
        Edit::Clear(term, docid) => held.get_mut(&term).expect("the edit was accepted").1.retain(|&d, _| d != docid),
        Edit::Withdraw(docid) => held.values_mut().for_each(|list| list.1.retain(|&d, _| d != docid)),
    }
    held.retain(|_, list| !list.1.is_empty());
}

/// Edits and conversions from the empty shelf: sound, with the postings that the accepted edits add up to, and the bytes of one writing of them.
#[test]
fn a_history_is_one_writing() {
    for seed in 0..ROUNDS {
        let rng = &mut Rng::new(seed);
        let mut shelf = Vec::new();
        let mut held = Held::new();
        for _ in 0..rng.within(1, 60) {
            let (term, docid, score) = (rng.within(1, 4) as u32, rng.within(0, 12) as u32, rng.within(0, 9) as u16);
            if rng.once_in(6) {
                let Ok(after) = convert(&shelf, term, MAX_SHELF) else { continue };
                shelf = after;
                held.entry(term).and_modify(|list| list.0 = list.0.other());
                continue;
            }
            let asked = [Edit::Set(term, docid, score), Edit::Clear(term, docid), Edit::Withdraw(docid)];
            let asked = asked[rng.pick(&[0, 0, 0, 1, 2])];
            let Ok(after) = edit(asked, &shelf, MAX_SHELF) else { continue };
            shelf = after;
            add_up(&mut held, asked);
        }
        let postings = |list: &BTreeMap<u32, u16>| list.iter().map(|(&d, &s)| (d, s)).collect::<Vec<_>>();
        let writing: Vec<u8> = held.iter().flat_map(|(&t, (layout, list))| pack_as(*layout, t, &postings(list))).collect();
        assert_eq!(shelf, writing, "seed {seed}");
        assert!(check(&shelf).is_ok(), "seed {seed}");
        for (&term, (_, list)) in &held {
            assert_eq!(read_list(&shelf, term, 12, 12), Ok(postings(list)), "seed {seed}");
        }
    }
}
