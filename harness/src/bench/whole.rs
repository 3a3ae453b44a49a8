//! What hangs on no query: the checker, the edits and the converter, and one list read and written.

use super::workload::{Kind, Workload};
use super::{times, Time};
use crate::reference::Layout;
use crate::tuned;
use std::hint::black_box;

/// One function on one workload; the unit is a byte of the shelf, or a posting of the list.
pub struct Row {
    pub kind: &'static Kind,
    pub what: &'static str,
    pub unit: &'static str,
    pub units: usize,
    pub archive: Time,
    pub rust: Time,
}

impl Row {
    /// The same row of two passes.
    pub fn better(self, other: &Row) -> Row {
        Row { archive: self.archive.better(other.archive), rust: self.rust.better(other.rust), ..self }
    }

    pub fn ratio(&self) -> f64 {
        self.archive.best / self.rust.best
    }
}

/// An edit or the converter: reads a shelf and writes another.
type Writes<'a> = &'a dyn Fn(&mut [u8]) -> usize;

pub fn rows(work: &Workload) -> Vec<Row> {
    let shelf = black_box(&work.shelf[..]);
    let (term, list) = work.longest();
    let (docids, scores): (Vec<u32>, Vec<u16>) = list.iter().copied().unzip();
    let docid = docids[docids.len() / 2];
    let row = |what, unit, units, [archive, rust]: [Time; 2]| Row { kind: work.kind, what, unit, units, archive, rust };
    let both = |archive: Writes, rust: Writes| both(shelf, archive, rust);
    let [strip, pairs] = [tagmurlen::Layout::Strip, tagmurlen::Layout::Pairs];
    let written = |layout, out: &mut [u8]| tagmurlen::write_list(layout, term, &docids, &scores, out).expect("there is room");
    let written_same = |layout, out: &mut [u8]| tuned::list::write_list(layout, term, &docids, &scores, out).expect("there is room");
    vec![
        row("check", "byte", shelf.len(), checked(shelf)),
        row("read_list", "posting", list.len(), read(shelf, term, list.len())),
        row("write_list, pairs", "posting", list.len(), both(&|out| written(pairs, out), &|out| written_same(Layout::Pairs, out))),
        row("write_list, strips", "posting", list.len(), both(&|out| written(strip, out), &|out| written_same(Layout::Strip, out))),
        row("set", "byte", shelf.len(), {
            both(&|out| tagmurlen::set(shelf, term, docid, 7, out).expect("sound"), &|out| {
                tuned::edit::set(shelf, term, docid, 7, out).expect("sound")
            })
        }),
        row("clear", "byte", shelf.len(), {
            both(&|out| tagmurlen::clear(shelf, term, docid, out).expect("sound"), &|out| tuned::edit::clear(shelf, term, docid, out).expect("sound"))
        }),
        row("withdraw", "byte", shelf.len(), {
            both(&|out| tagmurlen::withdraw(shelf, docid, out).expect("sound"), &|out| tuned::edit::withdraw(shelf, docid, out).expect("sound"))
        }),
        row("convert", "byte", shelf.len(), {
            both(&|out| tagmurlen::convert(shelf, term, out).expect("sound"), &|out| tuned::convert::convert(shelf, term, out).expect("sound"))
        }),
    ]
}

fn checked(shelf: &[u8]) -> [Time; 2] {
    times([&mut || assert!(tagmurlen::check(black_box(shelf)).is_ok()), &mut || assert!(tuned::check(black_box(shelf)).is_ok())])
}

fn read(shelf: &[u8], term: u32, held: usize) -> [Time; 2] {
    let (mut docids, mut scores) = (vec![0; held], vec![0; held]);
    let (mut same_docids, mut same_scores) = (docids.clone(), scores.clone());
    let measured = times([&mut || assert!(tagmurlen::read_list(black_box(shelf), term, &mut docids, &mut scores).is_ok()), &mut || {
        assert!(tuned::list::read_list(black_box(shelf), term, &mut same_docids, &mut same_scores).is_ok())
    }]);
    assert_eq!((docids, scores), (same_docids, same_scores), "the postings");
    measured
}

/// Both write the same bytes, or this stops.
fn both(shelf: &[u8], archive: Writes, rust: Writes) -> [Time; 2] {
    let (mut out, mut same) = (vec![0; shelf.len() + 50_000], vec![0; shelf.len() + 50_000]);
    let len = archive(&mut out);
    let measured = times([&mut || assert_eq!(archive(&mut out), len), &mut || assert_eq!(rust(&mut same), len)]);
    assert!(out == same, "the bytes written");
    measured
}
