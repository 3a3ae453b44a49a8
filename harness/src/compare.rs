//! Each entry point of the archive beside the reference: its answer, and every run that was lent to it.

pub mod search;

use crate::lent::Lent;
use crate::reference::edit::{self, Edit};
use crate::reference::rank::{self, Hit};
use crate::reference::{convert, list, query, shelf, Layout, Refusal};
use std::collections::{BTreeMap, BTreeSet};
use tagmurlen::raw;

/// What C gets: the number that is returned, and the value that is stored.
pub type Answer = (u32, u64);

/// How many inputs were compared, each in its answer and in all that was lent with it, and how many differences were seen.
#[derive(Default)]
pub struct Tally {
    pub compared: u64,
    pub differ: u64,
    /// How often each entry point gave each number, 0 where it accepted.
    numbers: BTreeMap<(String, u32), u64>,
    /// What is being compared: a corner's name, or a seed to replay.
    pub case: String,
}

impl Tally {
    /// Prints and counts what is wrong, where something is.
    pub fn note(&mut self, what: &str, wrong: Option<String>) {
        if let Some(wrong) = wrong {
            self.differ += 1;
            println!("differs: {what}, {}: {wrong}", self.case);
        }
    }

    /// Counts an input: its answer beside the reference's.
    pub fn answers(&mut self, what: &str, archive: Answer, reference: Answer) {
        self.compared += 1;
        *self.numbers.entry((what.to_string(), reference.0)).or_insert(0) += 1;
        let wrong = (archive != reference).then(|| format!("archive {archive:?}, reference {reference:?}"));
        self.note(what, wrong);
    }

    /// Prints how often each number was the answer: what the inputs reached.
    pub fn print_numbers(&self) {
        let entries: BTreeSet<&String> = self.numbers.keys().map(|(what, _)| what).collect();
        for entry in entries {
            let of_entry = self.numbers.iter().filter(|((what, _), _)| what == entry);
            let counts: Vec<String> = of_entry.map(|((_, number), times)| format!("{number}: {times}")).collect();
            println!("{entry} by number: {}", counts.join(", "));
        }
    }
}

/// Calls with a place for the value that holds something else before.
fn call(entry: impl FnOnce(*mut u64) -> u32) -> Answer {
    let mut value = 0x5555_5555_5555_5555;
    let number = entry(&mut value);
    (number, value)
}

/// The reference's answer in the form that C gets.
fn told<T>(outcome: &Result<T, Refusal>, value: impl FnOnce(&T) -> usize) -> Answer {
    match outcome {
        Ok(x) => (0, value(x) as u64),
        Err(r) => (r.number, r.offset as u64),
    }
}

pub fn check(t: &mut Tally, bytes: &[u8]) -> Answer {
    let archive = call(|value| unsafe { raw::tagmurlen_check(bytes.as_ptr(), bytes.len(), value) });
    t.answers("check", archive, told(&shelf::check(bytes), |_| 0));
    archive
}

pub fn check_query(t: &mut Tally, bytes: &[u8]) -> Answer {
    let archive = call(|value| unsafe { raw::tagmurlen_check_query(bytes.as_ptr(), bytes.len(), value) });
    t.answers("check_query", archive, told(&query::read_query(bytes), |q| q.k.into()));
    archive
}

pub fn read_list(t: &mut Tally, bytes: &[u8], term: u32, docid_room: usize, score_room: usize) -> Answer {
    let mut docids: Lent<u32> = Lent::new(docid_room);
    let mut scores: Lent<u16> = Lent::new(score_room);
    let (d, s) = (docids.run(), scores.run());
    let archive = call(|value| unsafe {
        raw::tagmurlen_read_list(bytes.as_ptr(), bytes.len(), term, d.as_mut_ptr(), d.len(), s.as_mut_ptr(), s.len(), value)
    });
    let reference = list::read_list(bytes, term, docid_room, score_room);
    t.answers("read_list", archive, told(&reference, Vec::len));
    let (front_docids, front_scores): (Vec<u32>, Vec<u16>) = reference.unwrap_or_default().into_iter().unzip();
    t.note("read_list's docids", docids.fault(&front_docids));
    t.note("read_list's scores", scores.fault(&front_scores));
    archive
}

pub fn write_list(t: &mut Tally, layout: Layout, term: u32, docids: &[u32], scores: &[u16], room: usize) -> Answer {
    let mut out: Lent<u8> = Lent::new(room);
    let run = out.run();
    let archive = call(|value| unsafe {
        raw::tagmurlen_write_list(
            layout == Layout::Strip,
            term,
            docids.as_ptr(),
            docids.len(),
            scores.as_ptr(),
            scores.len(),
            run.as_mut_ptr(),
            run.len(),
            value,
        )
    });
    let reference = list::write_list(layout, term, docids, scores, room);
    t.answers("write_list", archive, told(&reference, Vec::len));
    t.note("write_list's buffer", out.fault(&reference.unwrap_or_default()));
    archive
}

/// The hits as two runs.
fn columns(hits: &[Hit]) -> (Vec<u32>, Vec<u32>) {
    hits.iter().copied().unzip()
}

pub fn rank_all(t: &mut Tally, query: &[u8], bytes: &[u8], docid_room: usize, score_room: usize) -> Answer {
    let mut docids: Lent<u32> = Lent::new(docid_room);
    let mut scores: Lent<u32> = Lent::new(score_room);
    let (d, s) = (docids.run(), scores.run());
    let archive = call(|value| unsafe {
        raw::tagmurlen_rank_all(
            query.as_ptr(),
            query.len(),
            bytes.as_ptr(),
            bytes.len(),
            d.as_mut_ptr(),
            d.len(),
            s.as_mut_ptr(),
            s.len(),
            value,
        )
    });
    let reference = rank::rank_all(query, bytes, docid_room.min(score_room));
    t.answers("rank_all", archive, told(&reference, Vec::len));
    let (front_docids, front_scores) = columns(&reference.unwrap_or_default());
    t.note("rank_all's docids", docids.fault(&front_docids));
    t.note("rank_all's scores", scores.fault(&front_scores));
    archive
}

/// The answer, and the shelf that an accepted edit leaves.
pub fn edit(t: &mut Tally, asked: Edit, bytes: &[u8], room: usize) -> (Answer, Vec<u8>) {
    let mut out: Lent<u8> = Lent::new(room);
    let run = out.run();
    let (at, len, to, to_len) = (bytes.as_ptr(), bytes.len(), run.as_mut_ptr(), run.len());
    let archive = call(|value| unsafe {
        match asked {
            Edit::Set(term, docid, score) => raw::tagmurlen_set(at, len, term, docid, score, to, to_len, value),
            Edit::Clear(term, docid) => raw::tagmurlen_clear(at, len, term, docid, to, to_len, value),
            Edit::Withdraw(docid) => raw::tagmurlen_withdraw(at, len, docid, to, to_len, value),
        }
    });
    let reference = edit::edit(asked, bytes, room);
    t.answers("an edit", archive, told(&reference, Vec::len));
    let edited = reference.unwrap_or_default();
    t.note("an edit's buffer", out.fault(&edited));
    (archive, edited)
}

/// The answer, and the shelf that an accepted conversion leaves.
pub fn convert(t: &mut Tally, bytes: &[u8], term: u32, room: usize) -> (Answer, Vec<u8>) {
    let mut out: Lent<u8> = Lent::new(room);
    let run = out.run();
    let archive = call(|value| unsafe { raw::tagmurlen_convert(bytes.as_ptr(), bytes.len(), term, run.as_mut_ptr(), run.len(), value) });
    let reference = convert::convert(bytes, term, room);
    t.answers("convert", archive, told(&reference, Vec::len));
    let converted = reference.unwrap_or_default();
    t.note("convert's buffer", out.fault(&converted));
    (archive, converted)
}
