//! The program: standard input to lines.

use super::fields::field;
use super::prune::{search, Found, Room, OPENED};
use super::query::{TAG_K, TAG_TERM};
use super::{Refusal, MAX_DOCID, MAX_INPUT};
use std::fmt::Write;

/// "fields tagged 20 or 21, while whole, are the query; the rest is the shelf"
pub fn split(input: &[u8]) -> (&[u8], &[u8]) {
    let mut at = 0;
    while let Some(value) = field(input, at, TAG_K).or_else(|| field(input, at, TAG_TERM)) {
        at += 3 + value.len();
    }
    input.split_at(at)
}

/// What the program prints for an input.
pub fn print(input: &[u8]) -> String {
    if input.len() > MAX_INPUT {
        return refusal_line(Refusal { number: 13, offset: 0 });
    }
    let (query, shelf) = split(input);
    match search(query, shelf, Room { rows: usize::MAX, book: usize::MAX }) {
        Ok(found) => found_lines(&found),
        Err(stopped) => refusal_line(stopped.refusal),
    }
}

fn refusal_line(refusal: Refusal) -> String {
    format!("R {} {}\n", refusal.number, refusal.offset)
}

/// "H rank from 1, docid, score; I first, last, ceiling, mark as a word; B blocks opened, blocks in all."
fn found_lines(found: &Found) -> String {
    let mut text = String::new();
    for (i, (docid, score)) in found.hits.iter().enumerate() {
        writeln!(text, "H {} {docid} {score}", i + 1).expect("a string takes all");
    }
    let book = &found.book;
    for (i, first) in book.firsts.iter().enumerate() {
        let last = book.firsts.get(i + 1).map_or(MAX_DOCID, |next| next - 1);
        let mark = if book.marks[i] == OPENED { "opened" } else { "skipped" };
        writeln!(text, "I {first} {last} {} {mark}", book.ceilings[i]).expect("a string takes all");
    }
    writeln!(text, "B {} {}", found.opened, found.blocks).expect("a string takes all");
    text
}
