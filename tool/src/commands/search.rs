//! A search for words: the core's pruned search, on a shelf that its checker has accepted, which makes the answer the exhaustive ranking.

use super::no_such;
use crate::{
    answer::{Answer, Found, Hit, Interval},
    failure::{refused, Failure},
    fields::{MAX_QUERY_WORDS, MAX_SHEET},
    note::note,
    store::Store,
    words::Words,
};
use proved::{Book, Query, Searched, MAX_INTERVALS};
use std::path::Path;

/// What is asked: words, with weights for some of them, and how many hits.
pub struct Asked<'a> {
    pub words: &'a [String],
    pub weights: &'a [(String, u8)],
    pub k: u8,
    pub book: bool,
}

pub fn search(folder: &Path, asked: &Asked) -> Result<Answer, Failure> {
    judge(asked)?;
    let store = Store::open(folder)?;
    let unknown = unknown(asked, &store.words);
    unknown.iter().for_each(|word| note(&no_such(word)));
    let query = query(asked, &store.words)?;
    Ok(Answer::Found(Found { unknown, ..found(asked, &query, &store)? }))
}

/// What the core would refuse by number alone is told in the words that were typed.
fn judge(asked: &Asked) -> Result<(), Failure> {
    let count = asked.words.len();
    if count > MAX_QUERY_WORDS {
        return Err(Failure::Wrong(format!("{count} words: a search takes at most {MAX_QUERY_WORDS}")));
    }
    if let Some(word) = repeated(asked.words) {
        return Err(Failure::Wrong(format!("the word {word:?} is asked for twice")));
    }
    let weighed: Vec<String> = asked.weights.iter().map(|(word, _)| word.clone()).collect();
    if let Some(word) = repeated(&weighed) {
        return Err(Failure::Trouble(format!("the word {word:?} has two weights")));
    }
    match weighed.iter().find(|word| !asked.words.contains(word)) {
        Some(word) => Err(Failure::Trouble(format!("a weight for the word {word:?}, which is not asked for"))),
        None => Ok(()),
    }
}

fn repeated(words: &[String]) -> Option<&String> {
    words.iter().enumerate().find(|(place, word)| words[..*place].contains(word)).map(|(_, word)| word)
}

fn unknown(asked: &Asked, words: &Words) -> Vec<String> {
    asked.words.iter().filter(|word| words.number(word).is_none()).cloned().collect()
}

/// The query's bytes. Words never seen are left out: a term that is not on the shelf is a list without blocks. Where no word is left, a number that no
/// word has stands for them, so that the answer, which is empty, is still the core's.
fn query(asked: &Asked, words: &Words) -> Result<Vec<u8>, Failure> {
    let weight =
        |word: &String| asked.weights.iter().find(|(weighed, _)| weighed == word).map_or(1, |(_, weight)| *weight);
    let mut terms: Vec<(u32, u8)> =
        asked.words.iter().filter_map(|word| Some((words.number(word)?, weight(word)))).collect();
    if terms.is_empty() {
        terms.push((words.next_number(), 1));
    }
    let query = terms.iter().fold(Query::new(asked.k), |query, &(term, weight)| query.term(term, weight));
    query.build().map_err(refused("the query"))
}

fn found(asked: &Asked, query: &[u8], store: &Store) -> Result<Found, Failure> {
    let k = usize::from(asked.k);
    let (mut sheets, mut scores) = (vec![0; k], vec![0; k]);
    let (mut firsts, mut ceilings, mut marks) =
        (vec![0; MAX_INTERVALS], vec![0; MAX_INTERVALS], vec![0; MAX_INTERVALS]);
    let mut book = Book::new(&mut firsts, &mut ceilings, &mut marks);
    let searched = proved::search(query, &store.shelf, &mut sheets, &mut scores, &mut book);
    let Searched { hits, opened, blocks } = searched.map_err(refused("the search"))?;
    let intervals = book.intervals();
    let hit = |(rank, (sheet, score))| Hit { rank, sheet, score, title: store.titles.get(sheet).map(str::to_string) };
    let hits = (1..).zip(sheets.into_iter().zip(scores)).take(hits).map(hit).collect();
    let book = asked.book.then(|| rows(&firsts[..intervals], &ceilings, &marks));
    Ok(Found { hits, blocks_opened: opened, blocks, unknown: Vec::new(), book })
}

/// The book's rows. An interval ends before the next one begins.
fn rows(firsts: &[u32], ceilings: &[u32], marks: &[u8]) -> Vec<Interval> {
    let ends = firsts.iter().skip(1).map(|next| next - 1).chain([MAX_SHEET]);
    let row = |(((&first, last), &ceiling), &mark)| Interval { first, last, ceiling, mark: mark_word(mark) };
    firsts.iter().zip(ends).zip(ceilings).zip(marks).map(row).collect()
}

fn mark_word(mark: u8) -> &'static str {
    match mark {
        0 => "skipped",
        1 => "opened",
        2 => "stopped here",
        _ => "not reached",
    }
}
