//! What stands in a folder: whether it is sound, one word's postings, or all as a table.

use super::known;
use crate::{
    answer::{Answer, Dumped, Listed, Sheet, Sound},
    failure::{refused, Failure},
    shelf,
    store::Store,
};
use std::path::Path;

/// Opening a folder compares the hashes and checks the shelf, so one that opens is sound.
pub fn check(folder: &Path) -> Result<Answer, Failure> {
    let store = Store::open(folder)?;
    let words = with_postings(&store)?;
    let postings = words.iter().map(|listed| listed.postings.len()).sum();
    let (words, bytes, shelf) = (words.len(), store.shelf.len(), store.hash());
    Ok(Answer::Sound(Sound { sound: true, words, postings, bytes, shelf }))
}

pub fn show(folder: &Path, word: &str) -> Result<Answer, Failure> {
    let store = Store::open(folder)?;
    let term = known(&store.words, word)?;
    Ok(Answer::Listed(listed(&store, term, word)?))
}

pub fn dump(folder: &Path) -> Result<Answer, Failure> {
    let store = Store::open(folder)?;
    Ok(Answer::Dumped(Dumped { words: with_postings(&store)? }))
}

/// The words that have postings now. A word keeps its number when its last posting goes, but it has no line in a table.
fn with_postings(store: &Store) -> Result<Vec<Listed>, Failure> {
    let mut words = Vec::new();
    for (term, word) in store.words.iter() {
        let listed = listed(store, term, word)?;
        if !listed.postings.is_empty() {
            words.push(listed);
        }
    }
    Ok(words)
}

fn listed(store: &Store, term: u32, word: &str) -> Result<Listed, Failure> {
    let postings = shelf::postings(&store.shelf, term).map_err(refused(format!("the word {word:?}")))?;
    let row = |(sheet, score)| Sheet { sheet, score, title: store.titles.get(sheet).map(str::to_string) };
    Ok(Listed { word: word.to_string(), term, postings: postings.into_iter().map(row).collect() })
}
