//! The edits and the converter: the core makes a new shelf of the folder's, which is then committed.

use super::known;
use crate::{
    answer::{Answer, Edited},
    failure::{refused, Failure},
    shelf,
    store::Writer,
};
use proved::Refusal;
use std::path::Path;

/// A word never seen gets a number; the folder keeps it only if the core accepts the edit.
pub fn set(folder: &Path, word: &str, sheet: u32, score: u16, title: Option<&str>) -> Result<Answer, Failure> {
    let mut writer = Writer::open(folder)?;
    let term = writer.store.words.number_or_new(word);
    if let Some(title) = title {
        writer.store.titles.put(sheet, title);
    }
    let what = format!("set sheet {sheet} of the word {word:?} to {score}");
    finish(writer, what, |shelf, new| proved::set(shelf, term, sheet, score, new))
}

pub fn clear(folder: &Path, word: &str, sheet: u32) -> Result<Answer, Failure> {
    let writer = Writer::open(folder)?;
    let term = known(&writer.store.words, word)?;
    let what = format!("clear sheet {sheet} of the word {word:?}");
    finish(writer, what, |shelf, new| proved::clear(shelf, term, sheet, new))
}

pub fn withdraw(folder: &Path, sheet: u32) -> Result<Answer, Failure> {
    let writer = Writer::open(folder)?;
    let what = format!("withdraw sheet {sheet} from every word");
    finish(writer, what, |shelf, new| proved::withdraw(shelf, sheet, new))
}

pub fn convert(folder: &Path, word: &str) -> Result<Answer, Failure> {
    let writer = Writer::open(folder)?;
    let term = known(&writer.store.words, word)?;
    let what = format!("convert the word {word:?} to the other layout");
    finish(writer, what, |shelf, new| proved::convert(shelf, term, new))
}

fn finish(
    writer: Writer,
    what: String,
    edit: impl FnOnce(&[u8], &mut [u8]) -> Result<usize, Refusal>,
) -> Result<Answer, Failure> {
    let new = shelf::edited(|out| edit(&writer.store.shelf, out)).map_err(refused(what.as_str()))?;
    let bytes = new.len();
    let shelf = writer.commit(&new)?;
    Ok(Answer::Edited(Edited { done: what, bytes, shelf }))
}
