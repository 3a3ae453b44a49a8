//! The file `current`. Its first line names the shelf's file. Its second says how many bytes of `words` belong to that shelf, and their SHA-256: a words
//! file that lost or swapped a line would answer a search from another word's list.

use super::{read_at_most, Hash};
use crate::failure::{trouble, Failure};
use std::path::Path;

#[derive(Clone, Debug, PartialEq, Eq)]
pub struct Current {
    pub shelf: Hash,
    pub words_length: u64,
    pub words: Hash,
}

pub const FILE: &str = "current";

/// Longer than any that is written here.
const MAX_LENGTH: u64 = 1_024;

impl Current {
    pub fn of(shelf: &[u8], words: &[u8]) -> Current {
        Current { shelf: Hash::of(shelf), words_length: words.len() as u64, words: Hash::of(words) }
    }

    pub fn read(folder: &Path) -> Result<Current, Failure> {
        let path = folder.join(FILE);
        let bytes = read_at_most(&path, MAX_LENGTH).map_err(trouble(&path))?;
        let read = String::from_utf8(bytes).ok().and_then(|text| Current::parse(&text));
        read.ok_or_else(|| Failure::Wrong(format!("{}: damaged: it does not name a shelf", path.display())))
    }

    pub fn shelf_file(&self) -> String {
        format!("{}.shelf", self.shelf)
    }

    pub fn text(&self) -> String {
        format!("{}\nwords {} {}\n", self.shelf_file(), self.words_length, self.words)
    }

    /// Takes what `text` writes and nothing else.
    fn parse(text: &str) -> Option<Current> {
        let (shelf, words) = text.split_once('\n')?;
        let (length, hash) = words.strip_prefix("words ")?.strip_suffix('\n')?.split_once(' ')?;
        let shelf = Hash::parse(shelf.strip_suffix(".shelf")?)?;
        let current = Current { shelf, words_length: length.parse().ok()?, words: Hash::parse(hash)? };
        (current.text() == text).then_some(current)
    }
}
