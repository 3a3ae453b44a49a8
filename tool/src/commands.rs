//! The commands, each from its arguments to its answer.

mod build;
mod edit;
mod list;
mod search;

pub use build::build;
pub use edit::{clear, convert, set, withdraw};
pub use list::{check, dump, show};
pub use search::{search, Asked};

use crate::{failure::Failure, words::Words};

/// The number of a word that must have been seen.
fn known(words: &Words, word: &str) -> Result<u32, Failure> {
    words.number(word).ok_or_else(|| Failure::Wrong(no_such(word)))
}

fn no_such(word: &str) -> String {
    format!("no such word: {word:?}")
}
