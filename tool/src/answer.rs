//! What the commands answer. As JSON each is one object with these names.

use crate::store::Hash;
use serde::Serialize;

#[derive(Serialize)]
#[serde(untagged)]
pub enum Answer {
    Built(Built),
    Edited(Edited),
    Found(Found),
    Sound(Sound),
    Listed(Listed),
    Dumped(Dumped),
}

#[derive(Serialize)]
pub struct Built {
    pub words: usize,
    pub postings: usize,
    pub bytes: usize,
    pub shelf: Hash,
}

/// An edit that was committed, said in words. The shelf is the new one.
#[derive(Serialize)]
pub struct Edited {
    pub done: String,
    pub bytes: usize,
    pub shelf: Hash,
}

#[derive(Serialize)]
pub struct Found {
    pub hits: Vec<Hit>,
    pub blocks_opened: usize,
    pub blocks: usize,
    /// Words that the shelf has never seen, which were left out.
    pub unknown: Vec<String>,
    /// The intervals, where they were asked for.
    #[serde(skip_serializing_if = "Option::is_none")]
    pub book: Option<Vec<Interval>>,
}

#[derive(Serialize)]
pub struct Hit {
    pub rank: usize,
    pub sheet: u32,
    pub score: u32,
    pub title: Option<String>,
}

#[derive(Serialize)]
pub struct Interval {
    pub first: u32,
    pub last: u32,
    pub ceiling: u32,
    pub mark: &'static str,
}

/// A folder that loads: its hashes are right and the core's checker accepts its shelf.
#[derive(Serialize)]
pub struct Sound {
    pub sound: bool,
    pub words: usize,
    pub postings: usize,
    pub bytes: usize,
    pub shelf: Hash,
}

/// One word's postings.
#[derive(Serialize)]
pub struct Listed {
    pub word: String,
    pub term: u32,
    pub postings: Vec<Sheet>,
}

#[derive(Serialize)]
pub struct Sheet {
    pub sheet: u32,
    pub score: u16,
    pub title: Option<String>,
}

/// Every word that has postings, in rising term number.
#[derive(Serialize)]
pub struct Dumped {
    pub words: Vec<Listed>,
}
