//! A second implementation of the whole paper, written from its sentences alone, plainly and with no thought for speed.
//! Nothing here calls the archive; the comparison stands in `compare`.

pub mod convert;
pub mod edit;
pub mod fields;
pub mod list;
pub mod m1;
pub mod program;
pub mod prune;
pub mod query;
pub mod rank;
pub mod shelf;

#[cfg(test)]
mod marked;

/// "sheet number (docid): 1 to 16,777,215"
pub const MAX_DOCID: u32 = 16_777_215;
/// "postings per block, blocks per list: 1 to 100, 1 to 64"
pub const PER_BLOCK: usize = 100;
pub const MAX_BLOCKS: usize = 64;
/// "postings per list: 1 to 6,400"
pub const MAX_POSTINGS: usize = 6_400;
/// "lists, bytes per shelf: 0 to 1,024, 0 to 1,048,576"
pub const MAX_LISTS: usize = 1_024;
pub const MAX_SHELF: usize = 1_048_576;
/// "query: k, terms, weight: 1 to 100, 1 to 8, 1 to 255"
pub const MAX_K: u8 = 100;
pub const MAX_TERMS: usize = 8;
/// "program input over 65,536 bytes"
pub const MAX_INPUT: usize = 65_536;

/// How the bodies of a list are laid out: "All bodies of a list have one tag".
#[derive(Clone, Copy, Debug, PartialEq, Eq)]
pub enum Layout {
    /// Tag 03: a posting's gap number, then its score.
    Pairs,
    /// Tag 04: "all gap numbers first, then all scores".
    Strip,
}

impl Layout {
    pub const BOTH: [Layout; 2] = [Layout::Pairs, Layout::Strip];

    /// The tag of its bodies.
    pub fn tag(self) -> u8 {
        match self {
            Layout::Pairs => 3,
            Layout::Strip => 4,
        }
    }

    pub fn other(self) -> Layout {
        match self {
            Layout::Pairs => Layout::Strip,
            Layout::Strip => Layout::Pairs,
        }
    }
}

/// A posting: a sheet's docid and its stored score.
pub type Posting = (u32, u16);

/// A refusal: its number in the paper's table and the offset that goes with it.
#[derive(Clone, Copy, Debug, PartialEq, Eq)]
pub struct Refusal {
    pub number: u32,
    pub offset: usize,
}

/// A refusal as the error of a result.
pub fn refuse<T>(number: u32, offset: usize) -> Result<T, Refusal> {
    Err(Refusal { number, offset })
}
