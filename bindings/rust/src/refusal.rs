//! A refusal: its number in the paper's table, and its offset.

use std::{error::Error, fmt};

/// Why an input was refused, and where: the error of every function here, so that one `?` serves them all.
///
/// ```
/// use tagmurlen::{check, check_query, Refusal};
///
/// fn both(query: &[u8], shelf: &[u8]) -> Result<usize, Refusal> {
///     check(shelf)?;
///     check_query(query)
/// }
///
/// assert_eq!(both(&[], &[9]), Err(Refusal { number: 6, offset: 0 }));
/// assert_eq!(both(&[], &[]), Err(Refusal { number: 1, offset: 0 }));
/// ```
#[derive(Clone, Copy, Debug, PartialEq, Eq)]
pub struct Refusal {
    /// The number in the paper's table, 1 to 12.
    pub number: u32,
    /// Where: a byte of the query for 1 to 5, of the shelf for 6 to 8; the index of a posting for 10; otherwise 0.
    pub offset: u64,
}

impl Refusal {
    /// The table's sentence for the number.
    ///
    /// ```
    /// let refusal = tagmurlen::check_query(&[]).unwrap_err();
    /// assert_eq!(refusal.sentence(), "query fields wrong or cut short");
    /// assert_eq!(refusal.to_string(), "query fields wrong or cut short (number 1, at 0)");
    /// ```
    pub fn sentence(&self) -> &'static str {
        match self.number {
            1 => "query fields wrong or cut short",
            2 => "k not 1 to 100",
            3 => "no term, or more than 8",
            4 => "weight 0",
            5 => "term twice",
            6 => {
                "shelf over 1,048,576 bytes; field missing, unexpected, of wrong length or cut short; terms not rising; \
                 block count not 1 to 64; mixed tags in one list; 1,025th list"
            }
            7 => "wrong summary",
            8 => "wrong body",
            9 => "lent output too short",
            10 => "docid or score out of range; docids not rising; runs of unequal length; nothing to write",
            11 => "result would pass 6,400 postings, 1,024 lists or 1,048,576 bytes",
            12 => "list, block or posting not there; a withdrawn docid in no list",
            _ => "a number that the table does not have",
        }
    }
}

impl fmt::Display for Refusal {
    fn fmt(&self, f: &mut fmt::Formatter) -> fmt::Result {
        write!(f, "{} (number {}, at {})", self.sentence(), self.number, self.offset)
    }
}

impl Error for Refusal {}
