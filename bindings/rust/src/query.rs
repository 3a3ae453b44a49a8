//! A query's bytes, field by field.

use crate::{check_query, Refusal};

/// A query in the making: how many hits are wanted, then its terms with their weights.
///
/// ```
/// use tagmurlen::{Query, Refusal};
///
/// let query = Query::new(2).term(7, 1).term(9, 2).build()?;
/// assert_eq!(query, [0x20, 0, 1, 2, 0x21, 0, 5, 0, 0, 0, 7, 1, 0x21, 0, 5, 0, 0, 0, 9, 2]);
/// # Ok::<(), Refusal>(())
/// ```
#[derive(Clone, Debug, PartialEq, Eq)]
#[must_use = "`build` gives the query's bytes"]
pub struct Query {
    bytes: Vec<u8>,
}

impl Query {
    /// Asks for the best `k`, 1 to 100: field 20.
    ///
    /// ```
    /// # use tagmurlen::{Query, Refusal};
    /// assert_eq!(Query::new(101).term(7, 1).build(), Err(Refusal { number: 2, offset: 0 }));
    /// ```
    pub fn new(k: u8) -> Query {
        Query { bytes: vec![0x20, 0, 1, k] }
    }

    /// Adds a term with its weight, 1 to 255: a field 21. There may be 8, no term twice.
    ///
    /// ```
    /// # use tagmurlen::{Query, Refusal};
    /// assert_eq!(Query::new(1).term(7, 0).build(), Err(Refusal { number: 4, offset: 4 }));
    /// assert_eq!(Query::new(1).term(7, 1).term(7, 2).build(), Err(Refusal { number: 5, offset: 12 }));
    /// ```
    pub fn term(mut self, term: u32, weight: u8) -> Query {
        self.bytes.extend([0x21, 0, 5]);
        self.bytes.extend(term.to_be_bytes());
        self.bytes.push(weight);
        self
    }

    /// The bytes, if [`check_query`] accepts them: numbers 2 to 5. What is a right query is the archive's to say; nothing is judged here.
    ///
    /// ```
    /// # use tagmurlen::{Query, Refusal};
    /// assert_eq!(Query::new(1).build(), Err(Refusal { number: 3, offset: 4 }));
    /// assert!(Query::new(1).term(7, 1).build().is_ok());
    /// ```
    pub fn build(self) -> Result<Vec<u8>, Refusal> {
        check_query(&self.bytes)?;
        Ok(self.bytes)
    }
}
