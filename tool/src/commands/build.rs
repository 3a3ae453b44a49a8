//! A new folder from a table on standard input.

use crate::{
    answer::{Answer, Built},
    failure::{refused, Failure},
    fields::MAX_SHELF,
    shelf,
    store::Writer,
    table::{self, Table},
};
use std::{io, path::Path};

/// The whole table is read, and its shelf made, before the folder is: a wrong table leaves nothing behind.
pub fn build(folder: &Path) -> Result<Answer, Failure> {
    let table = table::read(io::stdin().lock(), "standard input")?;
    let shelf = one_writing(&table)?;
    let (words, postings, bytes) = (table.words.len(), table.lists().map(|list| list.len()).sum(), shelf.len());
    let writer = Writer::create(folder, table.words, table.titles)?;
    let shelf = writer.commit(&shelf)?;
    Ok(Answer::Built(Built { words, postings, bytes, shelf }))
}

/// The writer's lists in rising term number.
fn one_writing(table: &Table) -> Result<Vec<u8>, Failure> {
    let mut shelf = Vec::new();
    for (term, list) in (0..).zip(table.lists()) {
        shelf.extend(shelf::list(term, &list).map_err(refused("standard input"))?);
        if shelf.len() > MAX_SHELF {
            let message =
                format!("standard input: its shelf is longer than {MAX_SHELF} bytes, the most that a shelf has");
            return Err(Failure::Wrong(message));
        }
    }
    Ok(shelf)
}
