//! A table of words: tab-separated lines of word, sheet, score and perhaps title. Every fault is told with its line.

use crate::{
    failure::Failure,
    fields::{self, counted, MAX_SHEETS_OF_A_WORD, MAX_WORDS},
    shelf::Posting,
    titles::Titles,
    words::Words,
};
use std::collections::{BTreeMap, HashMap};
use std::io::{BufRead, Read};

/// A longer line is no line of a table; the limit keeps an endless one from filling the memory.
const MAX_LINE: u64 = 65_536;

#[derive(Default)]
pub struct Table {
    pub words: Words,
    pub titles: Titles,
    /// The score and the line of each sheet, for each word in the order of its number.
    lists: Vec<BTreeMap<u32, (u16, usize)>>,
    title_lines: HashMap<u32, usize>,
}

impl Table {
    /// Each word's postings in rising sheet number, the words in rising term number.
    pub fn lists(&self) -> impl Iterator<Item = Vec<Posting>> + '_ {
        self.lists.iter().map(|list| list.iter().map(|(&sheet, &(score, _))| (sheet, score)).collect())
    }

    /// Takes one line that is neither blank nor a comment.
    fn take(&mut self, row: &str, line: usize) -> Result<(), String> {
        let columns: Vec<&str> = row.split('\t').collect();
        let (word, sheet, score, title) = match columns[..] {
            [word, sheet, score] => (word, sheet, score, ""),
            [word, sheet, score, title] => (word, sheet, score, title),
            _ => {
                return Err(format!(
                    "{}: a line has word, sheet, score and perhaps title, with tabs between",
                    counted(columns.len(), "column")
                ))
            }
        };
        let (word, sheet) = (fields::word(word)?, fields::sheet(sheet)?);
        self.put_posting(&word, sheet, fields::score(score)?, line)?;
        self.put_title(sheet, &fields::title(title)?, line)
    }

    fn put_posting(&mut self, word: &str, sheet: u32, score: u16, line: usize) -> Result<(), String> {
        let term = self.words.number_or_new(word) as usize;
        if term == MAX_WORDS {
            return Err(format!("the word {word:?} is one more than {MAX_WORDS}, the most that a shelf has"));
        }
        if term == self.lists.len() {
            self.lists.push(BTreeMap::new());
        }
        let list = &mut self.lists[term];
        if let Some((_, first)) = list.get(&sheet) {
            return Err(format!("the word {word:?} has sheet {sheet} on line {first} already"));
        }
        if list.len() == MAX_SHEETS_OF_A_WORD {
            return Err(format!(
                "sheet {sheet} is one more than {MAX_SHEETS_OF_A_WORD} of the word {word:?}, the most that a word has"
            ));
        }
        list.insert(sheet, (score, line));
        Ok(())
    }

    /// A sheet has one title, however many lines it stands on.
    fn put_title(&mut self, sheet: u32, title: &str, line: usize) -> Result<(), String> {
        if title.is_empty() {
            return Ok(());
        }
        let first = *self.title_lines.entry(sheet).or_insert(line);
        match self.titles.get(sheet) {
            Some(other) if other != title => Err(format!("sheet {sheet} has another title on line {first}: {other:?}")),
            _ => {
                self.titles.put(sheet, title);
                Ok(())
            }
        }
    }
}

/// Reads a whole table. `name` is what messages call it.
pub fn read(mut input: impl BufRead, name: &str) -> Result<Table, Failure> {
    let mut table = Table::default();
    for line in 1.. {
        let at = |what: String| Failure::Wrong(format!("{name}:{line}: {what}"));
        let mut bytes = Vec::new();
        let read = input.by_ref().take(MAX_LINE).read_until(b'\n', &mut bytes);
        // A read that fails is told: taking it for the end would leave out the rest of the table.
        if read.map_err(|error| Failure::Trouble(format!("{name}:{line}: {error}")))? == 0 {
            break;
        }
        if bytes.len() as u64 == MAX_LINE && !bytes.ends_with(b"\n") {
            return Err(at(format!("longer than {MAX_LINE} bytes")));
        }
        let row = std::str::from_utf8(&bytes).map_err(|_| at("not UTF-8".to_string()))?;
        let row = row_of(row, line);
        if !row.trim().is_empty() && !row.starts_with('#') {
            table.take(row, line).map_err(at)?;
        }
    }
    Ok(table)
}

/// A line without its end, which spreadsheets write as CR LF, and without the mark that they put before the first.
fn row_of(text: &str, line: usize) -> &str {
    let text = text.strip_suffix('\n').unwrap_or(text);
    let text = text.strip_suffix('\r').unwrap_or(text);
    match line {
        1 => text.strip_prefix('\u{feff}').unwrap_or(text),
        _ => text,
    }
}
