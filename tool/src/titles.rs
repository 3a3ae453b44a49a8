//! The titles of sheets, as the file `titles` has them: one line a sheet, sheet TAB title. The core knows nothing of them.

use crate::fields;
use std::collections::BTreeMap;

#[derive(Clone, Default, PartialEq, Eq)]
pub struct Titles {
    by_sheet: BTreeMap<u32, String>,
}

impl Titles {
    pub fn parse(bytes: &[u8]) -> Result<Titles, String> {
        let text = std::str::from_utf8(bytes).map_err(|_| "not UTF-8".to_string())?;
        let mut titles = Titles::default();
        for (line, row) in text.lines().enumerate() {
            let (sheet, title) = row.split_once('\t').ok_or_else(|| format!("line {}: no tab", line + 1))?;
            let read = fields::sheet(sheet).and_then(|sheet| Ok((sheet, fields::title(title)?)));
            let (sheet, title) = read.map_err(|what| format!("line {}: {what}", line + 1))?;
            titles.put(sheet, &title);
        }
        Ok(titles)
    }

    pub fn bytes(&self) -> Vec<u8> {
        self.by_sheet.iter().flat_map(|(sheet, title)| format!("{sheet}\t{title}\n").into_bytes()).collect()
    }

    pub fn get(&self, sheet: u32) -> Option<&str> {
        self.by_sheet.get(&sheet).map(String::as_str)
    }

    /// An empty title takes the sheet's title away.
    pub fn put(&mut self, sheet: u32, title: &str) {
        if title.is_empty() {
            self.by_sheet.remove(&sheet);
        } else {
            self.by_sheet.insert(sheet, title.to_string());
        }
    }
}
