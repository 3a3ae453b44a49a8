//! The words of a shelf. The core knows terms by number: a word's number is its line in the file `words`, counted from 0.

use crate::fields;
use std::collections::HashMap;

#[derive(Default)]
pub struct Words {
    in_order: Vec<String>,
    numbers: HashMap<String, u32>,
}

impl Words {
    /// The file's lines. Each ends in a newline and no word stands twice, or a number would not be sure.
    pub fn parse(bytes: &[u8]) -> Result<Words, String> {
        let text = std::str::from_utf8(bytes).map_err(|_| "not UTF-8".to_string())?;
        let mut words = Words::default();
        for (line, word) in text.split_inclusive('\n').enumerate() {
            let at = |what: &str| format!("line {}: {what}", line + 1);
            let word = word.strip_suffix('\n').ok_or_else(|| at("no newline at its end"))?;
            let word = fields::word(word).map_err(|what| at(&what))?;
            if words.number(&word).is_some() {
                return Err(at("a word stands twice"));
            }
            words.number_or_new(&word);
        }
        Ok(words)
    }

    /// The file's bytes. Words are only ever added, so what was written before is the front of this.
    pub fn bytes(&self) -> Vec<u8> {
        self.in_order.iter().flat_map(|word| [word.as_bytes(), b"\n"].concat()).collect()
    }

    pub fn number(&self, word: &str) -> Option<u32> {
        self.numbers.get(word).copied()
    }

    /// The word's number; one never seen gets the next.
    pub fn number_or_new(&mut self, word: &str) -> u32 {
        if let Some(number) = self.number(word) {
            return number;
        }
        let number = self.next_number();
        self.in_order.push(word.to_string());
        self.numbers.insert(word.to_string(), number);
        number
    }

    /// A number that no word has.
    pub fn next_number(&self) -> u32 {
        // A file of 2 to the 32 words is larger than any that is read here.
        self.in_order.len() as u32
    }

    pub fn len(&self) -> usize {
        self.in_order.len()
    }

    /// Words with their numbers, rising.
    pub fn iter(&self) -> impl Iterator<Item = (u32, &str)> {
        (0..).zip(self.in_order.iter().map(String::as_str))
    }
}
