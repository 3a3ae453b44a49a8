//! What the tool must answer, worked out from the table alone: nothing here knows of shelves, blocks or intervals.

use std::{cmp::Ordering, collections::BTreeMap};

/// word -> sheet -> score
pub type Table = BTreeMap<String, BTreeMap<u32, u16>>;

pub fn text(table: &Table) -> String {
    let rows = table
        .iter()
        .flat_map(|(word, list)| list.iter().map(move |(sheet, score)| format!("{word}\t{sheet}\t{score}\n")));
    rows.collect()
}

/// The tie rule, here and nowhere else in the tests: of two sheets with one score, the lower number comes first.
fn on_a_tie(one: u32, other: u32) -> Ordering {
    one.cmp(&other)
}

/// The best k of the sums of weight times score.
pub fn ranking(table: &Table, query: &[(String, u8)], k: usize) -> Vec<(u32, u32)> {
    let mut sums = BTreeMap::new();
    for (word, weight) in query {
        for (&sheet, &score) in table.get(word).into_iter().flatten() {
            *sums.entry(sheet).or_insert(0) += u32::from(*weight) * u32::from(score);
        }
    }
    let mut sheets: Vec<(u32, u32)> = sums.into_iter().collect();
    sheets.sort_by(|one, other| other.1.cmp(&one.1).then(on_a_tie(one.0, other.0)));
    sheets.truncate(k);
    sheets
}

/// Numbers from a seed (xorshift).
pub struct Random(u64);

impl Random {
    pub fn new(seed: u64) -> Random {
        Random(seed.wrapping_mul(0x9e37_79b9_7f4a_7c15) | 1)
    }

    /// 0 to below `bound`.
    pub fn below(&mut self, bound: u32) -> u32 {
        self.0 ^= self.0 << 13;
        self.0 ^= self.0 >> 7;
        self.0 ^= self.0 << 17;
        ((self.0 >> 16) % u64::from(bound)) as u32
    }

    /// One of some numbers.
    fn one_of(&mut self, numbers: &[u32]) -> u32 {
        numbers[self.below(numbers.len() as u32) as usize]
    }

    pub fn sheet(&mut self, sheets: u32) -> u32 {
        match self.below(50) {
            0 => 16_777_215 - self.below(3),
            _ => 1 + self.below(sheets),
        }
    }

    pub fn score(&mut self, scores: u32) -> u16 {
        (1 + self.below(scores)) as u16
    }

    /// A table of a few words: few scores make ties, many sheets of a word make blocks.
    pub fn table(&mut self) -> Table {
        let words = 1 + self.below(12);
        let sheets = self.one_of(&[5, 60, 900, 1_000_000]);
        let scores = self.one_of(&[1, 3, 100, 65_535]);
        let list_of = |random: &mut Random| {
            let most = random.one_of(&[3, 40, 700]);
            let count = 1 + random.below(most);
            (0..count).map(|_| (random.sheet(sheets), random.score(scores))).collect()
        };
        (0..words).map(|word| (format!("word{word}"), list_of(self))).collect()
    }

    /// A query of up to 8 words, one of which the table may lack.
    pub fn query(&mut self, table: &Table) -> (Vec<(String, u8)>, usize) {
        let mut words: Vec<String> = table.keys().cloned().chain(["never-seen".to_string()]).collect();
        let mut query = Vec::new();
        for _ in 0..1 + self.below(8) {
            if !words.is_empty() {
                let word = words.swap_remove(self.below(words.len() as u32) as usize);
                query.push((word, self.one_of(&[1, 2, 255]) as u8));
            }
        }
        let most = self.one_of(&[3, 100]);
        (query, 1 + self.below(most) as usize)
    }
}
