//! The pruned search beside the reference: its answer, its counts, and the five runs that are lent to it.

use super::{call, columns, Answer, Tally};
use crate::lent::Lent;
use crate::reference::prune::{self, Book, Room};
use crate::reference::rank::Hit;
use tagmurlen::raw;

/// How long the lent runs are: two for hits, three for the book.
#[derive(Clone, Copy, Debug)]
pub struct Rooms {
    pub docids: usize,
    pub scores: usize,
    pub firsts: usize,
    pub ceilings: usize,
    pub marks: usize,
}

impl Rooms {
    /// Room for every answer: 100 hits and 1,025 intervals.
    pub const WIDE: Rooms = Rooms::of(100, 1_025);

    pub const fn of(rows: usize, book: usize) -> Rooms {
        Rooms { docids: rows, scores: rows, firsts: book, ceilings: book, marks: book }
    }

    fn shortest(self) -> Room {
        Room { rows: self.docids.min(self.scores), book: self.firsts.min(self.ceilings).min(self.marks) }
    }
}

/// What a search tells and leaves: the counts are intervals, blocks opened, blocks in all.
#[derive(Clone, Debug, PartialEq, Eq)]
pub struct Told {
    pub answer: Answer,
    pub counts: [u64; 3],
    pub hits: Vec<Hit>,
    pub book: Book,
}

struct Runs {
    docids: Lent<u32>,
    scores: Lent<u32>,
    firsts: Lent<u32>,
    ceilings: Lent<u32>,
    marks: Lent<u8>,
}

impl Runs {
    fn new(rooms: Rooms) -> Runs {
        Runs {
            docids: Lent::new(rooms.docids),
            scores: Lent::new(rooms.scores),
            firsts: Lent::new(rooms.firsts),
            ceilings: Lent::new(rooms.ceilings),
            marks: Lent::new(rooms.marks),
        }
    }

    /// The archive's answer and counts; the places for the counts hold something else before.
    fn search(&mut self, query: &[u8], bytes: &[u8]) -> (Answer, [u64; 3]) {
        let (d, s) = (self.docids.run(), self.scores.run());
        let (f, c, m) = (self.firsts.run(), self.ceilings.run(), self.marks.run());
        let mut counts = [0x5555_5555_5555_5555; 3];
        let [intervals, opened, blocks] = &mut counts;
        let answer = call(|value| unsafe {
            raw::tagmurlen_search(
                query.as_ptr(),
                query.len(),
                bytes.as_ptr(),
                bytes.len(),
                d.as_mut_ptr(),
                d.len(),
                s.as_mut_ptr(),
                s.len(),
                f.as_mut_ptr(),
                f.len(),
                c.as_mut_ptr(),
                c.len(),
                m.as_mut_ptr(),
                m.len(),
                value,
                intervals,
                opened,
                blocks,
            )
        });
        (answer, counts)
    }

    /// What stands in the runs, as far as the answer and the counts say that it was written.
    fn told(&self, answer: Answer, counts: [u64; 3]) -> Told {
        let hits = if answer.0 == 0 { answer.1 as usize } else { 0 };
        let rows = counts[0] as usize;
        Told {
            answer,
            counts,
            hits: self.docids.front(hits).iter().copied().zip(self.scores.front(hits).iter().copied()).collect(),
            book: Book {
                firsts: self.firsts.front(rows).to_vec(),
                ceilings: self.ceilings.front(rows).to_vec(),
                marks: self.marks.front(rows).to_vec(),
            },
        }
    }

    fn compare(&self, t: &mut Tally, expected: &Told) {
        let (docids, scores) = columns(&expected.hits);
        t.note("search's docids", self.docids.fault(&docids));
        t.note("search's scores", self.scores.fault(&scores));
        t.note("search's first docids", self.firsts.fault(&expected.book.firsts));
        t.note("search's ceilings", self.ceilings.fault(&expected.book.ceilings));
        t.note("search's marks", self.marks.fault(&expected.book.marks));
    }
}

/// "Counts in a refusal are 0 and outputs are untouched, except 8 in a pruned search: the interval count is returned, the book is filled"
fn expected(query: &[u8], bytes: &[u8], rooms: Rooms) -> Told {
    match prune::search(query, bytes, rooms.shortest()) {
        Ok(found) => Told {
            answer: (0, found.hits.len() as u64),
            counts: [found.book.firsts.len(), found.opened, found.blocks].map(|n| n as u64),
            hits: found.hits,
            book: found.book,
        },
        Err(stopped) => {
            let book = stopped.book.unwrap_or_default();
            let refusal = stopped.refusal;
            Told { answer: (refusal.number, refusal.offset as u64), counts: [book.firsts.len() as u64, 0, 0], hits: Vec::new(), book }
        }
    }
}

/// Gives what the archive told and left.
pub fn search(t: &mut Tally, query: &[u8], bytes: &[u8], rooms: Rooms) -> Told {
    let mut runs = Runs::new(rooms);
    let (answer, counts) = runs.search(query, bytes);
    let expected = expected(query, bytes, rooms);
    t.answers("search", answer, expected.answer);
    let wrong = counts != expected.counts;
    t.note("search's counts", wrong.then(|| format!("archive {counts:?}, reference {:?}", expected.counts)));
    runs.compare(t, &expected);
    runs.told(answer, counts)
}
