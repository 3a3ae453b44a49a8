//! A run that is lent to the archive, with canaries on both sides.

use std::fmt::Debug;

/// Elements before and past the run, which no call may touch.
const MARGIN: usize = 32;

pub struct Lent<T> {
    cells: Vec<T>,
    before: Vec<T>,
    len: usize,
}

impl<T: Copy + PartialEq + Debug + From<u8>> Lent<T> {
    /// A run of `len` elements, none of them zero and neighbours different.
    pub fn new(len: usize) -> Lent<T> {
        let cells: Vec<T> = (0..len + 2 * MARGIN).map(|i| T::from((i % 251) as u8 + 3)).collect();
        Lent { before: cells.clone(), cells, len }
    }

    pub fn run(&mut self) -> &mut [T] {
        &mut self.cells[MARGIN..MARGIN + self.len]
    }

    /// The first `n` elements of the run as they stand now.
    pub fn front(&self, n: usize) -> &[T] {
        &self.cells[MARGIN..MARGIN + n.min(self.len)]
    }

    /// What is wrong with it, where it should hold `front` and otherwise be as it was.
    pub fn fault(&self, front: &[T]) -> Option<String> {
        let mut expected = self.before.clone();
        expected[MARGIN..MARGIN + front.len()].copy_from_slice(front);
        let i = (0..expected.len()).find(|&i| expected[i] != self.cells[i])?;
        let at = i as isize - MARGIN as isize;
        Some(format!("at {at} of {} stands {:?}, should be {:?}", self.len, self.cells[i], expected[i]))
    }
}
