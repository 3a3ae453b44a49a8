//! "One search, whole": the paper's query and shelf, which the marked examples change a little.

use super::list::{put_blocks, put_blocks_as};
use super::query::put_query;
use super::Layout;

/// "Query `20 0001 01`, `21 0005 00000007 01`, `21 0005 00000009 02`", with another k.
pub fn m1_query(k: u8) -> Vec<u8> {
    put_query(k, &[(7, 1), (9, 2)])
}

/// "Shelf, 73 bytes"
pub fn m1_shelf() -> Vec<u8> {
    m1_shelf_as(Layout::Pairs)
}

/// The same with its first list in strips.
pub fn m1_strips() -> Vec<u8> {
    m1_shelf_as(Layout::Strip)
}

fn m1_shelf_as(layout: Layout) -> Vec<u8> {
    [put_blocks_as(layout, 7, &[&[(2, 5), (4, 3)], &[(9, 1)]]), put_blocks(9, &[&[(4, 4), (6, 2)]])].concat()
}

/// M1's shelf with one of its bytes another.
pub fn m1_shelf_with(at: usize, byte: u8) -> Vec<u8> {
    let mut shelf = m1_shelf();
    shelf[at] = byte;
    shelf
}

/// M5's shelf: "second summary's score made 3".
pub fn m5_shelf() -> Vec<u8> {
    m1_shelf_with(30, 3)
}
