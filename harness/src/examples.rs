//! The inputs of the folder `examples`, made from the paper's sentences: a query, and behind it a shelf.

use crate::reference::fields::put_field;
use crate::reference::list::{pack, put_blocks};
use crate::reference::m1::{m1_query, m1_shelf, m1_shelf_with, m1_strips, m5_shelf};
use crate::reference::query::put_query;

pub struct Example {
    pub name: &'static str,
    /// What the input is, for the folder's README.
    pub what: &'static str,
    pub input: Vec<u8>,
}

fn example(name: &'static str, what: &'static str, query: Vec<u8>, shelf: Vec<u8>) -> Example {
    Example { name, what, input: [query, shelf].concat() }
}

/// "Marked examples"
fn marked() -> Vec<Example> {
    vec![
        example("m1", "the paper's search, k=1", m1_query(1), m1_shelf()),
        example("m2", "the same with k=2", m1_query(2), m1_shelf()),
        example("m3", "the same with k=3", m1_query(3), m1_shelf()),
        example("m4", "the same with k=5: four hits", m1_query(5), m1_shelf()),
        example("m5", "the second summary's score made 3, k=1: the wrong body is not met", m1_query(1), m5_shelf()),
        example("m6", "the same with k=4: it is met, 8 at 40", m1_query(4), m5_shelf()),
        example(
            "m7",
            "blocks {3:6} and {8:6}, weight 1, k=1: the second has an equal ceiling",
            put_query(1, &[(7, 1)]),
            put_blocks(7, &[&[(3, 6)], &[(8, 6)]]),
        ),
        example("m8", "M1's query on the empty shelf", m1_query(1), Vec::new()),
        example("strip", "M1 with its first list in strips: it prints what M1 prints", m1_query(1), m1_strips()),
    ]
}

/// Numbers 1 to 5: the query's faults, before M1's shelf.
fn wrong_queries() -> Vec<Example> {
    let nine: Vec<(u32, u8)> = (1..=9).map(|term| (term, 1)).collect();
    let mut long_k = Vec::new();
    put_field(&mut long_k, 0x20, &[0, 1]);
    vec![
        example("r1-nothing", "no byte at all: the first field is missing", Vec::new(), Vec::new()),
        example("r1-length", "a field 20 of length 2", [long_k, put_query(1, &[(7, 1)])[4..].to_vec()].concat(), m1_shelf()),
        example("r1-second", "a second field 20 behind the first term", [put_query(1, &[(7, 1)]), put_query(1, &[])].concat(), m1_shelf()),
        example("r2-zero", "k=0", m1_query(0), m1_shelf()),
        example("r2-many", "k=101", m1_query(101), m1_shelf()),
        example("r3-none", "no term", m1_query(1)[..4].to_vec(), m1_shelf()),
        example("r3-nine", "nine terms: at the ninth", put_query(1, &nine), m1_shelf()),
        example("r4", "the second term has weight 0", put_query(1, &[(7, 1), (9, 0)]), m1_shelf()),
        example("r5", "terms 7, 9, 9, 7: the pair of 9 closes first", put_query(1, &[(7, 1), (9, 1), (9, 1), (7, 1)]), m1_shelf()),
    ]
}

/// Numbers 6 to 8: the shelf's faults, behind a right query. A query's field that is cut short is the shelf's first byte.
fn wrong_shelves() -> Vec<Example> {
    let terms_fall = [pack(9, &[(1, 1)]), pack(7, &[(1, 1)])].concat();
    vec![
        example("r6-cut", "M1's shelf without its last byte", m1_query(1), m1_shelf()[..72].to_vec()),
        example("r6-due", "M1's shelf ends after its second list's header, where a summary is due", m1_query(1), m1_shelf()[..53].to_vec()),
        example("r6-tag", "tag 9 where M1's second list begins", m1_query(1), m1_shelf_with(45, 9)),
        example("r6-terms", "list 9 before list 7", m1_query(1), terms_fall),
        example("r6-blocks", "a block count of 65", m1_query(1), m1_shelf_with(7, 65)),
        example("r6-mixed", "M1's second body tagged 04 behind a first tagged 03", m1_query(1), m1_shelf_with(40, 4)),
        example(
            "r6-query-cut",
            "M1's query cut short in its second term: the whole fields are the query, and 21 is no list",
            m1_query(1)[..15].to_vec(),
            Vec::new(),
        ),
        example("r7", "the second summary's least docid is not above the first's greatest", m1_query(1), m1_shelf_with(25, 4)),
        example("r8", "M1's first body has score 9, above its summary's", m1_query(1), m1_shelf_with(36, 9)),
        example(
            "r8-two",
            "both bodies that [5,6] meets are wrong: the first in byte order, though the query names the other list first",
            put_query(1, &[(9, 2), (7, 1)]),
            two_wrong(),
        ),
    ]
}

/// Two lists of sheets 5 and 6 alone, each with a body whose score is not its summary's.
fn two_wrong() -> Vec<u8> {
    let mut shelf = [pack(7, &[(5, 1), (6, 1)]), pack(9, &[(5, 1), (6, 1)])].concat();
    shelf[24] = 9;
    shelf[52] = 9;
    shelf
}

/// Every example that is stored. The one of number 13, which is long, is made by the script that runs them.
pub fn all() -> Vec<Example> {
    let mut all = marked();
    all.extend(wrong_queries());
    all.extend(wrong_shelves());
    all
}

#[cfg(test)]
mod tests {
    use super::*;
    use crate::reference::program::print;
    use std::fs::read;

    /// The stored files are these inputs, with what the reference prints, and the README has a line for each.
    #[test]
    fn the_folder_holds_them() {
        let folder = concat!(env!("CARGO_MANIFEST_DIR"), "/../examples");
        let readme = String::from_utf8(read(format!("{folder}/README.md")).expect("it is there")).expect("it is text");
        for e in all() {
            let file = |kind: &str| read(format!("{folder}/{}.{kind}", e.name)).expect("it is there");
            assert_eq!(file("in"), e.input, "{}", e.name);
            assert_eq!(file("out"), print(&e.input).as_bytes(), "{}", e.name);
            assert!(readme.contains(&format!("| {} | {} |", e.name, e.what)), "{}", e.name);
        }
    }
}
