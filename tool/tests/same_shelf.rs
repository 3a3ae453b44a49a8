//! Ways to one shelf: the same postings have the same bytes, and so the same hash.

mod common;

use common::{
    model::{text, Random, Table},
    scratch, shell, tool,
};

/// At most so many postings, since each is set by a run of its own.
fn small_table(random: &mut Random) -> Table {
    let mut table = random.table();
    table.values_mut().for_each(|list| *list = list.iter().take(12).map(|(&sheet, &score)| (sheet, score)).collect());
    table
}

#[test]
fn built_at_once_or_set_one_by_one() {
    for seed in 0..6 {
        let folder = scratch("same-set");
        let table = text(&small_table(&mut Random::new(seed)));
        let mut rows: Vec<&str> = table.lines().collect();
        let built = tool(&folder, &["--json", "build", "built"], &table).shelf();
        tool(&folder, &["--json", "build", "set"], "").shelf();
        // Term numbers go by the order of words, so the sets keep that; within a word they go backwards.
        rows.sort_by_key(|row| std::cmp::Reverse(row.split('\t').nth(1).and_then(|sheet| sheet.parse::<u32>().ok())));
        rows.sort_by_key(|row| table.find(&format!("{}\t", row.split('\t').next().unwrap())));
        let mut last = String::new();
        for row in rows {
            let columns: Vec<&str> = row.split('\t').collect();
            last = tool(&folder, &["--json", "set", "set", columns[0], columns[1], columns[2]], "").shelf();
        }
        assert_eq!(last, built, "seed {seed}");
    }
}

#[test]
fn dumped_and_built_again() {
    for seed in 100..130 {
        let folder = scratch("same-dump");
        let table = text(&Random::new(seed).table());
        let built = tool(&folder, &["--json", "build", "one"], &table).shelf();
        let dumped = tool(&folder, &["dump", "one"], "").out;
        assert_eq!(tool(&folder, &["--json", "build", "two"], &dumped).shelf(), built, "seed {seed}");
        assert_eq!(dumped, table, "seed {seed}");
    }
}

#[test]
fn lines_in_another_order() {
    let folder = scratch("same-order");
    let rising = tool(&folder, &["--json", "build", "rising"], "a\t1\t5\na\t2\t6\tB\nb\t9\t7\n").shelf();
    let falling = tool(&folder, &["--json", "build", "falling"], "a\t2\t6\na\t1\t5\nb\t9\t7\n").shelf();
    assert_eq!(rising, falling);
}

#[test]
fn converted_twice_or_edited_back() {
    let folder = scratch("same-back");
    let built = tool(&folder, &["--json", "build", "x"], "a\t1\t5\na\t2\t6\nb\t1\t7\n").shelf();
    let converted = tool(&folder, &["--json", "convert", "x", "a"], "").shelf();
    assert_ne!(converted, built);
    assert_eq!(tool(&folder, &["--json", "convert", "x", "a"], "").shelf(), built);
    tool(&folder, &["--json", "set", "x", "a", "2", "9"], "").shelf();
    tool(&folder, &["--json", "set", "x", "c", "3", "9"], "").shelf();
    tool(&folder, &["--json", "withdraw", "x", "3"], "").shelf();
    assert_eq!(tool(&folder, &["--json", "set", "x", "a", "2", "6"], "").shelf(), built);
    let files = shell(&folder, "ls x | grep -c shelf").out;
    assert_eq!(files, "2\n", "the shelf and the one before");
}
