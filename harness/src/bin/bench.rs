//! The archive beside the same rules in Rust written for speed: times of one call and their ratios.

use harness::bench::workload::{Workload, KINDS};
use harness::bench::{report, searches, whole, PASSES};

fn main() {
    println!("{}", report::machine());
    let works = KINDS.each_ref().map(Workload::new);
    for work in &works {
        let postings: usize = work.lists.values().map(Vec::len).sum();
        println!("{:<18} {:>8} bytes {:>5} lists {:>7} postings", work.kind.name, work.shelf.len(), work.lists.len(), postings);
    }
    let pass = || (works.iter().flat_map(searches::rows).collect::<Vec<_>>(), works.iter().flat_map(whole::rows).collect::<Vec<_>>());
    let (mut searched, mut others) = pass();
    for _ in 1..PASSES {
        let (searched_again, others_again) = pass();
        searched = searched.into_iter().zip(&searched_again).map(|(row, again)| row.better(again)).collect();
        others = others.into_iter().zip(&others_again).map(|(row, again)| row.better(again)).collect();
    }
    println!();
    report::means(&searched, &others);
    report::losers(&searched, &others);
    report::by_shape(&searched);
    report::strips(&searched, &others);
    report::whole_table(&others);
    report::search_table(&searched);
}
