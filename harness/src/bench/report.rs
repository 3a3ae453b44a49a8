//! The measured rows in print: first where it was measured and the means, then the rows that lose most, then all rows.

use super::workload::{KINDS, KS, TERMS};
use super::{mean, searches, whole, Time, PASSES, ROUNDS};
use std::fs;
use std::process::Command;

const SIZES: [&str; 3] = ["1k", "64k", "1m"];

/// Which machine and which compiler, as far as they say.
pub fn machine() -> String {
    let cpu = fs::read_to_string("/proc/cpuinfo").unwrap_or_default();
    let model = cpu.lines().find_map(|line| line.strip_prefix("model name")).map_or("unknown", |rest| rest.trim_start_matches(['\t', ' ', ':']));
    let cores = cpu.lines().filter(|line| line.starts_with("processor")).count();
    let rustc = Command::new("rustc").arg("--version").output().map_or(String::new(), |out| String::from_utf8_lossy(&out.stdout).trim().to_string());
    let load = fs::read_to_string("/proc/loadavg").unwrap_or_default();
    let load: String = load.split(' ').take(1).collect();
    format!("{model}, {cores} cores, load {load}; {rustc}; {PASSES} passes of {ROUNDS} rounds, by the wall clock")
}

fn print_means(label: &str, of_size: impl Fn(Option<&str>) -> f64) {
    let [small, middle, large] = SIZES.map(|size| of_size(Some(size)));
    println!("{label:<34} {:>6.2} {small:>6.2} {middle:>6.2} {large:>6.2}", of_size(None));
}

/// Geometric means over all rows, and over those of a size.
pub fn means(searches: &[searches::Row], whole: &[whole::Row]) {
    println!("{:<34} {:>6} {:>6} {:>6} {:>6}", "geometric means of ratios", "all", "1k", "64k", "1m");
    let searched = |label: &str, ratio: &dyn Fn(&searches::Row) -> f64| {
        print_means(label, |size| mean(searches.iter().filter(|row| size.is_none_or(|size| row.kind.size == size)).map(ratio)));
    };
    searched("pruned, archive / Rust", &searches::Row::pruned_ratio);
    searched("exhaustive, archive / Rust", &searches::Row::all_ratio);
    searched("the same by medians: pruned", &|row| row.pruned.median / row.rust_pruned.median);
    searched("and exhaustive", &|row| row.all.median / row.rust_all.median);
    let mut functions: Vec<&str> = whole.iter().map(|row| row.what).collect();
    functions.truncate(whole.len() / KINDS.len());
    for what in functions {
        let of_size = |size: Option<&str>| {
            mean(whole.iter().filter(|row| row.what == what && size.is_none_or(|size| row.kind.size == size)).map(whole::Row::ratio))
        };
        print_means(&format!("{what}, archive / Rust"), of_size);
    }
    searched("archive, pruned / exhaustive", &|row| row.pruned.best / row.all.best);
    searched("Rust, pruned / exhaustive", &|row| row.rust_pruned.best / row.rust_all.best);
    searched("archive pruned / Rust skipping", &|row| row.pruned.best / row.skipping.best);
    searched("Rust pruned / Rust skipping", &|row| row.rust_pruned.best / row.skipping.best);
}

/// The rows with the greatest ratios, of both rankers and of all else.
pub fn losers(searches: &[searches::Row], whole: &[whole::Row]) {
    let mut named: Vec<(f64, String)> = Vec::new();
    named.extend(searches.iter().map(|row| (row.pruned_ratio(), format!("pruned, {}", row.name()))));
    named.extend(searches.iter().map(|row| (row.all_ratio(), format!("exhaustive, {}", row.name()))));
    named.extend(whole.iter().map(|row| (row.ratio(), format!("{}, {}", row.what, row.kind.name))));
    named.sort_by(|a, b| b.0.total_cmp(&a.0));
    let slower = named.iter().filter(|row| row.0 > 1.0).count();
    println!("\n{slower} of {} figures lose to Rust; the greatest ratios:", named.len());
    for (ratio, name) in named.iter().take(16) {
        println!("  {ratio:>5.2}  {name}");
    }
}

/// Archive / Rust, pruned and exhaustive, for each size, number of terms and k.
pub fn by_shape(rows: &[searches::Row]) {
    println!("\narchive / Rust by size, terms and k: pruned, exhaustive (geometric means over the workloads)");
    println!("{:<12} {:>12} {:>12} {:>12}", "", "k 1", "k 10", "k 100");
    for size in SIZES {
        for terms in TERMS {
            let cells = KS.map(|k| {
                let here = || rows.iter().filter(move |row| row.kind.size == size && row.terms == terms && row.k == k);
                format!("{:.2}, {:.2}", mean(here().map(searches::Row::pruned_ratio)), mean(here().map(searches::Row::all_ratio)))
            });
            println!("{:<12} {:>12} {:>12} {:>12}", format!("{size}, {terms} t."), cells[0], cells[1], cells[2]);
        }
    }
}

/// Marks a ratio that loses.
fn marked(ratio: f64) -> String {
    format!("{ratio:.2}{}", if ratio > 1.0 { '*' } else { ' ' })
}

fn both(time: Time) -> String {
    format!("{:.0} ({:.0})", time.best, time.median)
}

pub fn search_table(rows: &[searches::Row]) {
    println!(
        "\nsearches: ns of one, best (median); A archive, R Rust, TUB skipping by term upper bounds; /p ns a posting of the query's lists; * loses"
    );
    println!(
        "{:<31} {:>6} {:>5} {:>5} {:>17} {:>17} {:>6} {:>5} {:>17} {:>17} {:>6} {:>5} {:>6} {:>6}",
        "", "posts", "open%", "TUB%", "A pruned", "R pruned", "A/R", "A/p", "A all", "R all", "A/R", "A/p", "prn/al", "A/TUB"
    );
    for row in rows {
        println!(
            "{:<31} {:>6.0} {:>5.0} {:>5.0} {:>17} {:>17} {:>6} {:>5.1} {:>17} {:>17} {:>6} {:>5.1} {:>6.2} {:>6.2}",
            row.name(),
            row.postings,
            100.0 * row.opened,
            100.0 * row.skipping_opened,
            both(row.pruned),
            both(row.rust_pruned),
            marked(row.pruned_ratio()),
            row.pruned.best / row.postings,
            both(row.all),
            both(row.rust_all),
            marked(row.all_ratio()),
            row.all.best / row.postings,
            row.pruned.best / row.all.best,
            row.pruned.best / row.skipping.best,
        );
    }
}

pub fn whole_table(rows: &[whole::Row]) {
    println!("\nthe rest: ns of one call, best (median); A archive, R Rust; per unit the archive's ns; * loses");
    println!("{:<40} {:>20} {:>20} {:>6} {:>17}", "", "A", "R", "A/R", "A per unit");
    for row in rows {
        let per_unit = format!("{:.2} a {}", row.archive.best / row.units as f64, row.unit);
        let name = format!("{}, {}", row.what, row.kind.name);
        println!("{name:<40} {:>20} {:>20} {:>6} {per_unit:>17}", both(row.archive), both(row.rust), marked(row.ratio()));
    }
}

/// The same shelf in both layouts: times on strips over times on pairs.
pub fn strips(searches: &[searches::Row], whole: &[whole::Row]) {
    println!("\n{:<34} {:>7} {:>6}", "64k zipf, strips / pairs", "archive", "Rust");
    let [pairs, strips] = ["64k zipf", "64k zipf strips"];
    let searched = |time: &dyn Fn(&searches::Row) -> Time| {
        let mean_of = |name: &str| mean(searches.iter().filter(|row| row.kind.name == name).map(|row| time(row).best));
        mean_of(strips) / mean_of(pairs)
    };
    println!("{:<34} {:>7.2} {:>6.2}", "pruned", searched(&|row| row.pruned), searched(&|row| row.rust_pruned));
    println!("{:<34} {:>7.2} {:>6.2}", "exhaustive", searched(&|row| row.all), searched(&|row| row.rust_all));
    for on_pairs in whole.iter().filter(|row| row.kind.name == pairs && !row.what.starts_with("write_list")) {
        for on_strips in whole.iter().filter(|row| row.kind.name == strips && row.what == on_pairs.what) {
            let ratio = |time: fn(&whole::Row) -> Time| time(on_strips).best / time(on_pairs).best;
            println!("{:<34} {:>7.2} {:>6.2}", on_pairs.what, ratio(|row| row.archive), ratio(|row| row.rust));
        }
    }
}
