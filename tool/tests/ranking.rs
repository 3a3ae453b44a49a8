//! Random tables and edits: the hits are those that the table itself gives, ranked plainly.

mod common;

use common::{
    model::{ranking, text, Random, Table},
    scratch, tool,
};
use std::path::Path;

/// Asks the folder `shelf` and compares with the table.
fn compare(folder: &Path, table: &Table, random: &mut Random, seed: u64) {
    let (query, k) = random.query(table);
    let words = query.iter().map(|(word, _)| word.clone());
    let weights = query.iter().map(|(word, weight)| format!("--weight={word}={weight}"));
    let asked: Vec<String> = words.chain(weights).chain([format!("-k{k}")]).collect();
    let mut arguments = vec!["--json", "search", "shelf"];
    arguments.extend(asked.iter().map(String::as_str));
    let run = tool(folder, &arguments, "");
    assert_eq!(run.code, Some(0), "seed {seed}: {}", run.err);
    let number = |hit: &serde_json::Value, name: &str| hit[name].as_u64().unwrap() as u32;
    let answer = run.json();
    let hits: Vec<(u32, u32)> =
        answer["hits"].as_array().unwrap().iter().map(|hit| (number(hit, "sheet"), number(hit, "score"))).collect();
    assert_eq!(hits, ranking(table, &query, k), "seed {seed}: {arguments:?}");
}

#[test]
fn hits_of_random_tables() {
    for seed in 0..80 {
        let folder = scratch("ranking-tables");
        let mut random = Random::new(seed);
        let table = random.table();
        assert_eq!(tool(&folder, &["build", "shelf"], &text(&table)).code, Some(0));
        for _ in 0..6 {
            compare(&folder, &table, &mut random, seed);
        }
    }
}

/// One random edit, of the table and of the folder. One that the table cannot take is refused with exit 1.
fn edit(folder: &Path, table: &mut Table, random: &mut Random) {
    let word = format!("word{}", random.below(12));
    let (sheet, score) = (random.sheet(60), random.score(100));
    let (number, value) = (sheet.to_string(), score.to_string());
    let held = table.get(&word).is_some_and(|list| list.contains_key(&sheet));
    let (arguments, right) = match random.below(5) {
        0 | 1 => (vec!["set", "shelf", &word, &number, &value], true),
        2 => (vec!["clear", "shelf", &word, &number], held),
        3 => (vec!["withdraw", "shelf", &number], table.values().any(|list| list.contains_key(&sheet))),
        _ => (vec!["convert", "shelf", &word], table.contains_key(&word)),
    };
    let run = tool(folder, &arguments, "");
    assert_eq!(run.code, Some(i32::from(!right)), "{arguments:?}: {}", run.err);
    match arguments[0] {
        "set" => {
            table.entry(word).or_default().insert(sheet, score);
        }
        "clear" => table.entry(word).or_default().retain(|&held, _| held != sheet),
        "withdraw" => table.values_mut().for_each(|list| list.retain(|&held, _| held != sheet)),
        _ => {}
    }
    table.retain(|_, list| !list.is_empty());
}

#[test]
fn hits_after_random_edits() {
    for seed in 1000..1012 {
        let folder = scratch("ranking-edits");
        let mut random = Random::new(seed);
        let mut table = random.table();
        assert_eq!(tool(&folder, &["build", "shelf"], &text(&table)).code, Some(0));
        for _ in 0..12 {
            edit(&folder, &mut table, &mut random);
            compare(&folder, &table, &mut random, seed);
        }
    }
}
