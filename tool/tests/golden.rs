//! Transcripts: each file of tests/golden has command lines after `$ `, and under each what it printed: standard output, then standard error after `! `,
//! then the exit code after `= ` where it is not 0. With TAGMURLEN_REWRITE set the files are written anew.

mod common;

use common::{scratch, shell};
use std::{env, fs, path::Path};

const HERE: &str = env!("CARGO_MANIFEST_DIR");

/// Plays the command lines of a transcript, in a scratch folder that has the example table, and gives the transcript as it comes out.
fn play(name: &str, transcript: &str) -> String {
    let folder = scratch(&format!("golden-{name}"));
    fs::copy(Path::new(HERE).join("examples/lab.tsv"), folder.join("lab.tsv")).unwrap();
    let mut printed = String::new();
    for line in transcript.lines().filter(|line| line.starts_with("$ ") || line.starts_with("# ") || line.is_empty()) {
        printed += &format!("{line}\n");
        if let Some(command) = line.strip_prefix("$ ") {
            let run = shell(&folder, command);
            printed += &run.out;
            run.err.lines().for_each(|line| printed += &format!("! {line}\n"));
            if run.code != Some(0) {
                printed += &format!("= {}\n", run.code.unwrap());
            }
        }
    }
    printed
}

fn transcript(name: &str) {
    let file = Path::new(HERE).join("tests/golden").join(name);
    let expected = fs::read_to_string(&file).unwrap();
    let printed = play(name, &expected);
    if env::var_os("TAGMURLEN_REWRITE").is_some() {
        fs::write(&file, &printed).unwrap();
    } else {
        same(name, &printed, &expected);
    }
}

/// Names the first line that differs.
fn same(name: &str, printed: &str, expected: &str) {
    for (line, (printed, expected)) in (1..).zip(printed.lines().zip(expected.lines())) {
        assert_eq!(printed, expected, "{name}:{line}");
    }
    assert_eq!(printed, expected, "{name}: one is longer");
}

/// What README.md shows is what is printed: its indented lines, from each that begins with `$ tagmurlen` to the next blank one.
#[test]
fn the_readme() {
    let readme = fs::read_to_string(Path::new(HERE).join("README.md")).unwrap();
    let blocks = readme.split("\n\n").filter(|block| block.starts_with("    $ tagmurlen"));
    let lines: Vec<&str> = blocks.flat_map(|block| block.lines()).map(|line| &line[4..]).collect();
    let shown = lines.join("\n") + "\n";
    assert!(shown.contains("$ tagmurlen search"));
    same("README.md", &play("readme", &shown), &shown);
}

#[test]
fn every_command_in_text() {
    transcript("text.txt");
}

#[test]
fn every_command_in_json() {
    transcript("json.txt");
}

#[test]
fn wrong_tables() {
    transcript("tables.txt");
}

#[test]
fn wrong_questions_and_edits() {
    transcript("mistakes.txt");
}

#[test]
fn damaged_folders() {
    transcript("damage.txt");
}

#[test]
fn pipes_and_files() {
    transcript("pipes.txt");
}
