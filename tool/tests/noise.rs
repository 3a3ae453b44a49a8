//! Whatever comes from outside, the tool answers or says what is wrong: it never panics, which would be exit 101.

mod common;

use common::{model::Random, scratch, shell, tool, Run};
use std::fs;

const PIECES: [&str; 14] =
    ["\t", "\t", "\n", "a", "word", "7", "0", "16777215", "99999999999", "#", " ", "\r", "\u{feff}", "\u{202e}é"];

fn noise(random: &mut Random, pieces: u32) -> Vec<u8> {
    let mut bytes = Vec::new();
    for _ in 0..random.below(pieces) {
        match random.below(40) {
            0 => bytes.push(random.below(256) as u8),
            1 => bytes.extend(b"word\t5\t5\n"),
            _ => bytes.extend(PIECES[random.below(PIECES.len() as u32) as usize].bytes()),
        }
    }
    bytes
}

fn answered(run: &Run) -> bool {
    assert!(matches!(run.code, Some(0..=2)), "{:?}: {}", run.code, run.err);
    assert!(run.code == Some(0) || !run.err.is_empty());
    run.code == Some(0)
}

/// A table that is taken goes round: what is dumped is built to the same shelf.
#[test]
fn noise_for_a_table() {
    let mut random = Random::new(1);
    let mut taken = 0;
    for _ in 0..300 {
        let folder = scratch("noise-table");
        fs::write(folder.join("table"), noise(&mut random, 12)).unwrap();
        if answered(&shell(&folder, "tagmurlen build lab < table")) {
            taken += 1;
            assert!(answered(&shell(
                &folder,
                "tagmurlen dump lab | tagmurlen build again && cmp lab/current again/current"
            )));
        } else {
            assert!(!folder.join("lab").exists());
        }
    }
    assert!(taken > 20, "{taken}");
}

#[test]
fn noise_for_a_file_of_the_folder() {
    let mut random = Random::new(2);
    let folder = scratch("noise-file");
    let shelf = tool(&folder, &["--json", "build", "lab"], "usb\t1\t5\tone\nclock\t9\t3\n").shelf();
    for name in ["current", "words", "titles", &format!("{shelf}.shelf")] {
        let path = folder.join("lab").join(name);
        let whole = fs::read(&path).unwrap();
        for _ in 0..50 {
            fs::write(&path, noise(&mut random, 30)).unwrap();
            for command in ["search lab usb", "dump lab --json", "check lab"] {
                answered(&tool(&folder, &command.split(' ').collect::<Vec<_>>(), ""));
            }
        }
        fs::write(&path, &whole).unwrap();
    }
    assert!(answered(&tool(&folder, &["check", "lab"], "")));
}

#[test]
fn noise_for_arguments() {
    let mut random = Random::new(3);
    let folder = scratch("noise-arguments");
    tool(&folder, &["--json", "build", "lab"], "usb\t1\t5\tone\nclock\t9\t3\n").shelf();
    let words = [
        "lab", "usb", "clock", "1", "0", "-1", "--json", "--book", "-k", "--weight", "usb=3", "=", "", "é", "--title",
        "--",
    ];
    let commands = ["build", "set", "clear", "withdraw", "convert", "search", "check", "show", "dump", "fly"];
    for _ in 0..400 {
        let mut arguments = vec![commands[random.below(10) as usize], "lab"];
        arguments.extend((0..random.below(6)).map(|_| words[random.below(words.len() as u32) as usize]));
        answered(&tool(&folder, &arguments, ""));
    }
    assert!(answered(&tool(&folder, &["check", "lab"], "")));
}
