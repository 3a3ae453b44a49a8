//! Several at once: writers wait for each other and nothing is lost; readers never see half a commit.

mod common;

use common::{scratch, tool, Run, TOOL};
use std::{
    fs::File,
    io::{BufRead, BufReader},
    process::{Command, Stdio},
    thread,
};

#[test]
fn every_writer_is_heard() {
    let folder = scratch("writers-many");
    tool(&folder, &["--json", "build", "lab"], "usb\t1\t1\n").shelf();
    let writer = |sheet: u32| {
        let (sheet, word) = (sheet.to_string(), format!("word{sheet}"));
        for word in ["usb", &word] {
            tool(&folder, &["--json", "set", "lab", word, &sheet, "7", "--title", &sheet], "").shelf();
        }
    };
    let reader = || {
        for _ in 0..30 {
            let run = tool(&folder, &["search", "lab", "usb"], "");
            assert_eq!(run.code, Some(0), "{}", run.err);
        }
    };
    thread::scope(|scope| {
        (2..18).for_each(|sheet| drop(scope.spawn(move || writer(sheet))));
        (0..3).for_each(|_| drop(scope.spawn(reader)));
    });
    let shown = tool(&folder, &["--json", "show", "lab", "usb"], "").json();
    let rows = shown["postings"].as_array().unwrap();
    assert_eq!(rows.len(), 17);
    let titled = |row: &serde_json::Value| row["title"].as_str().map(str::to_string) == Some(row["sheet"].to_string());
    assert!(rows.iter().skip(1).all(titled), "{rows:?}");
    assert_eq!(tool(&folder, &["--json", "check", "lab"], "").json()["words"], 17);
}

#[test]
fn a_second_writer_waits_and_says_so() {
    let folder = scratch("writers-wait");
    tool(&folder, &["--json", "build", "lab"], "usb\t1\t1\n").shelf();
    let lock = File::open(folder.join("lab/lock")).unwrap();
    lock.lock().unwrap();
    let mut waiting = Command::new(TOOL)
        .args(["set", "lab", "usb", "2", "2"])
        .current_dir(&folder)
        .stdout(Stdio::piped())
        .stderr(Stdio::piped())
        .spawn()
        .unwrap();
    let mut said = String::new();
    BufReader::new(waiting.stderr.as_mut().unwrap()).read_line(&mut said).unwrap();
    assert_eq!(said, "tagmurlen: lab: waiting for another writer\n");
    assert_eq!(tool(&folder, &["search", "lab", "usb"], "").code, Some(0), "a reader does not wait");
    lock.unlock().unwrap();
    assert_eq!(Run::of(waiting.wait_with_output().unwrap()).code, Some(0));
}

#[test]
fn of_two_builds_one_is_told() {
    let folder = scratch("writers-build");
    let build = |table: &'static str| {
        let folder = folder.clone();
        thread::spawn(move || tool(&folder, &["build", "lab"], table))
    };
    let runs = [build("a\t1\t1\n"), build("b\t2\t2\n")].map(|run| run.join().unwrap());
    let mut codes = runs.each_ref().map(|run| run.code);
    codes.sort();
    assert_eq!(codes, [Some(0), Some(1)]);
    assert!(runs.iter().any(|run| run.err.ends_with("lab: there is a shelf already\n")));
}
