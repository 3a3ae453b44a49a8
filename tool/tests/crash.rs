//! Cut short at each system call: what is left is the old shelf or the new one, sound, and the next writer goes on from there.
//! strace kills the tool, or makes the call fail, at the Nth call of a name; nothing in the tool knows of it.

mod common;

use common::{copy_folder, scratch, shell, tool, Run, TOOL};
use std::{
    fs,
    os::unix::process::ExitStatusExt,
    path::Path,
    process::{Command, Stdio},
};

/// The calls that read and write a folder, with the error that each is tried with.
const CALLS: [(&str, &str); 9] = [
    ("openat", "EMFILE"),
    ("read", "EIO"),
    ("write", "ENOSPC"),
    ("fsync", "EIO"),
    ("rename", "EIO"),
    ("ftruncate", "EIO"),
    ("flock", "ENOLCK"),
    ("mkdir", "ENOSPC"),
    ("unlink", "EIO"),
];

/// A table, and two edits of it: the first writes words, titles and a shelf; the second also removes the oldest shelf.
const TABLE: &str = "regulator\t12\t900\tDrops out\nregulator\t40\t350\nusb\t21\t700\n";
const FIRST: &[&str] = &["--json", "set", "lab", "fuse", "140", "300", "--title", "Fuse F2 rated too low"];
const SECOND: &[&str] = &["--json", "clear", "lab", "usb", "21"];

struct Injected {
    killed: bool,
    run: Run,
}

/// Runs the tool with one fault put in.
fn inject(folder: &Path, arguments: &[&str], input: &str, call: &str, fault: &str, when: usize) -> Injected {
    fs::write(folder.join("input"), input).unwrap();
    let output = Command::new("strace")
        .args(["-f", "-o", "calls", "-e", &format!("trace={call}")])
        .args(["-e", &format!("inject={call}:{fault}:when={when}")])
        .arg(TOOL)
        .args(arguments)
        .current_dir(folder)
        .stdin(Stdio::from(fs::File::open(folder.join("input")).unwrap()))
        .output()
        .expect("strace is installed");
    Injected { killed: output.status.signal() == Some(9), run: Run::of(output) }
}

/// Whether strace has put its fault into the run that it wrote down.
fn injected(folder: &Path) -> bool {
    fs::read_to_string(folder.join("calls")).unwrap().contains("(INJECTED)")
}

fn state(folder: &Path) -> Option<String> {
    let run = tool(folder, &["--json", "check", "lab"], "");
    (run.code == Some(0)).then(|| run.shelf())
}

/// The states of a folder through the table and both edits.
fn states(name: &str) -> (std::path::PathBuf, [String; 3]) {
    let folder = scratch(name);
    let built = tool(&folder, &["--json", "build", "lab"], TABLE).shelf();
    copy_folder(&folder.join("lab"), &folder.join("built"));
    let first = tool(&folder, FIRST, "").shelf();
    copy_folder(&folder.join("lab"), &folder.join("first"));
    let second = tool(&folder, SECOND, "").shelf();
    (folder, [built, first, second])
}

/// Kills an edit at each call of each name; gives how many kills there were.
fn kill_edit(folder: &Path, from: &str, edit: &[&str], old: &str, new: &str) -> usize {
    let mut kills = 0;
    for (call, _) in CALLS {
        for when in 1.. {
            fs::remove_dir_all(folder.join("lab")).unwrap();
            copy_folder(&folder.join(from), &folder.join("lab"));
            if !inject(folder, edit, "", call, "signal=SIGKILL", when).killed {
                break;
            }
            kills += 1;
            let left = state(folder).unwrap_or_else(|| panic!("{call} {when}: no shelf"));
            assert!(left == old || left == new, "{call} {when}: {left}");
            if left == old {
                assert_eq!(tool(folder, edit, "").shelf(), new, "{call} {when}: the edit again");
            }
            assert_eq!(tool(folder, &["search", "lab", "regulator"], "").code, Some(0));
        }
    }
    kills
}

#[test]
fn killed_in_an_edit() {
    let (folder, [built, first, second]) = states("crash-kill");
    let one = kill_edit(&folder, "built", FIRST, &built, &first);
    let two = kill_edit(&folder, "first", SECOND, &first, &second);
    println!("{one} and {two} kills");
    assert!(one > 30 && two > 30, "{one}, {two}: strace killed too seldom");
}

#[test]
fn killed_in_a_build() {
    let (folder, [built, ..]) = states("crash-build");
    let mut kills = 0;
    for (call, _) in CALLS {
        for when in 1.. {
            let _ = fs::remove_dir_all(folder.join("lab"));
            if !inject(&folder, &["--json", "build", "lab"], TABLE, call, "signal=SIGKILL", when).killed {
                break;
            }
            kills += 1;
            match state(&folder) {
                Some(left) => assert_eq!(left, built),
                None => assert_eq!(tool(&folder, &["--json", "build", "lab"], TABLE).shelf(), built, "{call} {when}"),
            }
        }
    }
    assert!(kills > 30, "{kills}");
}

/// A call that fails is told, with exit 2, or the edit is done; it never panics (101), and it is never taken for done.
fn fail_edit(folder: &Path, from: &str, edit: &[&str], old: &str, new: &str) {
    for (call, error) in CALLS {
        for when in 1.. {
            fs::remove_dir_all(folder.join("lab")).unwrap();
            copy_folder(&folder.join(from), &folder.join("lab"));
            let run = inject(folder, edit, "", call, &format!("error={error}"), when).run;
            if !injected(folder) {
                break;
            }
            let left = state(folder).unwrap_or_else(|| panic!("{call} {when}: no shelf"));
            assert!(left == old || left == new, "{call} {when}: {left}");
            assert_ne!(run.code, Some(101), "{call} {when}: {}", run.err);
            assert!(run.code != Some(0) || left == new, "{call} {when}: told as done");
            assert!(run.code == Some(0) || !run.err.is_empty(), "{call} {when}: failed without a word");
            assert_eq!(tool(folder, &["--json", "set", "lab", "usb", "1", "1"], "").code, Some(0), "{call} {when}");
        }
    }
}

#[test]
fn a_call_that_fails_in_an_edit() {
    let (folder, [built, first, second]) = states("crash-fail");
    fail_edit(&folder, "built", FIRST, &built, &first);
    fail_edit(&folder, "first", SECOND, &first, &second);
}

/// A read that fails is not the end of the table: a shelf of its first half is never built.
#[test]
fn a_read_that_fails_in_a_build() {
    let folder = scratch("crash-read");
    let table: String = (1..3000).map(|sheet| format!("board\t{sheet}\t{sheet}\n")).collect();
    let whole = tool(&folder, &["--json", "build", "lab"], &table).shelf();
    for when in 1.. {
        fs::remove_dir_all(folder.join("lab")).unwrap_or_default();
        let run = inject(&folder, &["--json", "build", "lab"], &table, "read", "error=EIO", when).run;
        if !injected(&folder) {
            break;
        }
        assert!(run.code != Some(0) || state(&folder) == Some(whole.clone()), "{when}: told as done");
        assert!(state(&folder).is_none_or(|left| left == whole), "{when}");
    }
}

/// What a kill cannot show: that each file is on disk before the rename that makes it count. The order of calls is read from strace.
#[test]
fn synced_before_renamed() {
    let folder = scratch("crash-order");
    tool(&folder, &["--json", "build", "lab"], TABLE).shelf();
    let trace = format!("strace -y -o calls -e trace=write,fsync,rename {TOOL} set lab fuse 140 300 --title Fuse");
    assert_eq!(shell(&folder, &trace).code, Some(0));
    let calls = fs::read_to_string(folder.join("calls")).unwrap();
    let steps: Vec<&str> = calls.lines().filter_map(step).collect();
    let replaced = |name| [name, "synced", "renamed", "folder synced"];
    let expected =
        [&replaced("titles.new")[..], &["words", "synced"], &replaced("shelf.new"), &replaced("current.new")];
    assert_eq!(steps, expected.concat(), "{calls}");
}

/// A line of strace as a step of a commit: the file that is written, synced or renamed.
fn step(line: &str) -> Option<&'static str> {
    let files = ["titles.new", "words", "shelf.new", "current.new"];
    match line.split('(').next()? {
        "write" => files.into_iter().find(|file| line.contains(&format!("/{file}>"))),
        "fsync" if line.contains("/lab>") => Some("folder synced"),
        "fsync" => Some("synced"),
        "rename" => Some("renamed"),
        _ => None,
    }
}
