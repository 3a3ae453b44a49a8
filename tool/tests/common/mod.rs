//! Running the tool in a scratch folder.
#![allow(dead_code)] // each test file uses some of it

pub mod model;

use std::{
    env, fs,
    io::Write,
    path::{Path, PathBuf},
    process::{Command, Output, Stdio},
};

pub const TOOL: &str = env!("CARGO_BIN_EXE_tagmurlen");

/// A new, empty folder of this name, in cargo's folder for tests.
pub fn scratch(name: &str) -> PathBuf {
    let folder = Path::new(env!("CARGO_TARGET_TMPDIR")).join(name);
    let _ = fs::remove_dir_all(&folder);
    fs::create_dir_all(&folder).unwrap();
    folder
}

pub struct Run {
    /// The exit code; none where a signal ended it.
    pub code: Option<i32>,
    pub out: String,
    pub err: String,
}

impl Run {
    pub fn of(output: Output) -> Run {
        let text = |bytes| String::from_utf8(bytes).unwrap();
        Run { code: output.status.code(), out: text(output.stdout), err: text(output.stderr) }
    }

    pub fn json(&self) -> serde_json::Value {
        serde_json::from_str(&self.out).unwrap_or_else(|error| panic!("{error}: {}{}", self.out, self.err))
    }

    /// The shelf that the answer names, of a run that was to be done.
    pub fn shelf(&self) -> String {
        assert_eq!(self.code, Some(0), "{}{}", self.out, self.err);
        self.json()["shelf"].as_str().unwrap().to_string()
    }
}

/// Runs a shell's line in a folder, with `tagmurlen` as a word of it.
pub fn shell(folder: &Path, line: &str) -> Run {
    let path = format!("{}:{}", Path::new(TOOL).parent().unwrap().display(), env::var("PATH").unwrap());
    Run::of(Command::new("sh").args(["-c", line]).current_dir(folder).env("PATH", path).output().unwrap())
}

/// Runs the tool with arguments and a standard input.
pub fn tool(folder: &Path, arguments: &[&str], input: &str) -> Run {
    let mut child = Command::new(TOOL)
        .args(arguments)
        .current_dir(folder)
        .stdin(Stdio::piped())
        .stdout(Stdio::piped())
        .stderr(Stdio::piped())
        .spawn()
        .unwrap();
    let _ = child.stdin.take().unwrap().write_all(input.as_bytes()); // the tool may have stopped reading
    Run::of(child.wait_with_output().unwrap())
}

pub fn copy_folder(from: &Path, to: &Path) {
    fs::create_dir(to).unwrap();
    for entry in fs::read_dir(from).unwrap() {
        let entry = entry.unwrap();
        fs::copy(entry.path(), to.join(entry.file_name())).unwrap();
    }
}
