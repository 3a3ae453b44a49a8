//! The search program beside the reference: what it prints for an input.

use crate::compare::{Answer, Tally};
use crate::corners::search::blocks_apart;
use crate::examples;
use crate::reference::program::print;
use crate::reference::{MAX_DOCID, MAX_INPUT};
use std::io::Write;
use std::process::{Command, Stdio};

/// The number and offset of a line `R number offset`, 0 and 0 where hits and a book are printed.
fn told(lines: &str) -> Answer {
    let mut words = lines.strip_prefix("R ").unwrap_or("").split_whitespace().map(|w| w.parse().unwrap_or(u64::MAX));
    (words.next().unwrap_or(0) as u32, words.next().unwrap_or(0))
}

pub struct Program {
    path: String,
}

impl Program {
    pub fn at(path: String) -> Program {
        Program { path }
    }

    /// Its standard output, and whether it ended well. It may leave the rest of a too long input unread.
    fn run(&self, input: &[u8]) -> (Vec<u8>, bool) {
        let mut child = Command::new(&self.path)
            .stdin(Stdio::piped())
            .stdout(Stdio::piped())
            .spawn()
            .unwrap_or_else(|e| panic!("{} does not start ({e}); `harness/build search` builds it", self.path));
        let mut stdin = child.stdin.take().expect("it is piped");
        let _ = stdin.write_all(input);
        drop(stdin);
        let ended = child.wait_with_output().expect("it was started");
        (ended.stdout, ended.status.success())
    }

    /// The examples, the lengths about the limit, and the longest output.
    pub fn corners(&self, t: &mut Tally) {
        for e in examples::all() {
            self.compare(t, &format!("example '{}'", e.name), &e.input);
        }
        for length in [MAX_INPUT - 1, MAX_INPUT, MAX_INPUT + 1, 2 * MAX_INPUT] {
            self.compare(t, &format!("{length} bytes"), &vec![0x20; length]);
        }
        let (query, shelf) = blocks_apart(MAX_DOCID - 1_023, 65_535, 255);
        self.compare(t, "100 hits and 1,025 intervals", &[query, shelf].concat());
    }

    pub fn compare(&self, t: &mut Tally, case: &str, input: &[u8]) {
        let (printed, well) = self.run(input);
        let expected = print(input);
        t.case = case.to_string();
        t.answers("the program", told(&String::from_utf8_lossy(&printed)), told(&expected));
        t.note("the program's end", (!well).then(|| "it did not end well".to_string()));
        let differs = printed != expected.as_bytes();
        t.note("the program's lines", differs.then(|| format!("{}, should be {expected}", String::from_utf8_lossy(&printed))));
    }
}
