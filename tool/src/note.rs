//! Notes to the person at the terminal, on standard error. They are said as far as it listens: a closed standard error stops no command.

use std::io::{self, Write};

pub fn note(message: &str) {
    let _ = writeln!(io::stderr(), "tagmurlen: {message}");
}
