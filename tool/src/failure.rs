//! Why a command did not do what was asked, and the exit code that says so.

use proved::Refusal;
use std::{fmt, io, path::Path};

/// A command's failure. Each kind has an exit code of its own, so that a program can tell a refusal from a disk that is full.
#[derive(Debug)]
pub enum Failure {
    /// The core refused, with its number and offset: exit 1.
    Refused { what: String, refusal: Refusal },
    /// The table, the query or the folder's content is wrong: exit 1.
    Wrong(String),
    /// Usage, or input and output: exit 2.
    Trouble(String),
}

impl Failure {
    pub fn exit_code(&self) -> u8 {
        match self {
            Failure::Refused { .. } | Failure::Wrong(_) => 1,
            Failure::Trouble(_) => 2,
        }
    }

    /// The core's refusal, if it was the core that refused.
    pub fn refusal(&self) -> Option<Refusal> {
        match self {
            Failure::Refused { refusal, .. } => Some(*refusal),
            _ => None,
        }
    }
}

impl fmt::Display for Failure {
    fn fmt(&self, f: &mut fmt::Formatter) -> fmt::Result {
        match self {
            Failure::Refused { what, refusal } => write!(f, "{what}: {refusal}"),
            Failure::Wrong(message) | Failure::Trouble(message) => f.write_str(message),
        }
    }
}

/// For `map_err`: what the core refused.
pub fn refused(what: impl Into<String>) -> impl FnOnce(Refusal) -> Failure {
    let what = what.into();
    move |refusal| Failure::Refused { what, refusal }
}

/// For `map_err`: the file that could not be read or written.
pub fn trouble(path: &Path) -> impl FnOnce(io::Error) -> Failure + '_ {
    move |error| Failure::Trouble(format!("{}: {error}", path.display()))
}
