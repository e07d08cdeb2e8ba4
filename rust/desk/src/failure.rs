//! Why a word was not carried out.

use std::fmt;
use std::io;
use std::path::Path;

use searchroom::Refusal;

use crate::show::shown_path;

/// All but the last end the program with status 1.
pub enum Failure {
    /// The engine refuses. `help` says where, and what to do, in lines of its own.
    Refused { refusal: Refusal, help: String },
    /// The desk cannot go on: a file that cannot be read or written, or values that do not fit.
    Desk(String),
    /// Whoever read the output has closed it: nothing is left to do, and nothing is wrong.
    Closed,
}

impl Failure {
    /// What happened to a file.
    pub fn file(what: &str, path: &Path, error: &io::Error) -> Failure {
        Failure::Desk(format!("cannot {what} {}: {error}", shown_path(path)))
    }
}

/// A refusal that needs no help but its text.
impl From<Refusal> for Failure {
    fn from(refusal: Refusal) -> Failure {
        Failure::Refused { refusal, help: String::new() }
    }
}

/// An error of standard output; files have [`Failure::file`].
impl From<io::Error> for Failure {
    fn from(error: io::Error) -> Failure {
        match error.kind() {
            io::ErrorKind::BrokenPipe => Failure::Closed,
            _ => Failure::Desk(format!("cannot write to standard output: {error}")),
        }
    }
}

impl fmt::Display for Failure {
    fn fmt(&self, f: &mut fmt::Formatter<'_>) -> fmt::Result {
        match self {
            Failure::Refused { refusal, help } => write!(f, "refused {}: {refusal}{help}", refusal.number()),
            Failure::Desk(text) => f.write_str(text),
            Failure::Closed => Ok(()),
        }
    }
}
