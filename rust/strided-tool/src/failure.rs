//! What ends a command before its work is done.

use std::fmt;
use std::io;
use std::path::Path;

/// A command that could not be done, with what is told to the user.
#[derive(Debug)]
pub enum Failure {
    /// The library refused.
    Refused(String),
    /// Usage, a file that cannot be read or written, or elements of another type.
    Unusable(String),
    /// Another run is writing the output, and the user would not wait.
    Busy(String),
}

impl Failure {
    /// The exit status: 1 for a refusal by the library, 3 where the user would not wait, 2 for everything else.
    pub fn status(&self) -> u8 {
        match self {
            Failure::Refused(_) => 1,
            Failure::Unusable(_) => 2,
            Failure::Busy(_) => 3,
        }
    }

    /// A file that could not be used, and why.
    pub fn of_file(path: &Path, why: impl fmt::Display) -> Failure {
        Failure::Unusable(format!("{}: {why}", path.display()))
    }

    /// A file on which the system refused to do something.
    pub fn of_io(path: &Path, doing: &str, error: &io::Error) -> Failure {
        Failure::of_file(path, format_args!("cannot {doing}: {error}"))
    }
}

impl fmt::Display for Failure {
    fn fmt(&self, f: &mut fmt::Formatter<'_>) -> fmt::Result {
        match self {
            Failure::Refused(what) | Failure::Unusable(what) | Failure::Busy(what) => {
                f.write_str(what)
            }
        }
    }
}

/// What a command gives back.
pub type Outcome<T> = Result<T, Failure>;
