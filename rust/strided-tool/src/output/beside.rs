//! A new file beside the one whose name it will take.

use std::fs::{self, File, OpenOptions};
use std::io::{self, ErrorKind};
use std::path::{Path, PathBuf};
use std::process;

use super::signals::unfinished;

/// How many names are tried for a new file beside the old one.
const NAMES: u32 = 100;

/// A new file beside another, removed unless it takes the other's name.
pub struct Beside {
    path: PathBuf,
}

impl Beside {
    /// Makes the new file.
    pub fn create(path: &Path) -> io::Result<(Beside, File)> {
        if path.file_name().is_none() {
            return Err(io::Error::new(ErrorKind::InvalidInput, "it names no file"));
        }
        let mut unfinished = unfinished();
        let mut last = io::Error::from(ErrorKind::AlreadyExists);
        for number in 0..NAMES {
            let name = format!(".strided-{}-{number}.tmp", process::id());
            let path = path.with_file_name(name);
            match OpenOptions::new().write(true).create_new(true).open(&path) {
                Ok(file) => {
                    *unfinished = Some(path.clone());
                    return Ok((Beside { path }, file));
                }
                Err(error) if error.kind() == ErrorKind::AlreadyExists => last = error,
                Err(error) => return Err(error),
            }
        }
        Err(last)
    }

    /// Gives the file its name.
    pub fn take_name_of(self, path: &Path) -> io::Result<()> {
        let mut unfinished = unfinished();
        let renamed = fs::rename(&self.path, path);
        if renamed.is_ok() {
            *unfinished = None;
        }
        drop(unfinished);
        renamed
    }
}

impl Drop for Beside {
    fn drop(&mut self) {
        if let Some(path) = unfinished().take() {
            let _ = fs::remove_file(path);
        }
    }
}
