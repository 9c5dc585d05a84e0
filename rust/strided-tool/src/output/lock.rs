//! The lock on a file that will be replaced, so that of two runs on one file neither loses the other's work.
//!
//! The file itself is locked, with flock, which ends with the process. A rename puts a new file in its place, which nobody has
//! locked; so whoever has got the lock looks whether the name still has the locked file, and otherwise begins again.

use std::fs::{self, File, Metadata, OpenOptions};
use std::io::{self, ErrorKind, Write};
use std::os::unix::fs::MetadataExt;
use std::path::{Path, PathBuf};

use rustix::fs::{flock, FlockOperation};

use crate::failure::{Failure, Outcome};

/// What to do where another run has the lock.
#[derive(Clone, Copy, Debug, Eq, PartialEq)]
pub enum Patience {
    /// Say so and wait.
    Wait,
    /// Refuse.
    Refuse,
}

/// A file that is locked until this is dropped.
pub struct Locked {
    /// Its name, links followed.
    pub place: PathBuf,
    /// What the system said of it before anything was read.
    pub found: Metadata,
    _file: File,
}

impl Locked {
    /// Locks what the path names; none where that is another file by then.
    pub fn take(path: &Path, asked: &mut Asked) -> Outcome<Option<Locked>> {
        let failed = |error: io::Error| Failure::of_io(path, "lock it", &error);
        let gone = |error: &io::Error| error.kind() == ErrorKind::NotFound;
        let opened = fs::canonicalize(path).and_then(|place| Ok((open(&place)?, place)));
        let (file, place) = match opened {
            Err(error) if gone(&error) => return Ok(None),
            opened => opened.map_err(failed)?,
        };
        asked.lock(path, &file)?;
        let locked = Locked {
            found: file.metadata().map_err(failed)?,
            place,
            _file: file,
        };
        Ok(locked.has_its_name().then_some(locked))
    }

    /// Whether the name has the locked file.
    fn has_its_name(&self) -> bool {
        let file = |found: &Metadata| (found.dev(), found.ino());
        fs::metadata(&self.place).is_ok_and(|now| file(&now) == file(&self.found))
    }

    /// Whether the name has the file as it was when it was locked. Programs that take no lock can have changed it.
    pub fn is_as_it_was(&self) -> bool {
        fs::metadata(&self.place).is_ok_and(|now| mark(&now) == mark(&self.found))
    }
}

/// Device, inode, size and time of the last change.
fn mark(found: &Metadata) -> (u64, u64, u64, i64, i64) {
    let time = (found.mtime(), found.mtime_nsec());
    (found.dev(), found.ino(), found.size(), time.0, time.1)
}

/// Opens for writing where that may be, since network file systems lock no other file.
fn open(place: &Path) -> io::Result<File> {
    let both = OpenOptions::new().read(true).write(true).open(place);
    both.or_else(|_| File::open(place))
}

/// How a lock is asked for.
pub struct Asked {
    patience: Patience,
    told: bool,
}

impl Asked {
    /// Nothing has been said yet.
    pub fn new(patience: Patience) -> Asked {
        let told = false;
        Asked { patience, told }
    }

    fn lock(&mut self, path: &Path, file: &File) -> Outcome<()> {
        let failed = |error: io::Error| Failure::of_io(path, "lock it", &error);
        match locked(file, FlockOperation::NonBlockingLockExclusive) {
            Err(error) if error.kind() == ErrorKind::WouldBlock => (),
            answer => return answer.map_err(failed),
        }
        if self.patience == Patience::Refuse {
            let why = "another run is writing it, and --no-wait was given; nothing was done";
            return Err(Failure::Busy(format!("{}: {why}", path.display())));
        }
        self.tell(path);
        locked(file, FlockOperation::LockExclusive).map_err(failed)
    }

    /// Once, and also where the user wants to hear nothing of what was done: nothing is done now.
    fn tell(&mut self, path: &Path) {
        if !self.told {
            let name = path.display();
            let _ = writeln!(
                io::stderr(),
                "strided: waiting for {name}, which another run is writing"
            );
        }
        self.told = true;
    }
}

fn locked(file: &File, how: FlockOperation) -> io::Result<()> {
    loop {
        match flock(file, how).map_err(io::Error::from) {
            Err(error) if error.kind() == ErrorKind::Interrupted => (),
            answer => return answer,
        }
    }
}
