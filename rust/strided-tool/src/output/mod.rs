//! Writing a file so that a failure leaves the old one whole, and no other run's work is lost.

mod beside;
mod lock;
mod signals;

use std::fs::{self, File, Metadata, OpenOptions};
use std::io::{self, BufWriter, ErrorKind, Write};
use std::os::unix::fs::{fchown, MetadataExt};
use std::path::{Path, PathBuf};

use beside::Beside;
use lock::{Asked, Locked};

use crate::failure::{Failure, Outcome};
use crate::progress;

pub use lock::Patience;

/// Where a command will write. A file that is there is locked from before the command reads it until it is replaced.
pub struct Output {
    path: PathBuf,
    target: Target,
}

enum Target {
    /// A device or a pipe, which is written as it is.
    Stream,
    /// A name that no file has yet.
    New,
    /// A file that will be replaced.
    Old(Box<Locked>),
}

impl Output {
    /// Claims a path for writing, before anything is read that it may hold.
    pub fn claim(path: &Path, patience: Patience) -> Outcome<Output> {
        let failed = |doing| move |error: io::Error| Failure::of_io(path, doing, &error);
        signals::watch().map_err(failed("watch for signals while writing it"))?;
        let mut asked = Asked::new(patience);
        let target = loop {
            match fs::metadata(path) {
                Ok(found) => {
                    if let Some(target) = existing(path, &found, &mut asked)? {
                        break target;
                    }
                }
                Err(error) if error.kind() == ErrorKind::NotFound => break Target::New,
                Err(error) => return Err(failed("write it")(error)),
            }
        };
        let path = path.to_owned();
        Ok(Output { path, target })
    }

    /// Its name, as the user gave it.
    pub fn name(&self) -> String {
        self.path.display().to_string()
    }

    /// Writes a file: into a new one beside it, which takes its name once all is on the disk.
    pub fn write(self, fill: impl FnOnce(&mut dyn Write) -> io::Result<()>) -> Outcome<()> {
        let failed = |error: io::Error| Failure::of_io(&self.path, "write it", &error);
        // A link stays a link, and what it names is replaced.
        let (place, old) = match &self.target {
            Target::Stream => return through(&self.path, fill).map_err(failed),
            Target::New => (&self.path, None),
            Target::Old(locked) => (&locked.place, Some(&locked.found)),
        };
        let beside = filled(place, old, fill).map_err(failed)?;
        self.is_as_it_was()?;
        beside.take_name_of(place).map_err(failed)?;
        sync_folder(place);
        Ok(())
    }

    /// Refuses to replace what others have written since the claim.
    fn is_as_it_was(&self) -> Outcome<()> {
        let as_it_was = match &self.target {
            Target::Stream => true,
            Target::New => {
                fs::symlink_metadata(&self.path).map_or(true, |found| found.is_symlink())
            }
            Target::Old(locked) => locked.is_as_it_was(),
        };
        if as_it_was {
            return Ok(());
        }
        Err(Failure::of_file(
            &self.path,
            "another program has changed it meanwhile; it is left as it is now, and nothing was written",
        ))
    }
}

/// What is at a path that exists; none where it has gone or was replaced while it was waited for.
fn existing(path: &Path, found: &Metadata, asked: &mut Asked) -> Outcome<Option<Target>> {
    if found.is_dir() {
        return Err(Failure::of_file(path, "it is a folder; name a file"));
    }
    if !found.is_file() {
        return Ok(Some(Target::Stream));
    }
    if found.permissions().readonly() {
        let why = "it may not be written: it is marked as read-only";
        return Err(Failure::of_file(path, why));
    }
    Ok(Locked::take(path, asked)?.map(|locked| Target::Old(Box::new(locked))))
}

/// Refuses an output that is one of the inputs, which it would destroy.
pub fn is_apart(output: &Path, inputs: &[(&str, &Path)]) -> Outcome<()> {
    let Ok(place) = fs::canonicalize(output) else {
        return Ok(());
    };
    let same = inputs
        .iter()
        .find(|(_, input)| fs::canonicalize(input).is_ok_and(|input| input == place));
    match same {
        Some((name, _)) if place.is_file() => Err(Failure::of_file(
            output,
            format_args!("it is also {name}, which would be lost; give the output another name"),
        )),
        _ => Ok(()),
    }
}

fn through(path: &Path, fill: impl FnOnce(&mut dyn Write) -> io::Result<()>) -> io::Result<()> {
    let mut output = BufWriter::new(OpenOptions::new().write(true).open(path)?);
    fill(&mut output)?;
    output.flush()
}

/// A new file beside a place, with its content on the disk and the old one's mode and owner.
fn filled(
    place: &Path,
    old: Option<&Metadata>,
    fill: impl FnOnce(&mut dyn Write) -> io::Result<()>,
) -> io::Result<Beside> {
    let (beside, file) = Beside::create(place)?;
    if let Some(old) = old {
        file.set_permissions(old.permissions())?;
        // Where the system lets it.
        let _ = fchown(&file, Some(old.uid()), Some(old.gid()));
    }
    let mut output = BufWriter::new(file);
    fill(&mut output)?;
    output.flush()?;
    progress::timed("waiting for the disk", || output.get_ref().sync_all())?;
    Ok(beside)
}

/// So that the new name is on the disk, too. Some file systems cannot, and the file is whole either way.
fn sync_folder(path: &Path) {
    let folder = match path.parent() {
        Some(folder) if !folder.as_os_str().is_empty() => folder,
        _ => Path::new("."),
    };
    let _ = File::open(folder).and_then(|folder| folder.sync_all());
}
