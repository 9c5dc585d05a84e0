//! The archive of the repository that this crate stands in: whether it is to
//! be made, and the making. The build script and a test of it use this.

use std::fs;
use std::io;
use std::path::{Path, PathBuf};
use std::process::{Command, Output};
use std::time::SystemTime;

pub const ARCHIVE: &str = "libstrided.a";
/// Where the archive lies in the repository.
pub const PLACE: &str = "target/staticlib";

/// How the archive stands to what it is made from.
#[derive(Debug, Eq, PartialEq)]
pub enum State {
    /// There, and no source is newer.
    Ready,
    Missing,
    /// There, and this source is newer.
    Old(PathBuf),
}

/// The version of the exports that this crate is for.
pub const VERSION: u64 = 4;
/// An archive exports a function of this name and its version.
const VERSION_NAME: &[u8] = b"strided_version_";

/// Whether an archive exports the version that this crate is for; otherwise a
/// line that says what it has.
pub fn is_for_this_crate(archive: &Path) -> Result<(), String> {
    let shown = archive.display();
    let bytes = fs::read(archive).map_err(|error| format!("{shown} cannot be read ({error})"))?;
    let versions = versions(&bytes);
    if versions.contains(&VERSION) {
        return Ok(());
    }
    let found = match versions.last() {
        Some(version) => format!("has version {version} of the exports"),
        None => "has no version of the exports".to_string(),
    };
    Err(format!("{shown} {found}, and this crate is for {VERSION}"))
}

/// The versions that stand behind the function's name in an archive.
fn versions(archive: &[u8]) -> Vec<u64> {
    let names = archive.windows(VERSION_NAME.len()).enumerate();
    names
        .filter(|(_, bytes)| *bytes == VERSION_NAME)
        .filter_map(|(place, _)| {
            let digits = archive[place + VERSION_NAME.len()..].iter();
            let digits = digits.take_while(|byte| byte.is_ascii_digit());
            let text: String = digits.map(|byte| char::from(*byte)).collect();
            text.parse().ok()
        })
        .collect()
}

/// What the archive is made from, as the command `library` has it: crates.txt,
/// and the folders src and specs of each crate. None where the crate stands
/// outside its repository.
pub fn sources(root: &Path) -> io::Result<Vec<PathBuf>> {
    let list = root.join("crates.txt");
    if !list.try_exists()? {
        return Ok(Vec::new());
    }
    let mut found = vec![list];
    for entry in fs::read_dir(root.join("crates"))? {
        let package = entry?.path();
        let folders = ["src", "specs"].map(|name| package.join(name));
        found.extend(folders.into_iter().filter(|folder| folder.is_dir()));
    }
    found.sort();
    Ok(found)
}

pub fn state(root: &Path) -> io::Result<State> {
    let archive = root.join(PLACE).join(ARCHIVE);
    if !archive.is_file() {
        return Ok(State::Missing);
    }
    let made = fs::metadata(archive)?.modified()?;
    for source in sources(root)? {
        if let Some(newer) = newer_in(&source, made)? {
            return Ok(State::Old(newer));
        }
    }
    Ok(State::Ready)
}

/// What is newer than a time, of a file, or of a folder with all that it
/// holds. A folder's own time counts too, for what was removed from it.
fn newer_in(path: &Path, time: SystemTime) -> io::Result<Option<PathBuf>> {
    let about = fs::symlink_metadata(path)?;
    if about.modified()? > time {
        return Ok(Some(path.to_path_buf()));
    }
    if about.is_dir() {
        for entry in fs::read_dir(path)? {
            let newer = newer_in(&entry?.path(), time)?;
            if newer.is_some() {
                return Ok(newer);
            }
        }
    }
    Ok(None)
}

/// Makes the archive where it is missing or old. Gives a line for the user
/// where it was made, or, as an error, why it could not be.
pub fn prepare(root: &Path) -> Result<Option<String>, String> {
    let why = match state(root) {
        Ok(State::Ready) => return Ok(None),
        Ok(State::Missing) => "is missing".to_string(),
        Ok(State::Old(source)) => {
            let shown = source.strip_prefix(root).unwrap_or(&source);
            format!("is older than {}", shown.display())
        }
        Err(error) => {
            return Err(format!(
                "{ARCHIVE} and its sources cannot be compared ({error})"
            ))
        }
    };
    match make(root) {
        Ok(()) => Ok(Some(format!("{ARCHIVE} {why}: ./library has made it"))),
        Err(failure) => Err(format!("{ARCHIVE} {why}, and {failure}")),
    }
}

/// Has the repository's command prove and make the archive.
fn make(root: &Path) -> Result<(), String> {
    if !root.join("library").is_file() {
        return Err("this crate stands outside its repository".to_string());
    }
    let output = match Command::new("./library").current_dir(root).output() {
        Err(error) => return Err(format!("./library cannot be started ({error})")),
        Ok(output) => output,
    };
    if !output.status.success() {
        return Err(format!("./library has failed ({})", last_line(&output)));
    }
    match root.join(PLACE).join(ARCHIVE).is_file() {
        true => Ok(()),
        false => Err("./library has ended without it".to_string()),
    }
}

/// What a command said last, or its status where it said nothing.
fn last_line(output: &Output) -> String {
    let said = [&output.stdout[..], &output.stderr[..]].concat();
    let said = String::from_utf8_lossy(&said);
    match said.lines().rfind(|line| !line.trim().is_empty()) {
        Some(line) => line.trim().to_string(),
        None => output.status.to_string(),
    }
}
