//! Finds libstrided.a, or has it made, and links it.

#[path = "build/repository.rs"]
mod repository;

use repository::{ARCHIVE, PLACE};
use std::env;
use std::path::{Path, PathBuf};

const FOLDER: &str = "STRIDED_LIB_DIR";
const ADVICE: &str =
    "set STRIDED_LIB_DIR to a folder that holds libstrided.a, or run `./library` in the repository";

fn main() {
    println!("cargo::rerun-if-changed=build.rs");
    println!("cargo::rerun-if-env-changed={FOLDER}");
    match find().and_then(of_this_version) {
        Ok(folder) => link(&folder),
        // Cargo shows the line and fails.
        Err(line) => println!("cargo::error={line}"),
    }
}

/// The same folder, where its archive is of the version that the crate is for.
fn of_this_version(folder: PathBuf) -> Result<PathBuf, String> {
    match repository::is_for_this_crate(&folder.join(ARCHIVE)) {
        Ok(()) => Ok(folder),
        Err(line) => Err(format!("{line}: {ADVICE}")),
    }
}

fn link(folder: &Path) {
    let archive = folder.join(ARCHIVE);
    println!("cargo::rerun-if-changed={}", archive.display());
    println!("cargo::rustc-link-search=native={}", folder.display());
    println!("cargo::rustc-link-lib=static=strided");
}

/// The folder that holds the archive, or a line that says what is missing.
fn find() -> Result<PathBuf, String> {
    match env::var_os(FOLDER) {
        Some(folder) if !folder.is_empty() => named(folder.into()),
        _ => in_repository(),
    }
}

fn named(folder: PathBuf) -> Result<PathBuf, String> {
    let shown = folder.display();
    if folder.is_relative() {
        return Err(format!("{FOLDER} is {shown}: give it as an absolute path"));
    }
    if !folder.join(ARCHIVE).is_file() {
        return Err(format!("{FOLDER} is {shown}, which holds no {ARCHIVE}"));
    }
    Ok(folder)
}

fn in_repository() -> Result<PathBuf, String> {
    // Asked when the script runs: copies of this crate may share the compiled script.
    let package = env::var_os("CARGO_MANIFEST_DIR").unwrap_or_default();
    let root = Path::new(&package).join("../..");
    // A source that changes has the script run, and the archive compared, again.
    for source in repository::sources(&root).unwrap_or_default() {
        println!("cargo::rerun-if-changed={}", source.display());
    }
    match repository::prepare(&root) {
        Ok(None) => {}
        Ok(Some(made)) => println!("cargo::warning={made}, which takes some ten minutes"),
        Err(line) => return Err(format!("{line}: {ADVICE}")),
    }
    Ok(root.join(PLACE))
}
