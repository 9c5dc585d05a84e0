//! What the build script decides about the archive of its repository, on
//! folders that are made for it, with commands that prove nothing.

#[path = "../../build/repository.rs"]
pub mod repository;

use repository::{is_for_this_crate, prepare, state, State, ARCHIVE, PLACE, VERSION};
use std::fs::{self, File};
use std::os::unix::fs::PermissionsExt;
use std::path::{Path, PathBuf};
use std::sync::{Mutex, MutexGuard, PoisonError};
use std::time::{Duration, SystemTime};

const LIBRARY: &str = include_str!("../../../../library");

/// A repository with one crate, all of it made at one time, and its archive.
fn repository(name: &str) -> PathBuf {
    let root = Path::new(env!("CARGO_TARGET_TMPDIR")).join(name);
    if root.exists() {
        fs::remove_dir_all(&root).unwrap();
    }
    for folder in [
        "crates/one/src",
        "crates/one/specs/more",
        "crates/one/proofs",
        PLACE,
    ] {
        fs::create_dir_all(root.join(folder)).unwrap();
    }
    for file in [
        "crates.txt",
        "crates/one/src/one.rt",
        "crates/one/specs/more/Law.antt",
        "crates/one/proofs/one.antt",
    ] {
        fs::write(root.join(file), "").unwrap();
    }
    fs::write(archive(&root), "made before").unwrap();
    for path in all_under(&root) {
        set_time(&path, 1000);
    }
    root
}

fn archive(root: &Path) -> PathBuf {
    root.join(PLACE).join(ARCHIVE)
}

fn all_under(folder: &Path) -> Vec<PathBuf> {
    let mut found = vec![folder.to_path_buf()];
    for entry in fs::read_dir(folder).unwrap() {
        let path = entry.unwrap().path();
        match path.is_dir() {
            true => found.extend(all_under(&path)),
            false => found.push(path),
        }
    }
    found
}

fn set_time(path: &Path, seconds: u64) {
    let time = SystemTime::UNIX_EPOCH + Duration::from_secs(seconds);
    File::open(path).unwrap().set_modified(time).unwrap();
}

/// For tests that run a command: a process that one of them starts holds the
/// file that another is writing, which then cannot be run.
fn alone() -> MutexGuard<'static, ()> {
    static ALONE: Mutex<()> = Mutex::new(());
    ALONE.lock().unwrap_or_else(PoisonError::into_inner)
}

/// A command `library` for the repository, which leaves a trace of its run.
fn command(root: &Path, lines: &str) {
    let path = root.join("library");
    fs::write(&path, format!("#!/bin/sh\necho run >>ran\n{lines}\n")).unwrap();
    fs::set_permissions(path, fs::Permissions::from_mode(0o755)).unwrap();
}

fn was_run(root: &Path) -> bool {
    root.join("ran").exists()
}

#[test]
fn an_archive_as_old_as_its_sources_is_ready() {
    let root = repository("archive-ready");
    command(&root, "exit 1");
    assert_eq!(state(&root).unwrap(), State::Ready);
    assert_eq!(prepare(&root), Ok(None));
    assert!(!was_run(&root));
}

#[test]
fn a_newer_source_makes_it_old() {
    let root = repository("archive-old");
    for source in [
        "crates.txt",
        "crates/one/src",
        "crates/one/src/one.rt",
        "crates/one/specs/more",
        "crates/one/specs/more/Law.antt",
    ] {
        let path = root.join(source);
        set_time(&path, 1001);
        assert_eq!(state(&root).unwrap(), State::Old(path.clone()));
        set_time(&path, 1000);
    }
    set_time(&archive(&root), 999);
    assert!(matches!(state(&root).unwrap(), State::Old(_)));
}

#[test]
fn other_files_do_not_count() {
    let root = repository("archive-others");
    set_time(&root.join("crates/one/proofs/one.antt"), 2000);
    set_time(&root.join("crates/one/proofs"), 2000);
    assert_eq!(state(&root).unwrap(), State::Ready);
}

#[test]
fn the_sources_are_those_of_the_command() {
    let find = "find crates.txt crates/*/src crates/*/specs -newer \"$archive\"";
    assert!(LIBRARY.contains(find));
    let root = repository("archive-sources");
    let expected = ["crates/one/specs", "crates/one/src", "crates.txt"];
    let expected = expected.map(|name| root.join(name));
    assert_eq!(repository::sources(&root).unwrap(), expected);
}

#[test]
fn an_old_archive_is_made_anew() {
    let _alone = alone();
    let root = repository("archive-anew");
    command(&root, "echo made now >target/staticlib/libstrided.a");
    set_time(&root.join("crates/one/src/one.rt"), 1001);
    let line = "libstrided.a is older than crates/one/src/one.rt: ./library has made it";
    assert_eq!(prepare(&root), Ok(Some(line.to_string())));
    assert_eq!(fs::read_to_string(archive(&root)).unwrap(), "made now\n");
    assert_eq!(prepare(&root), Ok(None));
}

#[test]
fn a_missing_archive_is_made() {
    let _alone = alone();
    let root = repository("archive-missing");
    command(&root, "echo made now >target/staticlib/libstrided.a");
    fs::remove_file(archive(&root)).unwrap();
    assert_eq!(state(&root).unwrap(), State::Missing);
    let line = "libstrided.a is missing: ./library has made it";
    assert_eq!(prepare(&root), Ok(Some(line.to_string())));
}

#[test]
fn an_old_archive_that_cannot_be_made_is_refused() {
    let _alone = alone();
    let root = repository("archive-refused");
    set_time(&root.join("crates.txt"), 1001);
    let refused = |failure: &str| {
        let line = format!("libstrided.a is older than crates.txt, and {failure}");
        assert_eq!(prepare(&root), Err(line));
    };
    refused("this crate stands outside its repository");
    command(&root, "echo rt is not on the PATH >&2\nexit 1");
    refused("./library has failed (rt is not on the PATH)");
    command(&root, "rm target/staticlib/libstrided.a");
    refused("./library has ended without it");
}

#[test]
fn outside_a_repository_there_is_nothing_to_compare() {
    let root = repository("archive-outside");
    fs::remove_file(root.join("crates.txt")).unwrap();
    set_time(&root.join("crates/one/src/one.rt"), 2000);
    assert_eq!(prepare(&root), Ok(None));
}

#[test]
fn sources_that_cannot_be_read_are_refused() {
    let root = repository("archive-unread");
    fs::remove_dir_all(root.join("crates")).unwrap();
    let line = prepare(&root).unwrap_err();
    assert!(line.starts_with("libstrided.a and its sources cannot be compared ("));
}

#[test]
fn an_archive_of_another_version_is_refused() {
    let root = repository("archive-version");
    let path = archive(&root);
    let answer = |content: &str| {
        fs::write(&path, content).unwrap();
        is_for_this_crate(&path)
    };
    let other = VERSION + 1;
    let line = |found: &str| {
        let shown = path.display();
        Err(format!(
            "{shown} has {found} of the exports, and this crate is for {VERSION}"
        ))
    };
    assert_eq!(answer(&format!("..strided_version_{VERSION}\0..")), Ok(()));
    assert_eq!(answer(&format!("strided_version_{VERSION}")), Ok(()));
    let newer = line(&format!("version {other}"));
    assert_eq!(answer(&format!("strided_version_{other}\0")), newer);
    let longer = line(&format!("version {VERSION}0"));
    assert_eq!(answer(&format!("strided_version_{VERSION}0")), longer);
    assert_eq!(
        answer("strided_version_\0strided_read_job"),
        line("no version")
    );
    assert_eq!(answer(""), line("no version"));
    fs::remove_file(&path).unwrap();
    assert!(is_for_this_crate(&path)
        .unwrap_err()
        .contains("cannot be read ("));
}
