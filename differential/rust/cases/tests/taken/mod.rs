//! What `compare` takes for an answer.

use std::fs;
use std::path::PathBuf;
use std::process::Command;

/// Whether `compare` takes this line from a side of this name, beside a right
/// one of the oracle.
pub fn is_taken(test: &str, case: &str, right: &str, name: &str, line: &str) -> bool {
    let folder = PathBuf::from(env!("CARGO_TARGET_TMPDIR")).join(test);
    fs::create_dir_all(&folder).unwrap();
    let file = |name: &str, text: &str| {
        let path = folder.join(name);
        fs::write(&path, format!("one {text}\n")).unwrap();
        path.display().to_string()
    };
    let status = Command::new(env!("CARGO_BIN_EXE_compare"))
        .arg(file("cases", case))
        .arg(format!("oracle={}", file("first", right)))
        .arg(format!("{name}={}", file("second", line)))
        .output()
        .unwrap()
        .status;
    match status.code() {
        Some(0) => true,
        Some(1) => false,
        _ => panic!("{status}: {case}"),
    }
}
