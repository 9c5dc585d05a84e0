//! Writes the modules of the Rust original to `original.rs`: their files lie
//! outside the repository, in the folder that STRIDED_RS_SRC names. Two files
//! name more than is at hand, so that of them single items are taken, as they
//! stand there, to `fused.rs`.

use std::path::{Path, PathBuf};
use std::{env, fs, io};

const FOLDER: &str = "STRIDED_RS_SRC";

/// A file, and how the first line of each item begins.
const ITEMS: [(&str, &[&str]); 2] = [
    (
        "raw_ops",
        &[
            "pub(crate) struct FusedAxis ",
            "const EMPTY_AXIS:",
            "fn fuse_axes(",
        ],
    ),
    ("kernel", &["pub(crate) fn total_len("]),
];

fn main() -> io::Result<()> {
    println!("cargo::rerun-if-env-changed={FOLDER}");
    let (Some(folder), Some(out)) = (env::var_os(FOLDER), env::var_os("OUT_DIR")) else {
        // Cargo shows the line and fails.
        println!("cargo::error={FOLDER} is not set: differential/build and bench/calls set it");
        return Ok(());
    };
    let file = |name: &str| Path::new(&folder).join(format!("strided-basic/src/{name}.rs"));
    let mut modules = String::new();
    for name in ["gather_plan", "inline"] {
        let file = file(name);
        modules += &format!("#[allow(dead_code, clippy::all)]\n#[path = {file:?}]\nmod {name};\n");
    }
    fs::write(Path::new(&out).join("original.rs"), modules)?;
    let mut items = String::new();
    for (name, heads) in ITEMS {
        items += &taken(&file(name), heads)?;
    }
    fs::write(Path::new(&out).join("fused.rs"), items)
}

/// The text of the items of a file that begin so.
fn taken(file: &PathBuf, heads: &[&str]) -> io::Result<String> {
    println!("cargo::rerun-if-changed={}", file.display());
    let text = fs::read_to_string(file)?;
    let lines: Vec<&str> = text.lines().collect();
    let mut taken = String::new();
    for head in heads {
        match item(&lines, head) {
            Some(item) => taken += &(item.join("\n") + "\n"),
            None => println!("cargo::error={} has no `{head}`", file.display()),
        }
    }
    Ok(taken)
}

/// From the item's attributes to the line that closes it.
fn item<'a>(lines: &'a [&'a str], head: &str) -> Option<&'a [&'a str]> {
    let first = lines.iter().position(|line| line.starts_with(head))?;
    let attribute = |line: &&&str| line.starts_with("#[");
    let attributes = lines[..first].iter().rev().take_while(attribute).count();
    let closes = |line: &&str| matches!(*line, "}" | "};");
    let last = first + lines[first..].iter().position(closes)?;
    Some(&lines[first - attributes..=last])
}
