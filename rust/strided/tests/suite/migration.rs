//! The table of `rust/README.md` for users of strided-rs: it names all that
//! strided-rs's gather and scatter make public.

use std::path::{Path, PathBuf};
use strided::{
    GatherPlan, GatherSpec, OperandScatterPlan, Rule, ScatterSpec, StridedMut, StridedRef,
};

const PAGE: &str = include_str!("../../../README.md");
const MODULE: &str = include_str!("../../src/strided_basic.rs");
const ERRORS: &str = include_str!("../../src/strided_basic/error.rs");

/// The public items of strided-rs's gather_plan.rs.
const ITEMS: [&str; 32] = [
    "GatherSpec",
    "GatherSpec.offset_dims",
    "GatherSpec.collapsed_slice_dims",
    "GatherSpec.start_index_map",
    "GatherSpec.index_vector_dim",
    "GatherSpec.slice_sizes",
    "GatherIndex",
    "GatherIndex::to_i64",
    "GatherPlan",
    "ScatterSpec",
    "ScatterSpec.update_window_dims",
    "ScatterSpec.inserted_window_dims",
    "ScatterSpec.scatter_dims_to_operand_dims",
    "ScatterSpec.index_vector_dim",
    "DynamicSlicePlan",
    "DynamicUpdateSlicePlan",
    "ScatterPlan",
    "GatherPlan::compile",
    "GatherPlan::spec",
    "GatherPlan::dest_dims",
    "GatherPlan::execute",
    "DynamicSlicePlan::compile",
    "DynamicSlicePlan::execute",
    "DynamicUpdateSlicePlan::compile",
    "DynamicUpdateSlicePlan::execute",
    "ScatterPlan::compile",
    "ScatterPlan::execute",
    // What these take and give.
    "RawStridedRef",
    "RawStridedMut",
    "Exec",
    "Result",
    "StridedError",
];

/// How many of the items gather_plan.rs makes public itself.
const OWN: usize = 27;

/// The refusals that gather_plan.rs gives.
const REFUSALS: [&str; 7] = [
    "StrideLengthMismatch",
    "OffsetOverflow",
    "NonInjectiveOutputLayout",
    "PlanLayoutMismatch",
    "RankMismatch",
    "InvalidAxis",
    "ShapeMismatch",
];

/// The two cells of each row of the table.
fn rows() -> Vec<(&'static str, &'static str)> {
    let (_, section) = PAGE.split_once("\n## Coming from strided-rs\n").unwrap();
    let (section, _) = section.split_once("\n## ").unwrap();
    let rows = section.lines().filter_map(|line| line.strip_prefix("| "));
    rows.map(|row| row.trim_end_matches(" |").split_once(" | ").unwrap())
        .collect()
}

/// Whether a text has a name that is not part of a longer one.
fn names(text: &str, name: &str) -> bool {
    let part = |c: char| c.is_alphanumeric() || c == '_';
    text.match_indices(name)
        .any(|(at, _)| !text[..at].ends_with(part) && !text[at + name.len()..].starts_with(part))
}

#[test]
fn every_public_name_has_its_row() {
    let rows = rows();
    for item in ITEMS {
        let found = |row: &str| match item.split_once('.') {
            Some((spec, field)) => row.starts_with(&format!("`{spec}`:")) && names(row, field),
            None => names(row, item),
        };
        assert!(rows.iter().any(|(row, _)| found(row)), "{item}");
    }
    for refusal in REFUSALS {
        let found = |row: &str| row.contains("StridedError::") && names(row, refusal);
        assert!(rows.iter().any(|(row, _)| found(row)), "{refusal}");
    }
}

#[test]
fn what_is_missing_is_named() {
    let row = |name: &str| rows().into_iter().find(|(row, _)| names(row, name));
    let missing = |cell: &str| names(cell, "missing");
    for name in [
        "DynamicSlicePlan::compile",
        "DynamicUpdateSlicePlan::compile",
    ] {
        let (_, here) = row(name).expect(name);
        let (module, root) = here.split_once(" | ").expect(name);
        assert!(missing(module) && missing(root), "{name}");
    }
    for name in ["Exec", "GatherIndex", "ShapeMismatch", "any rank"] {
        let (_, here) = row(name).expect(name);
        assert!(missing(here), "{name}");
    }
}

/// What of strided-rs the module of its name has; the rest is missing there.
#[test]
fn the_module_has_the_names() {
    let (_, exported) = MODULE.split_once("\npub use ").unwrap();
    for item in ITEMS.iter().filter(|item| !item.contains(['.', ':'])) {
        let missing = item.starts_with("Dynamic");
        assert_eq!(names(exported, item), !missing, "{item}");
    }
    for refusal in REFUSALS {
        assert!(names(ERRORS, refusal), "{refusal}");
    }
}

/// strided-rs's source, where it is at hand.
fn original() -> Option<String> {
    let beside = || Path::new(env!("CARGO_MANIFEST_DIR")).join("../../../shared/docs/src");
    let folder = std::env::var_os("STRIDED_RS_SRC").map_or_else(beside, PathBuf::from);
    std::fs::read_to_string(folder.join("strided-basic/src/gather_plan.rs")).ok()
}

#[test]
fn the_names_are_those_of_the_source() {
    let Some(source) = original() else {
        println!("strided-rs's source is not at hand");
        return;
    };
    let mut found = Vec::new();
    let mut within = "";
    for line in source.lines() {
        let word = |rest: &'static str| line.strip_prefix(rest).map(first_word);
        if let Some(name) = word("pub struct ").or_else(|| word("pub trait ")) {
            found.push(name.to_string());
            within = name;
        } else if let Some(name) = word("impl ").or_else(|| word("struct ")) {
            within = name;
        } else if let Some(name) = word("    pub fn ") {
            found.push(format!("{within}::{name}"));
        } else if let (Some(name), "GatherIndex") = (word("    fn "), within) {
            if !found.contains(&format!("{within}::{name}")) {
                found.push(format!("{within}::{name}"));
            }
        } else if let Some(name) = word("    pub ").filter(|name| !name.is_empty()) {
            found.push(format!("{within}.{name}"));
        }
    }
    let mut own = ITEMS[..OWN].to_vec();
    own.sort();
    found.sort();
    assert_eq!(found, own);
    for name in &ITEMS[OWN..] {
        assert!(names(&source, name), "{name}");
    }
}

fn first_word(text: &str) -> &str {
    let end = text.find(|c: char| !c.is_alphanumeric() && c != '_');
    &text[..end.unwrap_or(text.len())]
}

/// What the table gives in place of a dynamic slice.
#[test]
fn a_slice_by_one_start() {
    let spec = GatherSpec {
        offset_dims: vec![0, 1],
        collapsed_slice_dims: vec![],
        start_index_map: vec![0, 1],
        index_vector_dim: 0,
        slice_sizes: vec![2, 2],
    };
    let plan = GatherPlan::compile(&[3, 3], &[1, 3], &[2], &[1], &[2, 2], &[1, 2], spec).unwrap();
    let starts = [9, -1].map(i64::from);
    let mut window = [0; 4];
    plan.execute(
        &mut StridedMut::new(&mut window, &[2, 2], &[1, 2], 0),
        &StridedRef::new(&[0, 1, 2, 10, 11, 12, 20, 21, 22], &[3, 3], &[1, 3], 0),
        &StridedRef::new(&starts, &[2], &[1], 0),
    )
    .unwrap();
    assert_eq!(window, [1, 2, 11, 12]);
}

/// What the table gives in place of a dynamic update of a slice.
#[test]
fn a_window_overwritten_at_one_start() {
    let spec = ScatterSpec {
        update_window_dims: vec![0, 1],
        inserted_window_dims: vec![],
        scatter_dims_to_operand_dims: vec![0, 1],
        index_vector_dim: 0,
    };
    let (dims, strides) = ([3, 3], [1, 3]);
    let plan = OperandScatterPlan::compile(
        &dims,
        &strides,
        &[2],
        &[1],
        &[2, 2],
        &[1, 2],
        &dims,
        &strides,
        spec,
    )
    .unwrap();
    let mut grid = [0; 9];
    plan.execute_by(
        &mut StridedMut::new(&mut grid, &dims, &strides, 0),
        &StridedRef::new(&[0, 1, 2, 10, 11, 12, 20, 21, 22], &dims, &strides, 0),
        &StridedRef::new(&[9, -1], &[2], &[1], 0),
        &StridedRef::new(&[-1, -2, -3, -4], &[2, 2], &[1, 2], 0),
        Rule::Replace,
    )
    .unwrap();
    assert_eq!(grid, [0, -1, -2, 10, -3, -4, 20, 21, 22]);
}
