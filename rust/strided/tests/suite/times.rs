//! What the pages say about the time that a call takes.

use strided::{
    GatherPlan, GatherSpec, ScatterPlan, ScatterSpec, StridedError, StridedMut, StridedRef,
};

const HEADER: &str = include_str!("../../../../include/strided.h");
const DOCUMENTATION: &str = include_str!("../../src/lib.rs");
const PAGE: &str = include_str!("../../../README.md");
const TOOL_PAGE: &str = include_str!("../../../strided-tool/README.md");
const PERFORMANCE: &str = include_str!("../../../../docs/PERFORMANCE.md");

/// A scatter of as many updates to a grid of three, all from one element.
fn repeated(count: usize) -> ScatterPlan {
    let spec = ScatterSpec {
        update_window_dims: vec![],
        inserted_window_dims: vec![0],
        scatter_dims_to_operand_dims: vec![0],
        index_vector_dim: 1,
    };
    ScatterPlan::compile(&[count], &[0], &[count], &[0], &[3], &[1], spec).unwrap()
}

#[test]
fn one_element_can_be_many_updates() {
    let count = 1 << 16;
    let mut grid = [0; 3];
    repeated(count)
        .execute(
            &mut StridedMut::new(&mut grid, &[3], &[1], 0),
            &StridedRef::new(&[1], &[count], &[0], 0),
            &StridedRef::new(&[1], &[count], &[0], 0),
        )
        .unwrap();
    assert_eq!(grid, [0, 1 << 16, 0]);
    // Accepted too; the call would not end.
    assert_eq!(repeated(1 << 62).dest_dims(), [3]);
}

#[test]
fn a_gather_has_no_more_cells_than_elements() {
    let spec = GatherSpec {
        offset_dims: vec![],
        collapsed_slice_dims: vec![0],
        start_index_map: vec![0],
        index_vector_dim: 1,
        slice_sizes: vec![1],
    };
    let count = 1 << 40;
    let compile = |stride| {
        let spec = spec.clone();
        GatherPlan::compile(&[3], &[1], &[count], &[0], &[count], &[stride], spec)
    };
    let refusal = compile(0).unwrap_err();
    assert_eq!(refusal, StridedError::NonInjectiveOutputLayout);
    let refusal = compile(1).unwrap().execute(
        &mut StridedMut::new(&mut [0; 3], &[count], &[1], 0),
        &StridedRef::new(&[1, 2, 3], &[3], &[1], 0),
        &StridedRef::new(&[1], &[count], &[0], 0),
    );
    let outside = StridedError::BufferBounds {
        view: 3,
        bytes_needed: 0,
    };
    assert_eq!(refusal, Err(outside));
}

/// A page in one line, without the marks of a comment.
fn in_one_line(page: &str) -> String {
    let words = page.split_whitespace().filter(|word| *word != "//!");
    words.collect::<Vec<_>>().join(" ")
}

#[test]
fn the_pages_say_so() {
    for page in [HEADER, DOCUMENTATION, PAGE] {
        let text = in_one_line(page);
        assert!(text.contains("An accepted call takes as long as its plan has cells"));
        assert!(text.contains("strides of 0 can name 2^62 updates in a few elements"));
    }
    let text = in_one_line(TOOL_PAGE);
    assert!(text.contains("strides of 0 can name 2^62 updates in a few elements"));
    assert!(text.contains(
        "more than 2^36 updates, somewhat more than a minute, is refused unless `--yes` is given"
    ));
}

#[test]
fn small_calls_are_told_in_nanoseconds() {
    let (_, section) = PERFORMANCE
        .split_once("\n## What a small call costs\n")
        .unwrap();
    for kind in ["gather", "scatter"] {
        for window in ["1×1", "5×2", "10×10"] {
            for element in ["i32", "f64"] {
                let row = format!("\n| {kind} {window} | {element} | ");
                let (_, numbers) = section.split_once(&row).expect(&row);
                let numbers = numbers.lines().next().unwrap().trim_end_matches(" |");
                let numbers = numbers.split(" | ").map(str::parse::<f64>);
                assert_eq!(numbers.filter(Result::is_ok).count(), 3, "{row}");
            }
        }
    }
    assert!(section.contains("many starts belong in one call"));
}
