//! A job as text: lines `key = value`, with comments from `#` to the end of a line.

mod parse;
mod print;
mod values;

pub use parse::{axes, parse};
pub use print::{list, print};

/// Why a text is no job.
#[derive(Debug, Eq, PartialEq)]
pub struct TextError {
    /// The line, from 1; none where something is missing.
    pub line: Option<usize>,
    /// What is wrong.
    pub what: String,
}

impl TextError {
    fn at(line: usize, what: impl Into<String>) -> TextError {
        TextError {
            line: Some(line),
            what: what.into(),
        }
    }

    fn missing(what: impl Into<String>) -> TextError {
        TextError {
            line: None,
            what: what.into(),
        }
    }
}

#[cfg(test)]
#[allow(clippy::unwrap_used, clippy::unreachable)]
mod tests {
    use super::*;
    use strided::{ElementType, Job};

    const GATHER: &str = "\
# Windows of two of five cells, at two starts.
kind = gather
element = i32   # wraps
operand.extents = 5
index.extents = [2]
dest.extents = 2, 2
dest.strides = row-major
dest.offset = -3
offset_dims = [0]
collapsed_slice_dims =
start_index_map = 0
index_vector_dim = 1
slice_sizes = 2
";

    const SCATTER: &str = "\
kind = scatter
element = f64
index.extents = 3
updates.extents = 3
dest.extents = 5
update_window_dims = []
inserted_window_dims = 0
scatter_dims_to_operand_dims = 0
index_vector_dim = 1
";

    fn refused(text: &str) -> (Option<usize>, String) {
        let TextError { line, what } = parse(text).unwrap_err();
        (line, what)
    }

    #[test]
    fn left_out_strides_go_first_axis_fastest() {
        let Job::Gather(job) = parse(GATHER).unwrap() else {
            unreachable!()
        };
        assert_eq!(job.element, ElementType::I32);
        assert_eq!(job.operand.strides, [1]);
        assert_eq!(job.dest.strides, [2, 1]);
        assert_eq!(job.dest.offset, -3);
        let column = GATHER.replace("dest.strides = row-major\n", "");
        let Job::Gather(job) = parse(&column).unwrap() else {
            unreachable!()
        };
        assert_eq!(job.dest.strides, [1, 2]);
    }

    #[test]
    fn what_is_printed_is_the_same_job() {
        for text in [GATHER, SCATTER] {
            let job = parse(text).unwrap();
            assert_eq!(parse(&print(&job)).unwrap(), job);
        }
    }

    #[test]
    fn mistakes_are_told_with_their_line() {
        let with = |old: &str, new: &str| refused(&GATHER.replace(old, new));
        assert_eq!(with("element = i32", "element = i16").0, Some(3));
        assert_eq!(
            with("operand.extents = 5", "operand.extents = -5").0,
            Some(4)
        );
        assert_eq!(with("slice_sizes = 2", "slice_sizes = 2,,3").0, Some(13));
        assert_eq!(with("slice_sizes = 2", "slice_sizes").0, Some(13));
        assert_eq!(with("slice_sizes", "slice_size").0, Some(13));
        assert_eq!(with("slice_sizes = 2", "kind = gather").0, Some(13));
        assert_eq!(with("index.extents = [2]", "index.extents = [2").0, Some(5));
        assert_eq!(
            with("index_vector_dim = 1", "index_vector_dim = 1, 2").0,
            Some(12)
        );
        let (line, what) = with("slice_sizes = 2\n", "");
        assert_eq!(line, None);
        assert!(what.contains("slice_sizes"));
        assert!(refused("").1.contains("kind"));
        assert_eq!(
            with("extents = 5", "extents = 18446744073709551615, 2").0,
            Some(4)
        );
    }

    #[test]
    fn keys_of_the_other_kind_are_refused() {
        let text = SCATTER.replace("index.extents", "operand.extents");
        let (line, what) = refused(&text);
        assert_eq!(line, Some(3));
        assert!(what.contains("operand.extents"), "{what}");
    }
}
