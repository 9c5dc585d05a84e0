//! The refusals, in the shapes that strided-rs gives them.

use core::fmt;

use crate::ffi::Answer;

/// Why a call was refused. A refusal changes no element of a destination.
///
/// ```
/// use strided::strided_basic::{GatherPlan, GatherSpec, StridedError};
///
/// let spec = GatherSpec {
///     offset_dims: vec![0],
///     collapsed_slice_dims: vec![],
///     start_index_map: vec![0],
///     index_vector_dim: 1,
///     slice_sizes: vec![2],
/// };
/// // Two starts and windows of two cells make a destination of 2 by 2.
/// let refusal = GatherPlan::compile(&[5], &[1], &[2], &[1], &[2, 3], &[1, 2], spec).unwrap_err();
/// assert_eq!(refusal, StridedError::ShapeMismatch(vec![2, 3], vec![2, 2]));
/// ```
#[derive(Clone, Debug, Eq, PartialEq)]
#[non_exhaustive]
pub enum StridedError {
    /// The extents and the strides of a layout differ in length.
    StrideLengthMismatch,
    /// A product of extents, a span, a step or a reset does not fit.
    OffsetOverflow,
    /// The destination is not nested, so that two of its coordinates might
    /// name one element.
    NonInjectiveOutputLayout,
    /// Two counts differ: the one that was found, and the one that it was held
    /// against.
    RankMismatch(usize, usize),
    /// An axis is out of range or repeated, or has a window that it cannot
    /// have.
    InvalidAxis {
        /// The axis.
        axis: usize,
        /// The rank that it was held against.
        rank: usize,
    },
    /// A shape is not the expected one: the shape that was given, and the one
    /// that was expected.
    ShapeMismatch(Vec<usize>, Vec<usize>),
    /// The layout of a view is not the one that was compiled for it.
    PlanLayoutMismatch,
    /// A layout has more axes than [`RANK_LIMIT`](crate::RANK_LIMIT); strided-rs
    /// has no limit.
    RankTooLarge {
        /// The rank of the first such layout.
        rank: usize,
        /// The limit.
        limit: usize,
    },
    /// A view reaches outside its slice.
    BufferBounds,
    /// A refusal that has no name here.
    Unknown {
        /// Its number.
        number: u64,
        /// Its first value.
        a: u64,
        /// Its second value.
        b: u64,
    },
}

/// What a call gives, or why it was refused.
pub type Result<T> = core::result::Result<T, StridedError>;

impl StridedError {
    /// The library's answer about a view, which has no shapes.
    pub(super) fn check(answer: Answer) -> Result<()> {
        crate::StridedError::check(answer).map_err(|refusal| Self::of(refusal, no_shapes))
    }

    /// The same refusal. The library tells the ranks of two shapes; the shapes
    /// themselves are the caller's.
    pub(super) fn of(
        refusal: crate::StridedError,
        shapes: impl FnOnce() -> (Vec<usize>, Vec<usize>),
    ) -> Self {
        use crate::StridedError as Own;
        match refusal {
            Own::StrideLengthMismatch => Self::StrideLengthMismatch,
            Own::OffsetOverflow => Self::OffsetOverflow,
            Own::NonInjectiveOutputLayout => Self::NonInjectiveOutputLayout,
            Own::RankMismatch { count, against } => {
                Self::RankMismatch(count as usize, against as usize)
            }
            Own::InvalidAxis { axis, rank } => Self::InvalidAxis {
                axis: axis as usize,
                rank: rank as usize,
            },
            Own::ShapeMismatch { .. } => {
                let (given, expected) = shapes();
                Self::ShapeMismatch(given, expected)
            }
            Own::PlanLayoutMismatch => Self::PlanLayoutMismatch,
            Own::RankTooLarge { rank, limit } => Self::RankTooLarge {
                rank: rank as usize,
                limit: limit as usize,
            },
            Own::BufferBounds { .. } => Self::BufferBounds,
            other => Self::Unknown {
                number: other.number(),
                a: other.a(),
                b: other.b(),
            },
        }
    }
}

/// For what is never refused for its shape.
pub fn no_shapes() -> (Vec<usize>, Vec<usize>) {
    Default::default()
}

impl fmt::Display for StridedError {
    fn fmt(&self, f: &mut fmt::Formatter<'_>) -> fmt::Result {
        match self {
            Self::StrideLengthMismatch => crate::StridedError::StrideLengthMismatch.fmt(f),
            Self::OffsetOverflow => crate::StridedError::OffsetOverflow.fmt(f),
            Self::NonInjectiveOutputLayout => crate::StridedError::NonInjectiveOutputLayout.fmt(f),
            Self::RankMismatch(count, against) => {
                write!(f, "two counts disagree: {count} against {against}")
            }
            Self::InvalidAxis { axis, rank } => {
                let (axis, rank) = (*axis as u64, *rank as u64);
                crate::StridedError::InvalidAxis { axis, rank }.fmt(f)
            }
            Self::ShapeMismatch(given, expected) => {
                write!(
                    f,
                    "the shape {given:?} is not the expected one, {expected:?}"
                )
            }
            Self::PlanLayoutMismatch => crate::StridedError::PlanLayoutMismatch.fmt(f),
            Self::RankTooLarge { rank, limit } => {
                write!(f, "a layout has rank {rank}, above the limit of {limit}")
            }
            Self::BufferBounds => f.write_str("a view reaches outside its slice"),
            Self::Unknown { number, a, b } => {
                write!(f, "refusal {number} ({a}, {b}), which has no name here")
            }
        }
    }
}

impl std::error::Error for StridedError {}
