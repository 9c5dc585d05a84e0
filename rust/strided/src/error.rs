//! The refusals, by name and by number.

use core::fmt;

use crate::ffi::Answer;

/// Why a call was refused. A refusal changes no element of a destination.
///
/// Every refusal has a number and two values, a and b, which are 0 where it
/// names none; [`number`](Self::number), [`a`](Self::a) and [`b`](Self::b) give
/// them as the C interface does. The text says the same in words.
///
/// ```
/// use strided::{GatherPlan, GatherSpec, StridedError};
///
/// // The index has rank 1, so that its vector axis is 0 or 1.
/// let spec = GatherSpec {
///     offset_dims: vec![0],
///     collapsed_slice_dims: vec![],
///     start_index_map: vec![0],
///     index_vector_dim: 7,
///     slice_sizes: vec![2],
/// };
/// let refusal = GatherPlan::compile(&[5], &[1], &[2], &[1], &[2, 2], &[1, 2], spec).unwrap_err();
/// assert_eq!(refusal, StridedError::InvalidAxis { axis: 7, rank: 2 });
/// assert_eq!((refusal.number(), refusal.a(), refusal.b()), (6, 7, 2));
/// ```
#[derive(Clone, Copy, Debug, Eq, PartialEq)]
#[non_exhaustive]
pub enum StridedError {
    /// 1: the extents and the strides of a layout differ in length.
    StrideLengthMismatch,
    /// 2: a layout has more axes than [`RANK_LIMIT`](crate::RANK_LIMIT).
    RankTooLarge {
        /// The rank of the first such layout, in the order of the views.
        rank: u64,
        /// The limit.
        limit: u64,
    },
    /// 3: a product of extents, a span, a step or a reset does not fit its 64
    /// bits.
    OffsetOverflow,
    /// 4: the destination is not nested, so that two of its coordinates might
    /// name one element.
    NonInjectiveOutputLayout,
    /// 5: two counts differ, or the first is above what the second allows.
    RankMismatch {
        /// The count that was found: of slice sizes, of start components, of
        /// window axes, of batch axes, of a list's entries.
        count: u64,
        /// The count that it was held against.
        against: u64,
    },
    /// 6: an axis is out of range or repeated, or its window is larger than
    /// its extent, or is not 1 though the axis is collapsed.
    InvalidAxis {
        /// The axis.
        axis: u64,
        /// The rank that it was held against.
        rank: u64,
    },
    /// 7: a shape is not the expected one.
    ShapeMismatch {
        /// The rank of the shape that was given.
        given: u64,
        /// The rank of the shape that was expected.
        expected: u64,
    },
    /// 8: the layout of a view is not the one that was compiled for it.
    PlanLayoutMismatch,
    /// 9: a view reaches outside its slice, or a writer has too little room.
    BufferBounds {
        /// The view, from 1 (of a gather operand, index, destination; of a
        /// scatter index, updates, destination, after the operand if it has
        /// one), or 0 for a writer.
        view: u64,
        /// The bytes that a writer needs, and 0 for a view.
        bytes_needed: u64,
    },
    /// 10: the bytes store no job, or one of another kind or element than the
    /// call's.
    JobBytes {
        /// The place of the first byte of the field that is wrong, from 0.
        place: u64,
    },
    /// 18: a rule is not listed for the element. Only the functions of
    /// [`ffi`](crate::ffi), which take a rule as a number, can be refused so.
    UnlistedRule {
        /// The number as it was given.
        rule: u64,
    },
    /// A refusal that this version of the crate has no name for.
    Unknown {
        /// Its number.
        number: u64,
        /// Its first value.
        a: u64,
        /// Its second value.
        b: u64,
    },
}

/// What a call gives, or why it was refused.
pub type Result<T> = core::result::Result<T, StridedError>;

impl StridedError {
    /// The number of the refusal, as in the C interface.
    pub fn number(&self) -> u64 {
        self.words()[0]
    }

    /// The first value of the refusal, 0 where it names none.
    pub fn a(&self) -> u64 {
        self.words()[1]
    }

    /// The second value of the refusal, 0 where it names none.
    pub fn b(&self) -> u64 {
        self.words()[2]
    }

    fn words(&self) -> [u64; 3] {
        match *self {
            Self::StrideLengthMismatch => [1, 0, 0],
            Self::RankTooLarge { rank, limit } => [2, rank, limit],
            Self::OffsetOverflow => [3, 0, 0],
            Self::NonInjectiveOutputLayout => [4, 0, 0],
            Self::RankMismatch { count, against } => [5, count, against],
            Self::InvalidAxis { axis, rank } => [6, axis, rank],
            Self::ShapeMismatch { given, expected } => [7, given, expected],
            Self::PlanLayoutMismatch => [8, 0, 0],
            Self::BufferBounds { view, bytes_needed } => [9, view, bytes_needed],
            Self::JobBytes { place } => [10, place, 0],
            Self::UnlistedRule { rule } => [18, rule, 0],
            Self::Unknown { number, a, b } => [number, a, b],
        }
    }

    /// The refusal of an answer. Values that no name has room for are kept as
    /// they are; the answer's last number is none of a refusal's.
    pub(crate) fn check([number, a, b, _]: Answer) -> Result<()> {
        Err(match [number, a, b] {
            [0, ..] => return Ok(()),
            [1, 0, 0] => Self::StrideLengthMismatch,
            [2, rank, limit] => Self::RankTooLarge { rank, limit },
            [3, 0, 0] => Self::OffsetOverflow,
            [4, 0, 0] => Self::NonInjectiveOutputLayout,
            [5, count, against] => Self::RankMismatch { count, against },
            [6, axis, rank] => Self::InvalidAxis { axis, rank },
            [7, given, expected] => Self::ShapeMismatch { given, expected },
            [8, 0, 0] => Self::PlanLayoutMismatch,
            [9, view, bytes_needed] => Self::BufferBounds { view, bytes_needed },
            [10, place, 0] => Self::JobBytes { place },
            [18, rule, 0] => Self::UnlistedRule { rule },
            _ => Self::Unknown { number, a, b },
        })
    }
}

const LENGTHS: &str = "the extents and strides of a layout differ in length";
const OVERFLOW: &str = "a product, span, step or reset of the layouts does not fit in 64 bits";
const NOT_NESTED: &str =
    "the destination is not nested: two of its coordinates might name one element";
const OTHER_LAYOUT: &str = "the layout of a view is not the one the plan was compiled for";

impl fmt::Display for StridedError {
    fn fmt(&self, f: &mut fmt::Formatter<'_>) -> fmt::Result {
        match self {
            Self::StrideLengthMismatch => f.write_str(LENGTHS),
            Self::RankTooLarge { rank, limit } => {
                write!(f, "a layout has rank {rank}, above the limit of {limit}")
            }
            Self::OffsetOverflow => f.write_str(OVERFLOW),
            Self::NonInjectiveOutputLayout => f.write_str(NOT_NESTED),
            Self::RankMismatch { count, against } => {
                write!(f, "two counts disagree: {count} against {against}")
            }
            Self::InvalidAxis { axis, rank } => write!(
                f,
                "axis {axis} is out of range for rank {rank}, repeated, or has a window it cannot have"
            ),
            Self::ShapeMismatch { given, expected } => write!(
                f,
                "the shape that was given, of rank {given}, is not the expected one, of rank {expected}"
            ),
            Self::PlanLayoutMismatch => f.write_str(OTHER_LAYOUT),
            Self::BufferBounds { view: 0, bytes_needed } => {
                write!(f, "a stored job needs room for {bytes_needed} bytes")
            }
            Self::BufferBounds { view, .. } => write!(
                f,
                "view {view} reaches outside its slice (the views of a call count from 1)"
            ),
            Self::JobBytes { place } => write!(
                f,
                "the bytes store no job of this kind and element: the field at byte {place} is wrong"
            ),
            Self::UnlistedRule { rule } => {
                write!(f, "there is no rule {rule} for elements of this type")
            }
            Self::Unknown { number, a, b } => {
                write!(f, "refusal {number} ({a}, {b}), which has no name here")
            }
        }
    }
}

impl std::error::Error for StridedError {}

#[cfg(test)]
mod tests {
    use super::StridedError;

    #[test]
    fn words_come_back_as_they_were() {
        for number in 1..20 {
            for (a, b) in [(0, 0), (3, 0), (0, 3), (u64::MAX, 7)] {
                let refusal = StridedError::check([number, a, b, 0]).unwrap_err();
                assert_eq!(refusal.words(), [number, a, b]);
                assert!(!refusal.to_string().is_empty());
            }
        }
        assert_eq!(StridedError::check([0, 0, 0, 0]), Ok(()));
    }

    #[test]
    fn a_refusal_without_a_name() {
        let refusal = StridedError::check([11, 40, 0, 0]).unwrap_err();
        let named = StridedError::Unknown {
            number: 11,
            a: 40,
            b: 0,
        };
        assert_eq!(refusal, named);
        let words = "refusal 11 (40, 0), which has no name here";
        assert_eq!(refusal.to_string(), words);
    }

    #[test]
    fn a_rule_that_is_not_listed() {
        let refusal = StridedError::check([18, 5, 0, 0]).unwrap_err();
        assert_eq!(refusal, StridedError::UnlistedRule { rule: 5 });
        let words = "there is no rule 5 for elements of this type";
        assert_eq!(refusal.to_string(), words);
    }

    #[test]
    fn a_writer_without_room() {
        let refusal = StridedError::check([9, 0, 152, 0]).unwrap_err();
        let words = "a stored job needs room for 152 bytes";
        assert_eq!(refusal.to_string(), words);
    }
}
