//! The types of starts.

use std::borrow::Cow;

/// A type of start: `i32` or `i64`.
///
/// ```
/// use strided::strided_basic::GatherIndex;
///
/// assert_eq!((-5i32).to_i64(), -5);
/// ```
pub trait GatherIndex: Copy + Send + Sync {
    /// The start as the library takes it.
    fn to_i64(self) -> i64;

    /// All starts of a slice as the library takes them.
    #[doc(hidden)]
    fn all_to_i64(starts: &[Self]) -> Cow<'_, [i64]> {
        starts.iter().map(|start| start.to_i64()).collect()
    }
}

impl GatherIndex for i32 {
    fn to_i64(self) -> i64 {
        i64::from(self)
    }
}

impl GatherIndex for i64 {
    fn to_i64(self) -> i64 {
        self
    }

    fn all_to_i64(starts: &[Self]) -> Cow<'_, [i64]> {
        Cow::Borrowed(starts)
    }
}
