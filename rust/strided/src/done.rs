//! What a call that was done gives.

use crate::ffi::Answer;
use crate::{Result, StridedError};

/// What a gather or a scatter gives once it is done.
///
/// ```
/// use strided::{GatherPlan, GatherSpec, StridedMut, StridedRef};
///
/// // Windows of two of five cells, of which 3 is the last start.
/// let spec = GatherSpec {
///     offset_dims: vec![0],
///     collapsed_slice_dims: vec![],
///     start_index_map: vec![0],
///     index_vector_dim: 1,
///     slice_sizes: vec![2],
/// };
/// let plan = GatherPlan::compile(&[5], &[1], &[3], &[1], &[2, 3], &[1, 2], spec)?;
/// let mut windows = [0; 6];
/// let done = plan.execute(
///     &mut StridedMut::new(&mut windows, &[2, 3], &[1, 2], 0),
///     &StridedRef::new(&[10, 20, 30, 40, 50], &[5], &[1], 0),
///     &StridedRef::new(&[4, 3, -1], &[3], &[1], 0),
/// )?;
/// assert_eq!(windows, [40, 50, 40, 50, 10, 20]);
/// assert_eq!(done.slid(), 2);
/// # Ok::<(), strided::StridedError>(())
/// ```
#[derive(Clone, Copy, Debug, Eq, PartialEq)]
pub struct Done {
    slid: u64,
}

impl Done {
    /// By the library's answer; a refusal is the error.
    pub(crate) fn of(answer: Answer) -> Result<Self> {
        StridedError::check(answer)?;
        let [_, _, _, slid] = answer;
        Ok(Self { slid })
    }

    /// How many windows slid: the number of batch coordinates with at least
    /// one component that the clamp moved, so that its clamped start is not
    /// its start.
    ///
    /// A batch coordinate counts once, however many of its components are
    /// moved; two batch coordinates that read the same start, through a stride
    /// of 0 of the index, are two. The number is 0 where the destination of a
    /// gather, or the updates of a scatter, have no cells, even if batch
    /// coordinates exist.
    pub fn slid(self) -> u64 {
        self.slid
    }
}

#[cfg(test)]
mod tests {
    use super::Done;
    use crate::StridedError;

    #[test]
    fn the_last_number_of_an_answer() {
        assert_eq!(Done::of([0, 0, 0, 0]).map(Done::slid), Ok(0));
        assert_eq!(Done::of([0, 0, 0, 7]).map(Done::slid), Ok(7));
        assert_eq!(Done::of([0, 0, 0, u64::MAX]).map(Done::slid), Ok(u64::MAX));
    }

    #[test]
    fn a_refusal_has_no_number() {
        let refusal = Done::of([8, 0, 0, 0]).unwrap_err();
        assert_eq!(refusal, StridedError::PlanLayoutMismatch);
    }
}
