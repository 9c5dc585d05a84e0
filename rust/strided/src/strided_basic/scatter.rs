//! The scatter, by strided-rs's names.

use crate::strided_basic::error::no_shapes;
use crate::strided_basic::gather::batch_shape;
use crate::strided_basic::{
    Element, Exec, GatherIndex, RawStridedMut, RawStridedRef, Result, ScatterSpec, StridedError,
};
use crate::OperandScatterPlan;

/// A scatter that has been compiled for four layouts: the operand is copied to
/// the destination, and then the updates are added. An
/// [`OperandScatterPlan`](crate::OperandScatterPlan) of the crate's root stands
/// behind it.
///
/// ```
/// use strided::strided_basic::{Exec, RawStridedMut, RawStridedRef, ScatterPlan, ScatterSpec};
///
/// let spec = ScatterSpec {
///     update_window_dims: vec![0],
///     inserted_window_dims: vec![],
///     scatter_dims_to_operand_dims: vec![0],
///     index_vector_dim: 0,
/// };
/// let plan = ScatterPlan::compile(&[3], &[1], &[1], &[1], &[2], &[1], &[3], &[2], spec)?;
/// let mut grid = [9; 5];
/// plan.execute(
///     &mut RawStridedMut::new(&mut grid, &[3], &[2], 0)?,
///     &RawStridedRef::new(&[10, 20, 30], &[3], &[1], 0)?,
///     &RawStridedRef::new(&[7i64], &[1], &[1], 0)?,
///     &RawStridedRef::new(&[1, 2], &[2], &[1], 0)?,
///     Exec::serial(),
/// )?;
/// assert_eq!(grid, [10, 9, 21, 9, 32]);
/// # Ok::<(), strided::strided_basic::StridedError>(())
/// ```
#[derive(Clone, Debug)]
pub struct ScatterPlan(OperandScatterPlan);

impl ScatterPlan {
    /// Compiles a scatter of updates, at the starts of an index, to a
    /// destination that an operand is copied to first, each given by extents
    /// and strides.
    ///
    /// # Errors
    ///
    /// The first refusal that is met.
    #[allow(clippy::too_many_arguments)]
    pub fn compile(
        operand_dims: &[usize],
        operand_strides: &[isize],
        index_dims: &[usize],
        index_strides: &[isize],
        update_dims: &[usize],
        update_strides: &[isize],
        dest_dims: &[usize],
        dest_strides: &[isize],
        spec: ScatterSpec,
    ) -> Result<Self> {
        let plan = OperandScatterPlan::compile(
            operand_dims,
            operand_strides,
            index_dims,
            index_strides,
            update_dims,
            update_strides,
            dest_dims,
            dest_strides,
            spec.clone(),
        );
        // A destination of another shape is refused before the updates are looked at.
        let shapes = || match dest_dims == operand_dims {
            false => (dest_dims.to_vec(), operand_dims.to_vec()),
            true => {
                let expected = expected_update_dims(index_dims, update_dims, &spec);
                (update_dims.to_vec(), expected)
            }
        };
        let plan = plan.map_err(|refusal| StridedError::of(refusal, shapes))?;
        Ok(Self(plan))
    }

    /// Copies the operand to the destination, and then adds each update to the
    /// element it lands on. Starts are clamped; none is skipped.
    ///
    /// # Errors
    ///
    /// [`PlanLayoutMismatch`](StridedError::PlanLayoutMismatch) where a view
    /// has another layout than the plan. No element is changed then.
    pub fn execute<T, I>(
        &self,
        dest: &mut RawStridedMut<'_, T>,
        operand: &RawStridedRef<'_, T>,
        scatter_indices: &RawStridedRef<'_, I>,
        updates: &RawStridedRef<'_, T>,
        _exec: Exec<'_>,
    ) -> Result<()>
    where
        T: Element,
        I: GatherIndex,
    {
        let done = scatter_indices.with_i64(|starts| {
            let (operand, updates) = (operand.own(), updates.own());
            self.0.execute(&mut dest.own(), &operand, starts, &updates)
        });
        done.map(drop)
            .map_err(|refusal| StridedError::of(refusal, no_shapes))
    }
}

/// The extents of the updates that an index and a spec ask for: the index's
/// batch beside the windows as they are.
fn expected_update_dims(
    index_dims: &[usize],
    update_dims: &[usize],
    spec: &ScatterSpec,
) -> Vec<usize> {
    let mut batch = batch_shape(index_dims, spec.index_vector_dim).into_iter();
    let dims = update_dims.iter().enumerate();
    dims.filter_map(
        |(axis, &dim)| match spec.update_window_dims.contains(&axis) {
            true => Some(dim),
            false => batch.next(),
        },
    )
    .collect()
}
