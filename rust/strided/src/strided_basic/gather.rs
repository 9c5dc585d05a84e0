//! The gather, by strided-rs's names.

use crate::strided_basic::error::no_shapes;
use crate::strided_basic::{
    Element, Exec, GatherIndex, GatherSpec, RawStridedMut, RawStridedRef, Result, StridedError,
};

/// A gather that has been compiled for three layouts; a
/// [`GatherPlan`](crate::GatherPlan) of the crate's root stands behind it.
///
/// ```
/// use strided::strided_basic::{Exec, GatherPlan, GatherSpec, RawStridedMut, RawStridedRef};
///
/// let spec = GatherSpec {
///     offset_dims: vec![0],
///     collapsed_slice_dims: vec![],
///     start_index_map: vec![0],
///     index_vector_dim: 1,
///     slice_sizes: vec![2],
/// };
/// let plan = GatherPlan::compile(&[5], &[1], &[2], &[1], &[2, 2], &[1, 2], spec)?;
/// assert_eq!(plan.dest_dims(), [2, 2]);
///
/// let mut windows = [0; 4];
/// plan.execute(
///     &mut RawStridedMut::new(&mut windows, &[2, 2], &[1, 2], 0)?,
///     &RawStridedRef::new(&[10, 20, 30, 40, 50], &[5], &[1], 0)?,
///     &RawStridedRef::new(&[4i32, -1], &[2], &[1], 0)?,
///     Exec::serial(),
/// )?;
/// assert_eq!(windows, [40, 50, 10, 20]);
/// # Ok::<(), strided::strided_basic::StridedError>(())
/// ```
#[derive(Clone, Debug)]
pub struct GatherPlan(crate::GatherPlan);

impl GatherPlan {
    /// Compiles a gather from an operand, at the starts of an index, to a
    /// destination, each given by extents and strides.
    ///
    /// # Errors
    ///
    /// The first refusal that is met.
    pub fn compile(
        operand_dims: &[usize],
        operand_strides: &[isize],
        index_dims: &[usize],
        index_strides: &[isize],
        dest_dims: &[usize],
        dest_strides: &[isize],
        spec: GatherSpec,
    ) -> Result<Self> {
        let plan = crate::GatherPlan::compile(
            operand_dims,
            operand_strides,
            index_dims,
            index_strides,
            dest_dims,
            dest_strides,
            spec.clone(),
        );
        let shapes = || (dest_dims.to_vec(), expected_dest_dims(index_dims, &spec));
        let plan = plan.map_err(|refusal| StridedError::of(refusal, shapes))?;
        Ok(Self(plan))
    }

    /// The spec that was compiled.
    pub fn spec(&self) -> &GatherSpec {
        self.0.spec()
    }

    /// The extents of the destination that was compiled for.
    pub fn dest_dims(&self) -> &[usize] {
        self.0.dest_dims()
    }

    /// Reads the windows at the starts, which are clamped, and writes them to
    /// the destination bit for bit.
    ///
    /// # Errors
    ///
    /// [`PlanLayoutMismatch`](StridedError::PlanLayoutMismatch) where a view
    /// has another layout than the plan. No element is changed then.
    pub fn execute<T, I>(
        &self,
        dest: &mut RawStridedMut<'_, T>,
        operand: &RawStridedRef<'_, T>,
        start_indices: &RawStridedRef<'_, I>,
        _exec: Exec<'_>,
    ) -> Result<()>
    where
        T: Element,
        I: GatherIndex,
    {
        let done = start_indices
            .with_i64(|starts| self.0.execute(&mut dest.own(), &operand.own(), starts));
        done.map(drop)
            .map_err(|refusal| StridedError::of(refusal, no_shapes))
    }
}

/// The extents of the destination that an index and a spec make: windows on
/// `offset_dims`, the index's batch on the others.
fn expected_dest_dims(index_dims: &[usize], spec: &GatherSpec) -> Vec<usize> {
    let sizes = spec.slice_sizes.iter().enumerate();
    let kept = sizes.filter(|(axis, _)| !spec.collapsed_slice_dims.contains(axis));
    let windows: Vec<usize> = kept.map(|(_, &size)| size).collect();
    let mut batch = batch_shape(index_dims, spec.index_vector_dim).into_iter();
    let rank = batch.len() + spec.offset_dims.len();
    (0..rank)
        .filter_map(
            |axis| match spec.offset_dims.iter().position(|&dim| dim == axis) {
                Some(place) => windows.get(place).copied(),
                None => batch.next(),
            },
        )
        .collect()
}

/// The index's extents without its vector axis.
pub fn batch_shape(index_dims: &[usize], index_vector_dim: usize) -> Vec<usize> {
    let dims = index_dims.iter().enumerate();
    let batch = dims.filter(|&(axis, _)| axis != index_vector_dim);
    batch.map(|(_, &dim)| dim).collect()
}
