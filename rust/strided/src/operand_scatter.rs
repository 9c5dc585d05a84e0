//! A plan with an operand of its own: four layouts and a spec.

use crate::ffi::{self, steps, words};
use crate::plan::Layout;
use crate::{Done, Element, Result, ScatterSpec, StridedError, StridedMut, StridedRef};

/// A scatter that has been compiled for four layouts: an operand is copied to
/// the destination, cell by cell, before the updates are put on it. A
/// [`ScatterPlan`](crate::ScatterPlan) has no operand, and goes on with what
/// the destination holds.
///
/// The operand has the destination's extents, and strides, an offset and a
/// slice of its own: the clean chart may be kept in another layout than the
/// working grid. What a cell of the destination held before the call makes no
/// difference; elements that no cell names stay.
///
/// It keeps the layouts and the spec; a call compiles them again, inside the
/// proved library, and neither call nor compile inside it allocates.
///
/// ```
/// use strided::{OperandScatterPlan, ScatterSpec, StridedMut, StridedRef};
///
/// // Three cells added to a grid of five, at the starts 0, 0 and 9; the last
/// // is clamped to 4. The chart is kept backwards.
/// let spec = ScatterSpec {
///     update_window_dims: vec![],
///     inserted_window_dims: vec![0],
///     scatter_dims_to_operand_dims: vec![0],
///     index_vector_dim: 1,
/// };
/// let plan = OperandScatterPlan::compile(
///     &[5], &[-1], &[3], &[1], &[3], &[1], &[5], &[1], spec,
/// )?;
///
/// let chart = [50, 40, 30, 20, 10];
/// let mut grid = [-7; 5];
/// let done = plan.execute(
///     &mut StridedMut::new(&mut grid, &[5], &[1], 0),
///     &StridedRef::new(&chart, &[5], &[-1], 4),
///     &StridedRef::new(&[0, 0, 9], &[3], &[1], 0),
///     &StridedRef::new(&[3, 4, 5], &[3], &[1], 0),
/// )?;
/// assert_eq!((grid, done.slid()), ([17, 20, 30, 40, 55], 1));
/// # Ok::<(), strided::StridedError>(())
/// ```
///
/// Two scatters that share a grid copy the operand once, in the first of the
/// two calls; the second is made with a [`ScatterPlan`](crate::ScatterPlan).
/// Stored jobs have no operand.
#[derive(Clone, Debug, Eq, PartialEq)]
pub struct OperandScatterPlan {
    pub(crate) operand: Layout,
    pub(crate) index: Layout,
    pub(crate) updates: Layout,
    pub(crate) dest: Layout,
    pub(crate) spec: ScatterSpec,
}

impl OperandScatterPlan {
    /// Compiles a scatter of updates, at the starts of an index, to a
    /// destination that an operand is copied to first, each given by extents
    /// and strides.
    ///
    /// # Errors
    ///
    /// The first of the refusals 1 to 7 that is met. 1 and 2 look at the
    /// operand first; 7 is also given where the destination's extents are not
    /// the operand's, right after the products of the extents.
    ///
    /// ```
    /// use strided::{OperandScatterPlan, ScatterSpec, StridedError};
    ///
    /// let spec = ScatterSpec {
    ///     update_window_dims: vec![],
    ///     inserted_window_dims: vec![0],
    ///     scatter_dims_to_operand_dims: vec![0],
    ///     index_vector_dim: 1,
    /// };
    /// // A chart of two axes for a grid of one.
    /// let refusal = OperandScatterPlan::compile(
    ///     &[5, 1], &[1, 5], &[3], &[1], &[3], &[1], &[5], &[1], spec,
    /// )
    /// .unwrap_err();
    /// assert_eq!(refusal, StridedError::ShapeMismatch { given: 1, expected: 2 });
    /// ```
    #[allow(clippy::too_many_arguments)]
    pub fn compile(
        operand_dims: &[usize],
        operand_strides: &[isize],
        index_dims: &[usize],
        index_strides: &[isize],
        update_dims: &[usize],
        update_strides: &[isize],
        dest_dims: &[usize],
        dest_strides: &[isize],
        spec: ScatterSpec,
    ) -> Result<Self> {
        StridedError::check(ffi::strided_scatter_operand_refusal(
            words(operand_dims),
            steps(operand_strides),
            words(index_dims),
            steps(index_strides),
            words(update_dims),
            steps(update_strides),
            words(dest_dims),
            steps(dest_strides),
            words(&spec.update_window_dims),
            words(&spec.inserted_window_dims),
            words(&spec.scatter_dims_to_operand_dims),
            spec.index_vector_dim as u64,
        ))?;
        Ok(Self {
            operand: Layout::new(operand_dims, operand_strides),
            index: Layout::new(index_dims, index_strides),
            updates: Layout::new(update_dims, update_strides),
            dest: Layout::new(dest_dims, dest_strides),
            spec,
        })
    }

    /// The spec that was compiled.
    pub fn spec(&self) -> &ScatterSpec {
        &self.spec
    }

    /// The extents of the destination that was compiled for, which are the
    /// operand's.
    pub fn dest_dims(&self) -> &[usize] {
        &self.dest.dims
    }

    /// Copies the operand's cells to the destination's, bit for bit, and then
    /// adds each update to the element it lands on, in the order and at the
    /// places of [`ScatterPlan::execute`](crate::ScatterPlan::execute). It is
    /// [`execute_by`](Self::execute_by) with [`Rule::Add`](crate::Rule).
    ///
    /// The time goes by the number of the destination's cells and of the update
    /// coordinates, which a stride of 0 lets be larger than any slice.
    ///
    /// # Errors
    ///
    /// 8 where a view has another layout than the plan, then 9 for the first
    /// view (operand 1, index 2, updates 3, destination 4) that reaches outside
    /// its slice. No element is changed then.
    ///
    /// ```
    /// use strided::{OperandScatterPlan, ScatterSpec, StridedError, StridedMut, StridedRef};
    ///
    /// // One cut of two cells on a grid of three; one sounding is the whole chart.
    /// let spec = ScatterSpec {
    ///     update_window_dims: vec![0],
    ///     inserted_window_dims: vec![],
    ///     scatter_dims_to_operand_dims: vec![0],
    ///     index_vector_dim: 0,
    /// };
    /// let plan = OperandScatterPlan::compile(
    ///     &[3], &[0], &[1], &[1], &[2], &[1], &[3], &[2], spec,
    /// )?;
    /// let starts = StridedRef::new(&[1], &[1], &[1], 0);
    /// let cut = StridedRef::new(&[0.5, 0.25], &[2], &[1], 0);
    ///
    /// // The grid's cells lie at every other element; those between stay.
    /// let mut grid = [9.0; 5];
    /// plan.execute(
    ///     &mut StridedMut::new(&mut grid, &[3], &[2], 0),
    ///     &StridedRef::new(&[-4.0], &[3], &[0], 0),
    ///     &starts,
    ///     &cut,
    /// )?;
    /// assert_eq!(grid, [-4.0, 9.0, -3.5, 9.0, -3.75]);
    ///
    /// // A chart without its sounding is refused, and the grid stays.
    /// let refusal = plan.execute(
    ///     &mut StridedMut::new(&mut grid, &[3], &[2], 0),
    ///     &StridedRef::new(&[], &[3], &[0], 0),
    ///     &starts,
    ///     &cut,
    /// );
    /// assert_eq!(refusal, Err(StridedError::BufferBounds { view: 1, bytes_needed: 0 }));
    /// assert_eq!(grid, [-4.0, 9.0, -3.5, 9.0, -3.75]);
    /// # Ok::<(), StridedError>(())
    /// ```
    pub fn execute<T: Element>(
        &self,
        dest: &mut StridedMut<'_, T>,
        operand: &StridedRef<'_, T>,
        scatter_indices: &StridedRef<'_, i64>,
        updates: &StridedRef<'_, T>,
    ) -> Result<Done> {
        self.execute_by(dest, operand, scatter_indices, updates, T::Rule::default())
    }

    /// Copies the operand as [`execute`](Self::execute) does, and then puts each
    /// update on the element it lands on by a rule. What an element holds before
    /// the first update that lands on it is the operand's cell. The rules are
    /// those of [`ScatterPlan::execute_updates`](crate::ScatterPlan::execute_updates).
    ///
    /// # Errors
    ///
    /// As [`execute`](Self::execute), whatever the rule.
    ///
    /// ```
    /// use strided::{OperandScatterPlan, Rule, ScatterSpec, StridedMut, StridedRef};
    ///
    /// // Two soundings on a chart of three cells; the lower depth counts.
    /// let spec = ScatterSpec {
    ///     update_window_dims: vec![],
    ///     inserted_window_dims: vec![0],
    ///     scatter_dims_to_operand_dims: vec![0],
    ///     index_vector_dim: 1,
    /// };
    /// let plan = OperandScatterPlan::compile(
    ///     &[3], &[1], &[2], &[1], &[2], &[1], &[3], &[1], spec,
    /// )?;
    /// let mut depths = [0; 3];
    /// plan.execute_by(
    ///     &mut StridedMut::new(&mut depths, &[3], &[1], 0),
    ///     &StridedRef::new(&[900, 850, 900], &[3], &[1], 0),
    ///     &StridedRef::new(&[0, 1], &[2], &[1], 0),
    ///     &StridedRef::new(&[870, 870], &[2], &[1], 0),
    ///     Rule::Lowest,
    /// )?;
    /// assert_eq!(depths, [870, 850, 900]);
    /// # Ok::<(), strided::StridedError>(())
    /// ```
    pub fn execute_by<T: Element>(
        &self,
        dest: &mut StridedMut<'_, T>,
        operand: &StridedRef<'_, T>,
        scatter_indices: &StridedRef<'_, i64>,
        updates: &StridedRef<'_, T>,
        rule: impl Into<T::Rule>,
    ) -> Result<Done> {
        T::raw_operand_scatter(self, dest, operand, scatter_indices, updates, rule.into())
    }
}
