//! Plans: three layouts and a spec that compile has accepted.

use crate::ffi::{self, steps, words};
use crate::{Done, Element, GatherSpec, Result, ScatterSpec, StridedError, StridedMut, StridedRef};

/// Extents and strides that a plan keeps.
#[derive(Clone, Debug, Eq, PartialEq)]
pub struct Layout {
    pub dims: Vec<usize>,
    pub strides: Vec<isize>,
}

impl Layout {
    pub(crate) fn new(dims: &[usize], strides: &[isize]) -> Self {
        Self {
            dims: dims.to_vec(),
            strides: strides.to_vec(),
        }
    }
}

/// A gather that has been compiled for three layouts.
///
/// It keeps the layouts and the spec; a call compiles them again, inside the
/// proved library, and neither call nor compile inside it allocates.
///
/// ```
/// use strided::{GatherPlan, GatherSpec, StridedMut, StridedRef};
///
/// // Windows of two of five cells, at the starts 4 and -1, which are clamped
/// // to 3 and 0.
/// let spec = GatherSpec {
///     offset_dims: vec![0],
///     collapsed_slice_dims: vec![],
///     start_index_map: vec![0],
///     index_vector_dim: 1,
///     slice_sizes: vec![2],
/// };
/// let plan = GatherPlan::compile(&[5], &[1], &[2], &[1], &[2, 2], &[1, 2], spec)?;
///
/// let mut dest = [0; 4];
/// let done = plan.execute(
///     &mut StridedMut::new(&mut dest, &[2, 2], &[1, 2], 0),
///     &StridedRef::new(&[10, 20, 30, 40, 50], &[5], &[1], 0),
///     &StridedRef::new(&[4, -1], &[2], &[1], 0),
/// )?;
/// assert_eq!((dest, done.slid()), ([40, 50, 10, 20], 2));
/// # Ok::<(), strided::StridedError>(())
/// ```
#[derive(Clone, Debug, Eq, PartialEq)]
pub struct GatherPlan {
    pub(crate) operand: Layout,
    pub(crate) index: Layout,
    pub(crate) dest: Layout,
    pub(crate) spec: GatherSpec,
}

impl GatherPlan {
    /// Compiles a gather from an operand, at the starts of an index, to a
    /// destination, each given by extents and strides.
    ///
    /// # Errors
    ///
    /// The first of the refusals 1 to 7 that is met.
    ///
    /// ```
    /// use strided::{GatherPlan, GatherSpec, StridedError};
    ///
    /// let spec = GatherSpec {
    ///     offset_dims: vec![0],
    ///     collapsed_slice_dims: vec![],
    ///     start_index_map: vec![0],
    ///     index_vector_dim: 1,
    ///     slice_sizes: vec![2],
    /// };
    /// // Both axes of the destination step by 1, so that cells share elements.
    /// let refusal = GatherPlan::compile(&[5], &[1], &[2], &[1], &[2, 2], &[1, 1], spec).unwrap_err();
    /// assert_eq!(refusal, StridedError::NonInjectiveOutputLayout);
    /// ```
    pub fn compile(
        operand_dims: &[usize],
        operand_strides: &[isize],
        index_dims: &[usize],
        index_strides: &[isize],
        dest_dims: &[usize],
        dest_strides: &[isize],
        spec: GatherSpec,
    ) -> Result<Self> {
        StridedError::check(ffi::strided_gather_refusal(
            words(operand_dims),
            steps(operand_strides),
            words(index_dims),
            steps(index_strides),
            words(dest_dims),
            steps(dest_strides),
            words(&spec.offset_dims),
            words(&spec.collapsed_slice_dims),
            words(&spec.start_index_map),
            spec.index_vector_dim as u64,
            words(&spec.slice_sizes),
        ))?;
        Ok(Self {
            operand: Layout::new(operand_dims, operand_strides),
            index: Layout::new(index_dims, index_strides),
            dest: Layout::new(dest_dims, dest_strides),
            spec,
        })
    }

    /// The spec that was compiled.
    pub fn spec(&self) -> &GatherSpec {
        &self.spec
    }

    /// The extents of the destination that was compiled for.
    pub fn dest_dims(&self) -> &[usize] {
        &self.dest.dims
    }

    /// Reads the windows at the starts, which are clamped so that each window
    /// lies inside the operand, and writes them to the destination bit for
    /// bit. Elements that no coordinate of the destination names stay.
    /// [`Done::slid`] tells how many windows the clamp moved.
    ///
    /// # Errors
    ///
    /// 8 where a view has another layout than the plan, then 9 for the first
    /// view (operand 1, index 2, destination 3) that reaches outside its
    /// slice. No element is changed then.
    ///
    /// ```
    /// use strided::{GatherPlan, GatherSpec, StridedError, StridedMut, StridedRef};
    ///
    /// let spec = GatherSpec {
    ///     offset_dims: vec![],
    ///     collapsed_slice_dims: vec![0],
    ///     start_index_map: vec![0],
    ///     index_vector_dim: 1,
    ///     slice_sizes: vec![1],
    /// };
    /// let plan = GatherPlan::compile(&[3], &[1], &[2], &[1], &[2], &[1], spec)?;
    /// let soundings = [1.5, -0.0, f64::NAN];
    /// let operand = StridedRef::new(&soundings, &[3], &[1], 0);
    /// let starts = StridedRef::new(&[2, 1], &[2], &[1], 0);
    ///
    /// let mut cells = [8.0; 3];
    /// plan.execute(&mut StridedMut::new(&mut cells, &[2], &[1], 1), &operand, &starts)?;
    /// assert_eq!(cells.map(f64::to_bits), [8.0, f64::NAN, -0.0].map(f64::to_bits));
    ///
    /// // Begun one element later, the destination leaves its slice.
    /// let refusal = plan
    ///     .execute(&mut StridedMut::new(&mut cells, &[2], &[1], 2), &operand, &starts)
    ///     .unwrap_err();
    /// assert_eq!(refusal, StridedError::BufferBounds { view: 3, bytes_needed: 0 });
    /// # Ok::<(), StridedError>(())
    /// ```
    pub fn execute<T: Element>(
        &self,
        dest: &mut StridedMut<'_, T>,
        operand: &StridedRef<'_, T>,
        start_indices: &StridedRef<'_, i64>,
    ) -> Result<Done> {
        T::raw_gather(self, dest, operand, start_indices)
    }
}

/// A scatter that has been compiled for three layouts. The updates are put on
/// what the destination holds: [`execute`](Self::execute) adds them, and
/// [`execute_updates`](Self::execute_updates) goes by a rule.
///
/// It keeps the layouts and the spec; a call compiles them again, inside the
/// proved library, and neither call nor compile inside it allocates.
///
/// ```
/// use strided::{ScatterPlan, ScatterSpec, StridedMut, StridedRef};
///
/// // Three cells added to a grid of five, at the starts 0, 0 and 9; the last
/// // is clamped to 4.
/// let spec = ScatterSpec {
///     update_window_dims: vec![],
///     inserted_window_dims: vec![0],
///     scatter_dims_to_operand_dims: vec![0],
///     index_vector_dim: 1,
/// };
/// let plan = ScatterPlan::compile(&[3], &[1], &[3], &[1], &[5], &[1], spec)?;
///
/// let mut grid = [0; 5];
/// let done = plan.execute(
///     &mut StridedMut::new(&mut grid, &[5], &[1], 0),
///     &StridedRef::new(&[0, 0, 9], &[3], &[1], 0),
///     &StridedRef::new(&[3, 4, 5], &[3], &[1], 0),
/// )?;
/// assert_eq!((grid, done.slid()), ([7, 0, 0, 0, 5], 1));
/// # Ok::<(), strided::StridedError>(())
/// ```
#[derive(Clone, Debug, Eq, PartialEq)]
pub struct ScatterPlan {
    pub(crate) index: Layout,
    pub(crate) updates: Layout,
    pub(crate) dest: Layout,
    pub(crate) spec: ScatterSpec,
}

impl ScatterPlan {
    /// Compiles a scatter of updates, at the starts of an index, to a
    /// destination, each given by extents and strides.
    ///
    /// # Errors
    ///
    /// The first of the refusals 1 to 7 that is met.
    ///
    /// ```
    /// use strided::{ScatterPlan, ScatterSpec, StridedError};
    ///
    /// let spec = ScatterSpec {
    ///     update_window_dims: vec![],
    ///     inserted_window_dims: vec![0],
    ///     scatter_dims_to_operand_dims: vec![0],
    ///     index_vector_dim: 1,
    /// };
    /// // Three starts, but four updates.
    /// let refusal = ScatterPlan::compile(&[3], &[1], &[4], &[1], &[5], &[1], spec).unwrap_err();
    /// assert_eq!(refusal, StridedError::ShapeMismatch { given: 1, expected: 1 });
    /// ```
    pub fn compile(
        index_dims: &[usize],
        index_strides: &[isize],
        update_dims: &[usize],
        update_strides: &[isize],
        dest_dims: &[usize],
        dest_strides: &[isize],
        spec: ScatterSpec,
    ) -> Result<Self> {
        StridedError::check(ffi::strided_scatter_refusal(
            words(index_dims),
            steps(index_strides),
            words(update_dims),
            steps(update_strides),
            words(dest_dims),
            steps(dest_strides),
            words(&spec.update_window_dims),
            words(&spec.inserted_window_dims),
            words(&spec.scatter_dims_to_operand_dims),
            spec.index_vector_dim as u64,
        ))?;
        Ok(Self {
            index: Layout::new(index_dims, index_strides),
            updates: Layout::new(update_dims, update_strides),
            dest: Layout::new(dest_dims, dest_strides),
            spec,
        })
    }

    /// The spec that was compiled.
    pub fn spec(&self) -> &ScatterSpec {
        &self.spec
    }

    /// The extents of the destination that was compiled for.
    pub fn dest_dims(&self) -> &[usize] {
        &self.dest.dims
    }

    /// Adds each update to the element it lands on, batch by batch and, inside
    /// a window, cell by cell, first axis fastest. Starts are clamped so that
    /// each window lies inside the destination; none is skipped, and
    /// [`Done::slid`] tells how many windows the clamp moved. It is
    /// [`execute_updates`](Self::execute_updates) by [`Rule::Add`](crate::Rule).
    ///
    /// The time goes by the number of update coordinates, which a stride of 0
    /// lets be larger than any slice.
    ///
    /// # Errors
    ///
    /// 8 where a view has another layout than the plan, then 9 for the first
    /// view (index 1, updates 2, destination 3) that reaches outside its
    /// slice. No element is changed then.
    ///
    /// ```
    /// use strided::{ScatterPlan, ScatterSpec, StridedMut, StridedRef};
    ///
    /// // One cut of two cells, at the start 1 of a grid with one axis.
    /// let spec = ScatterSpec {
    ///     update_window_dims: vec![0],
    ///     inserted_window_dims: vec![],
    ///     scatter_dims_to_operand_dims: vec![0],
    ///     index_vector_dim: 0,
    /// };
    /// let plan = ScatterPlan::compile(&[1], &[1], &[2], &[1], &[3], &[1], spec)?;
    /// let mut grid = [10, 20, i32::MAX];
    /// plan.execute(
    ///     &mut StridedMut::new(&mut grid, &[3], &[1], 0),
    ///     &StridedRef::new(&[1], &[1], &[1], 0),
    ///     &StridedRef::new(&[5, 1], &[2], &[1], 0),
    /// )?;
    /// assert_eq!(grid, [10, 25, i32::MIN]);
    /// # Ok::<(), strided::StridedError>(())
    /// ```
    pub fn execute<T: Element>(
        &self,
        dest: &mut StridedMut<'_, T>,
        scatter_indices: &StridedRef<'_, i64>,
        updates: &StridedRef<'_, T>,
    ) -> Result<Done> {
        self.execute_updates(dest, scatter_indices, updates, T::Rule::default())
    }

    /// Puts each update on the element it lands on by a rule, in the order and
    /// at the places of [`execute`](Self::execute). `f64` takes a
    /// [`Rule`](crate::Rule) as well as a [`RuleF64`](crate::RuleF64); what
    /// each of them does stands there. The rule makes no difference to how many
    /// windows slide.
    ///
    /// # Errors
    ///
    /// As [`execute`](Self::execute), whatever the rule.
    ///
    /// ```
    /// use strided::{Rule, RuleF64, ScatterPlan, ScatterSpec, StridedMut, StridedRef};
    ///
    /// // Two soundings of two cells each, at the starts 0 and 1 of a grid of three.
    /// let spec = ScatterSpec {
    ///     update_window_dims: vec![0],
    ///     inserted_window_dims: vec![],
    ///     scatter_dims_to_operand_dims: vec![0],
    ///     index_vector_dim: 1,
    /// };
    /// let plan = ScatterPlan::compile(&[2], &[1], &[2, 2], &[1, 2], &[3], &[1], spec)?;
    /// let starts = StridedRef::new(&[0, 1], &[2], &[1], 0);
    ///
    /// let mut depths = [900, 900, 900];
    /// plan.execute_updates(
    ///     &mut StridedMut::new(&mut depths, &[3], &[1], 0),
    ///     &starts,
    ///     &StridedRef::new(&[870, 880, 860, 910], &[2, 2], &[1, 2], 0),
    ///     Rule::Lowest,
    /// )?;
    /// assert_eq!(depths, [870, 860, 900]);
    ///
    /// let mut spoil = [0.0, 0.0, 0.0];
    /// plan.execute_updates(
    ///     &mut StridedMut::new(&mut spoil, &[3], &[1], 0),
    ///     &starts,
    ///     &StridedRef::new(&[1.5, 2.0, 2.0, 1.0], &[2, 2], &[1, 2], 0),
    ///     RuleF64::Ceiling(3.0),
    /// )?;
    /// assert_eq!(spoil, [1.5, 3.0, 1.0]);
    /// # Ok::<(), strided::StridedError>(())
    /// ```
    ///
    /// A ceiling is no rule of `i32`:
    ///
    /// ```compile_fail
    /// # use strided::{Done, RuleF64, ScatterPlan, StridedMut, StridedRef};
    /// # fn of_i32(plan: &ScatterPlan, starts: &StridedRef<'_, i64>) -> strided::Result<Done> {
    /// let mut depths = [900, 900, 900];
    /// plan.execute_updates(
    ///     &mut StridedMut::new(&mut depths, &[3], &[1], 0),
    ///     starts,
    ///     &StridedRef::new(&[870, 880, 860, 910], &[2, 2], &[1, 2], 0),
    ///     RuleF64::Ceiling(3.0),
    /// )
    /// # }
    /// ```
    pub fn execute_updates<T: Element>(
        &self,
        dest: &mut StridedMut<'_, T>,
        scatter_indices: &StridedRef<'_, i64>,
        updates: &StridedRef<'_, T>,
        rule: impl Into<T::Rule>,
    ) -> Result<Done> {
        T::raw_scatter(self, dest, scatter_indices, updates, rule.into())
    }
}
