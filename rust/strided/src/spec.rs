//! The axis lists of StableHLO's gather and scatter.

/// Which axes a gather reads its windows along, and where it shows them.
///
/// ```
/// use strided::GatherSpec;
///
/// // Windows of two cells of a grid with one axis, shown on axis 0 of the
/// // destination; the other axis counts the starts.
/// let spec = GatherSpec {
///     offset_dims: vec![0],
///     collapsed_slice_dims: vec![],
///     start_index_map: vec![0],
///     index_vector_dim: 1,
///     slice_sizes: vec![2],
/// };
/// # assert_eq!(spec.slice_sizes.len(), 1);
/// ```
#[derive(Clone, Debug, Eq, PartialEq)]
pub struct GatherSpec {
    /// The axes of the destination that show, in this order, the operand's
    /// axes that are not collapsed; its other axes are batch axes.
    pub offset_dims: Vec<usize>,
    /// The axes of the operand, with windows of 1, that the destination leaves
    /// out.
    pub collapsed_slice_dims: Vec<usize>,
    /// The axis of the operand that each component of a start goes along. An
    /// axis that is not named starts at 0.
    pub start_index_map: Vec<usize>,
    /// The axis of the index along which the components of a start lie. If it
    /// is the index's rank, there is one component.
    pub index_vector_dim: usize,
    /// The window's extent on each axis of the operand.
    pub slice_sizes: Vec<usize>,
}

/// Which axes the updates of a scatter lie along, and where they land.
///
/// ```
/// use strided::ScatterSpec;
///
/// // Single cells, added to a grid with one axis.
/// let spec = ScatterSpec {
///     update_window_dims: vec![],
///     inserted_window_dims: vec![0],
///     scatter_dims_to_operand_dims: vec![0],
///     index_vector_dim: 1,
/// };
/// # assert_eq!(spec.inserted_window_dims.len(), 1);
/// ```
#[derive(Clone, Debug, Eq, PartialEq)]
pub struct ScatterSpec {
    /// The axes of the updates that go, in this order, along the destination's
    /// axes that are not inserted; their other axes are batch axes.
    pub update_window_dims: Vec<usize>,
    /// The axes of the destination that the updates leave out, with windows
    /// of 1.
    pub inserted_window_dims: Vec<usize>,
    /// The axis of the destination that each component of a start goes along.
    /// An axis that is not named starts at 0.
    pub scatter_dims_to_operand_dims: Vec<usize>,
    /// The axis of the index along which the components of a start lie. If it
    /// is the index's rank, there is one component.
    pub index_vector_dim: usize,
}
