//! Which axes are kept, which are batch axes, and the shapes that follow.

use crate::arithmetic::{at, cells};
use crate::{Model, Slip};
use lines::{GatherSpec, Job, Layout, ScatterSpec};

/// The axes below `rank` that are not in the list, rising.
pub fn others(rank: usize, list: &[u64]) -> Vec<u64> {
    (0..rank as u64)
        .filter(|axis| !list.contains(axis))
        .collect()
}

/// The entries of an index layout without the vector axis.
pub fn batch_axes(index: &Layout, vector: u64) -> Vec<u64> {
    others(index.extents.len(), &[vector])
}

pub fn pick<T: Copy + Default>(list: &[T], axes: &[u64]) -> Vec<T> {
    axes.iter().map(|&axis| at(list, axis)).collect()
}

/// How many updates a scatter adds: batch coordinates times window cells.
pub fn updates(job: &Job, spec: &ScatterSpec) -> u128 {
    let index = &job.index().layout;
    let batch = pick(&index.extents, &batch_axes(index, spec.index_vector_dim));
    let window = pick(&job.source().layout.extents, &spec.update_window_dims);
    cells(&batch).saturating_mul(cells(&window))
}

impl Model {
    /// How many components a start has.
    pub fn components(&self, index: &Layout, vector: u64) -> u64 {
        if vector == index.extents.len() as u64 {
            return u64::from(!self.slips(Slip::ScalarHasNoComponent));
        }
        at(&index.extents, vector)
    }

    /// The shape of a gather's destination.
    pub fn gathered_shape(&self, spec: &GatherSpec, operand: &Layout, index: &Layout) -> Vec<u64> {
        let kept = others(operand.extents.len(), &spec.collapsed_slice_dims);
        let batch = pick(&index.extents, &batch_axes(index, spec.index_vector_dim));
        let windows = pick(&spec.slice_sizes, &kept);
        if self.slips(Slip::ShapeBatchFirst) {
            return [batch, windows].concat();
        }
        let mut batch = batch.into_iter();
        (0..(batch.len() + kept.len()) as u64)
            .map(
                |axis| match spec.offset_dims.iter().position(|&a| a == axis) {
                    Some(place) => at(&windows, place as u64),
                    None => batch.next().unwrap_or(0),
                },
            )
            .collect()
    }

    /// The window on each operand axis of a scatter: 1 on inserted axes.
    pub fn scatter_windows(&self, spec: &ScatterSpec, dest: &Layout, updates: &Layout) -> Vec<u64> {
        let kept = others(dest.extents.len(), &spec.inserted_window_dims);
        let mut windows = vec![1; dest.extents.len()];
        for (&axis, &shown) in kept.iter().zip(&spec.update_window_dims) {
            windows[axis as usize] = at(&updates.extents, shown);
        }
        windows
    }
}
