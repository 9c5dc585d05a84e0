//! How many windows slid: document 02's number of batch coordinates with a
//! component that the clamp moves.

use crate::arithmetic::{at, cells};
use crate::meaning::{unravel, Starts};
use crate::shape::{batch_axes, pick};
use crate::{Model, Slip, MOST_WHEN_TWISTED};
use lines::{Call, Spec};
use std::collections::BTreeSet;

/// The extents of the batch, whose coordinates each have a window.
fn batch(call: &Call) -> Vec<u64> {
    let index = &call.job.index().layout;
    let vector = match &call.job.spec {
        Spec::Gather(spec) => spec.index_vector_dim,
        Spec::Scatter(spec) => spec.index_vector_dim,
    };
    pick(&index.extents, &batch_axes(index, vector))
}

/// How many batch coordinates a call has, with cells to them or without.
pub fn windows(call: &Call) -> u128 {
    cells(&batch(call))
}

/// The start at each batch coordinate of a call that is done, with cells to
/// them or without: of each component the value, and the last one in its place
/// that the clamp does not move.
pub fn starts(call: &Call) -> impl Iterator<Item = Vec<(i64, u64)>> + use<'_> {
    let exact = Model::default();
    let (starts, batch) = (exact.starts(call), batch(call));
    (0..windows(call)).map(move |k| {
        let coordinate = unravel(&batch, k);
        let component = |(c, &axis): (usize, &u64)| {
            let last = at(starts.extents, axis).saturating_sub(at(&starts.windows, axis));
            (exact.start(&starts, &coordinate, c as u64), last)
        };
        starts.map.iter().enumerate().map(component).collect()
    })
}

impl Model {
    /// Each batch coordinate of which the clamp moves some component counts
    /// once. The number is 0 where the destination of a gather, or the
    /// updates, have no cells. Slips made elsewhere leave it as it is: they
    /// are to be seen by the elements.
    pub(crate) fn slid(&self, call: &Call) -> u64 {
        let windows = windows(call);
        let gives_up = self.twist.is_some() && windows > MOST_WHEN_TWISTED.into();
        if gives_up || !self.counts_windows(call) {
            return 0;
        }
        let starts = Model::default().starts(call);
        let batch = batch(call);
        let slid: Vec<Vec<i128>> = (0..windows)
            .map(|k| unravel(&batch, k))
            .filter(|coordinate| self.moved_components(&starts, coordinate).contains(&true))
            .collect();
        self.count(&starts, windows, &slid) as u64
    }

    /// Whether there are cells, and so windows to be counted.
    fn counts_windows(&self, call: &Call) -> bool {
        let (written, slip) = match call.job.spec {
            Spec::Gather(_) => (call.job.dest(), Slip::SlidGatherWithoutCells),
            Spec::Scatter(_) => (call.job.source(), Slip::SlidScatterWithoutCells),
        };
        cells(&written.layout.extents) > 0 || self.slips(slip)
    }

    /// Which components of the start at a batch coordinate the clamp moves.
    fn moved_components(&self, starts: &Starts, coordinate: &[i128]) -> Vec<bool> {
        let is_moved = |(c, &axis): (usize, &u64)| {
            let start = Model::default().start(starts, coordinate, c as u64);
            self.is_moved(start, at(starts.extents, axis), at(&starts.windows, axis))
        };
        let components = starts.map.iter().enumerate();
        match self.twist.slip {
            Some(Slip::SlidFirstComponent) => components.take(1).map(is_moved).collect(),
            Some(Slip::SlidLastComponent) => components.rev().take(1).map(is_moved).collect(),
            _ => components.map(is_moved).collect(),
        }
    }

    /// Whether the clamped start is not the start.
    fn is_moved(&self, start: i64, extent: u64, window: u64) -> bool {
        let exact = i128::from(start);
        let highest = i128::from(extent.saturating_sub(window));
        let clamped = Model::default().clamped(start, extent, window);
        match self.twist.slip {
            Some(Slip::SlidAboveOnly) => clamped < exact,
            Some(Slip::SlidBelowOnly) => clamped > exact,
            Some(Slip::SlidAtLimit) => clamped != exact || exact == highest,
            Some(Slip::SlidIgnoresWindow) => exact < 0 || exact >= i128::from(extent),
            _ => clamped != exact,
        }
    }

    /// The number, given the batch coordinates that it counts.
    fn count(&self, starts: &Starts, windows: u128, slid: &[Vec<i128>]) -> u128 {
        let count = slid.len() as u128;
        match self.twist.slip {
            Some(Slip::SlidComponents) => {
                let moved = slid.iter().flat_map(|c| self.moved_components(starts, c));
                moved.filter(|&moved| moved).count() as u128
            }
            Some(Slip::SlidCells) => count.saturating_mul(cells(&starts.windows)),
            Some(Slip::SlidSharedOnce) => {
                let places = slid
                    .iter()
                    .map(|c| Model::default().start_place(starts, c, 0));
                places.collect::<BTreeSet<i128>>().len() as u128
            }
            Some(Slip::SlidAllWhereOne) if count > 0 => windows,
            _ => count,
        }
    }
}
