//! What gather and scatter do: StableHLO's words, with document 01's clamp
//! and its order.

use crate::arithmetic::{self, at};
use crate::shape::{batch_axes, others, pick};
use crate::{Model, Slip};
use lines::{Call, Data, Element, GatherSpec, Rule, ScatterSpec, Spec, View};

/// The coordinate of linear index `k`, first axis fastest.
pub fn unravel(extents: &[u64], mut k: u128) -> Vec<i128> {
    let digit = |&extent: &u64| {
        let extent = u128::from(extent.max(1));
        let digit = k % extent;
        k /= extent;
        digit as i128
    };
    extents.iter().map(digit).collect()
}

fn unravel_last_fastest(extents: &[u64], k: u128) -> Vec<i128> {
    let reversed: Vec<u64> = extents.iter().rev().copied().collect();
    let mut coordinate = unravel(&reversed, k);
    coordinate.reverse();
    coordinate
}

pub fn dot(strides: &[i64], coordinate: &[i128]) -> i128 {
    strides
        .iter()
        .zip(coordinate)
        .map(|(&stride, c)| c.saturating_mul(stride.into()))
        .fold(0, i128::saturating_add)
}

/// Elements as 64-bit words: an i32's bits, or an f64's.
pub(crate) fn words(data: &Data) -> Vec<u64> {
    match data {
        Data::I32(v) => v.iter().map(|&x| u64::from(x as u32)).collect(),
        Data::F64(v) => v.clone(),
    }
}

fn data(words: Vec<u64>, element: Element) -> Data {
    match element {
        Element::I32 => Data::I32(words.iter().map(|&w| w as u32 as i32).collect()),
        Element::F64 => Data::F64(words),
    }
}

/// The word at an offset, or 0 outside: only a twisted model goes there.
pub(crate) fn read(words: &[u64], place: i128) -> u64 {
    let inside = usize::try_from(place).ok().and_then(|p| words.get(p));
    inside.copied().unwrap_or(0)
}

pub(crate) fn write(words: &mut [u64], place: i128, word: u64) {
    if let Some(cell) = usize::try_from(place).ok().and_then(|p| words.get_mut(p)) {
        *cell = word;
    }
}

/// Marks the place; true where it was not marked before.
fn mark(marks: &mut [bool], place: i128) -> bool {
    let inside = usize::try_from(place).ok().and_then(|p| marks.get_mut(p));
    inside.is_some_and(|mark| !std::mem::replace(mark, true))
}

/// The coordinate is off the grid on some axis.
fn outside(coordinate: &[i128], extents: &[u64]) -> bool {
    let off = |(&c, &extent): (&i128, &u64)| c < 0 || c >= i128::from(extent);
    coordinate.iter().zip(extents).any(off)
}

/// The axes on which starts are given, with the clamp's bounds.
pub(crate) struct Starts<'a> {
    call: &'a Call,
    vector: u64,
    pub(crate) map: &'a [u64],
    pub(crate) extents: &'a [u64],
    pub(crate) windows: Vec<u64>,
}

impl Model {
    /// The destination slice after the call, and which elements an add gave.
    pub(crate) fn run(&self, call: &Call) -> (Data, Vec<bool>) {
        let (words, added) = match &call.job.spec {
            Spec::Gather(spec) => {
                let words = self.gather(call, spec);
                let untouched = vec![false; words.len()];
                (words, untouched)
            }
            Spec::Scatter(spec) => self.scatter(call, spec),
        };
        (data(words, call.job.element), added)
    }

    /// The place of a coordinate in the view's slice.
    pub(crate) fn place(&self, view: &View, coordinate: &[i128]) -> i128 {
        let offset = match self.slips(Slip::OffsetForgotten) {
            true => 0,
            false => i128::from(view.offset),
        };
        offset.saturating_add(dot(&view.layout.strides, coordinate))
    }

    fn cells(&self, extents: &[u64]) -> u128 {
        if self.slips(Slip::ProductOfNoneIsZero) && extents.is_empty() {
            return 0;
        }
        arithmetic::cells(extents)
    }

    fn gather(&self, call: &Call, spec: &GatherSpec) -> Vec<u64> {
        let [operand, _, dest] = &call.job.views;
        let (source, mut words_out) = (words(&call.source), words(&call.dest));
        let rank = operand.layout.extents.len();
        let kept = others(rank, &spec.collapsed_slice_dims);
        let batch = others(dest.layout.extents.len(), &spec.offset_dims);
        let shown = self.window_axes(&spec.offset_dims);
        let starts = self.starts(call);
        let mut first = None;
        for k in 0..self.cells(&dest.layout.extents) {
            let result = self.coordinate(&dest.layout.extents, k, Slip::GatherLastFastest);
            let start = self.full_start(&starts, &pick(&result, &batch));
            let offset = pick(&result, &shown);
            let coordinate = self.moved(&start, &kept, &offset);
            let word = read(&source, self.place(operand, &coordinate));
            let word = self.slip_copy(word, call.job.element, *first.get_or_insert(word));
            write(&mut words_out, self.place(dest, &result), word);
        }
        words_out
    }

    /// Slips in what a gather writes.
    fn slip_copy(&self, word: u64, element: Element, first: u64) -> u64 {
        let float = f64::from_bits(word);
        match self.twist.slip {
            Some(Slip::GatherFillsAlike) => first,
            Some(Slip::GatherOneNan) if element == Element::F64 && float.is_nan() => {
                f64::NAN.to_bits()
            }
            Some(Slip::GatherQuietsNan) if element == Element::F64 && float.is_nan() => {
                word | 1 << 51
            }
            Some(Slip::GatherLosesZeroSign) if element == Element::F64 && float == 0.0 => 0,
            _ => word,
        }
    }

    /// Start plus window coordinate; 0 on axes that are not kept.
    fn moved(&self, start: &[i128], kept: &[u64], window: &[i128]) -> Vec<i128> {
        let mut coordinate = start.to_vec();
        for (place, &axis) in kept.iter().enumerate() {
            if let Some(entry) = coordinate.get_mut(axis as usize) {
                *entry += at(window, place as u64);
            }
        }
        coordinate
    }

    /// The cuts put on the grid by the call's rule, in their order. Only Add
    /// and Ceiling add; the others keep the bits of what stays or is taken.
    fn scatter(&self, call: &Call, spec: &ScatterSpec) -> (Vec<u64>, Vec<bool>) {
        let old = self.before_updates(call);
        let mut cells = match self.sums_first(call) {
            true => vec![0; old.len()],
            false => old.clone(),
        };
        let mut landed = vec![false; old.len()];
        for (place, update) in self.cuts(call, spec) {
            let held = match self.compares_with_old(call) {
                true => read(&old, place),
                false => read(&cells, place),
            };
            let first = mark(&mut landed, place);
            if first || !self.keeps_first(call) {
                write(&mut cells, place, self.combined(call, held, update));
            }
        }
        self.slip_scatter(&mut cells, &old, &landed, call);
        self.slip_operand_last(&mut cells, call);
        let adds = matches!(call.rule, Rule::Add | Rule::Ceiling(_));
        let added = landed.iter().map(|&landed| landed && adds).collect();
        (cells, added)
    }

    /// The updates in their order: the place that each lands on, with the
    /// element read. Batch by batch, and inside a window cell by cell.
    fn cuts(&self, call: &Call, spec: &ScatterSpec) -> Vec<(i128, u64)> {
        let [index, updates, dest] = &call.job.views;
        let source = words(&call.source);
        let kept = others(dest.layout.extents.len(), &spec.inserted_window_dims);
        let batch_axes = batch_axes(&index.layout, spec.index_vector_dim);
        let batch_shape = pick(&index.layout.extents, &batch_axes);
        let shown = self.window_axes(&spec.update_window_dims);
        let window_shape = pick(&updates.layout.extents, &shown);
        let starts = self.starts(call);
        // With no window cells there are no updates, however many batches.
        let batches = match self.cells(&window_shape) {
            0 => 0,
            _ => self.cells(&batch_shape),
        };
        let mut cuts = Vec::new();
        for b in self.batches(batches) {
            let batch = self.coordinate(&batch_shape, b, Slip::BatchLastFastest);
            if self.slips(Slip::ScatterSkipsOffGrid) && self.off_grid(&starts, &batch) {
                continue;
            }
            let start = self.full_start(&starts, &batch);
            for w in 0..self.cells(&window_shape) {
                let window = self.coordinate(&window_shape, w, Slip::WindowLastFastest);
                let landed = self.moved(&start, &kept, &window);
                if self.drops_cells(call) && outside(&landed, starts.extents) {
                    continue;
                }
                let update = self.update_coordinate(updates, &shown, &window, &batch);
                let word = read(&source, self.place(updates, &update));
                cuts.push((self.place(dest, &landed), word));
            }
        }
        cuts
    }

    /// The coordinate of `k`, first axis fastest but for a slip.
    fn coordinate(&self, extents: &[u64], k: u128, last_fastest: Slip) -> Vec<i128> {
        match self.slips(last_fastest) {
            true => unravel_last_fastest(extents, k),
            false => unravel(extents, k),
        }
    }

    /// The axes that show the window, in list order.
    fn window_axes(&self, list: &[u64]) -> Vec<u64> {
        let mut shown = list.to_vec();
        if self.slips(Slip::WindowAxesSorted) {
            shown.sort();
        }
        shown
    }

    /// The order in which batches are taken.
    fn batches(&self, count: u128) -> Box<dyn Iterator<Item = u128>> {
        match self.twist.slip {
            Some(Slip::ScatterFirstBatchOnly) => Box::new(0..count.min(1)),
            Some(Slip::BatchesReversed) => Box::new((0..count).rev()),
            _ => Box::new(0..count),
        }
    }

    /// Window axes take the window's entries, the others the batch's, rising.
    fn update_coordinate(
        &self,
        updates: &View,
        shown: &[u64],
        window: &[i128],
        batch: &[i128],
    ) -> Vec<i128> {
        let mut batch = batch.iter();
        (0..updates.layout.extents.len() as u64)
            .map(|axis| match shown.iter().position(|&a| a == axis) {
                Some(place) => at(window, place as u64),
                None => batch.next().copied().unwrap_or(0),
            })
            .collect()
    }

    /// Slips in what a scatter leaves.
    fn slip_scatter(&self, cells: &mut [u64], old: &[u64], landed: &[bool], call: &Call) {
        let float = call.job.element == Element::F64;
        match self.twist.slip {
            Some(Slip::ScatterUntouched) => cells.copy_from_slice(old),
            Some(Slip::ScatterSumsFirst) if self.sums_first(call) => {
                for ((cell, &old), &landed) in cells.iter_mut().zip(old).zip(landed) {
                    *cell = match landed {
                        true => self.sum(old, *cell, call.job.element),
                        false => old,
                    };
                }
            }
            Some(Slip::ScatterAddsZeroElsewhere) if float => {
                for (cell, _) in cells.iter_mut().zip(landed).filter(|(_, &landed)| !landed) {
                    *cell = (f64::from_bits(*cell) + 0.0).to_bits();
                }
            }
            Some(Slip::ScatterOneNan) if float => {
                for cell in cells.iter_mut().filter(|c| f64::from_bits(**c).is_nan()) {
                    *cell = f64::NAN.to_bits();
                }
            }
            _ => self.slip_limit(cells, landed, call.rule),
        }
    }

    /// The axes on which the call's starts are given.
    pub(crate) fn starts<'a>(&self, call: &'a Call) -> Starts<'a> {
        let [first, second, dest] = &call.job.views;
        match &call.job.spec {
            Spec::Gather(spec) => Starts {
                call,
                vector: spec.index_vector_dim,
                map: &spec.start_index_map,
                extents: &first.layout.extents,
                windows: spec.slice_sizes.clone(),
            },
            Spec::Scatter(spec) => Starts {
                call,
                vector: spec.index_vector_dim,
                map: &spec.scatter_dims_to_operand_dims,
                extents: &dest.layout.extents,
                windows: self.scatter_windows(spec, &dest.layout, &second.layout),
            },
        }
    }

    /// The start on every operand axis: clamped where mapped, else 0.
    fn full_start(&self, starts: &Starts, batch: &[i128]) -> Vec<i128> {
        let mut full = vec![0; starts.extents.len()];
        for (c, &axis) in starts.map.iter().enumerate() {
            let axis = match self.slips(Slip::MapInOrder) {
                true => c as u64,
                false => axis,
            };
            let start = self.start(starts, batch, c as u64);
            let (extent, window) = (at(starts.extents, axis), at(&starts.windows, axis));
            if let Some(entry) = full.get_mut(axis as usize) {
                *entry = match self.drops_cells(starts.call) {
                    true => start.into(),
                    false => self.clamped(start, extent, window),
                };
            }
        }
        full
    }

    fn drops_cells(&self, call: &Call) -> bool {
        self.slips(Slip::ScatterDropsCells) && matches!(call.job.spec, Spec::Scatter(_))
    }

    /// Component `c` of the start at a batch coordinate.
    pub(crate) fn start(&self, starts: &Starts, batch: &[i128], c: u64) -> i64 {
        let place = usize::try_from(self.start_place(starts, batch, c)).ok();
        let start = place.and_then(|p| starts.call.index.get(p));
        start.copied().unwrap_or(0)
    }

    /// Its place in the index view's slice.
    pub(crate) fn start_place(&self, starts: &Starts, batch: &[i128], c: u64) -> i128 {
        let index = starts.call.job.index();
        let rank = index.layout.extents.len();
        let mut coordinate = batch.to_vec();
        let vector = match starts.vector {
            v if v as usize == rank => None,
            _ if self.slips(Slip::VectorAxisLast) => Some(coordinate.len()),
            v => Some((v as usize).min(coordinate.len())),
        };
        if let Some(place) = vector {
            coordinate.insert(place, c.into());
        }
        self.place(index, &coordinate)
    }

    /// Clamped to 0 .. extent - window.
    pub(crate) fn clamped(&self, start: i64, extent: u64, window: u64) -> i128 {
        let exact = i128::from(start);
        let highest = i128::from(extent.saturating_sub(window));
        match self.twist.slip {
            Some(Slip::ClampIgnoresWindow) => exact.clamp(0, i128::from(extent.max(1)) - 1),
            Some(Slip::ClampLowOnly) => exact.max(0),
            Some(Slip::StartsInI32) => i128::from(start as i32).clamp(0, highest),
            Some(Slip::StartsUnsigned) => i128::from(start as u64).min(highest),
            Some(Slip::StartsFromTheEnd) if start < 0 => {
                (exact + i128::from(extent)).clamp(0, highest)
            }
            _ => exact.clamp(0, highest),
        }
    }

    /// Some start had to be clamped.
    fn off_grid(&self, starts: &Starts, batch: &[i128]) -> bool {
        starts.map.iter().enumerate().any(|(c, &axis)| {
            let start = self.start(starts, batch, c as u64);
            let (extent, window) = (at(starts.extents, axis), at(&starts.windows, axis));
            let highest = i128::from(extent) - i128::from(window);
            start < 0 || i128::from(start) > highest
        })
    }
}
