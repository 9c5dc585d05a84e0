//! Faults put into valid calls, one or two at a time, so that every check of
//! document 01's order is met, alone and together with every other.

use crate::random::Random;
use crate::valid;
use lines::{Call, Data, GatherSpec, Layout, ScatterSpec, Spec, View};

/// Puts a fault into the call; false where the call has no place for it.
type Fault = fn(&mut Call, &mut Random) -> bool;

const BOTH: [(&str, Fault); 14] = [
    ("lengths", lengths),
    ("rank", rank_above_eight),
    ("first-product", |c, r| product(c, r, 0)),
    ("second-product", |c, r| product(c, r, 1)),
    ("dest-product", |c, r| product(c, r, 2)),
    ("first-span", |c, r| span(c, r, 0)),
    ("second-span", |c, r| span(c, r, 1)),
    ("dest-span", |c, r| span(c, r, 2)),
    ("not-nested", not_nested),
    ("vector-axis", vector_axis),
    ("call-layout", call_layout),
    ("first-bounds", |c, r| bounds(c, r, 0)),
    ("second-bounds", |c, r| bounds(c, r, 1)),
    ("dest-bounds", |c, r| bounds(c, r, 2)),
];

const GATHER: [(&str, Fault); 13] = [
    ("slice-sizes", |c, r| {
        list(gather(c).map(|s| &mut s.slice_sizes), r)
    }),
    ("collapsed-axes", |c, r| {
        let rank = c.job.source().layout.extents.len();
        axes(gather(c).map(|s| &mut s.collapsed_slice_dims), rank, r)
    }),
    ("start-map", |c, r| {
        let rank = c.job.source().layout.extents.len();
        axes(gather(c).map(|s| &mut s.start_index_map), rank, r)
    }),
    ("window-above", window_above),
    ("collapsed-window", collapsed_window),
    ("components", |c, r| components(c, r)),
    ("offset-count", |c, r| {
        list(gather(c).map(|s| &mut s.offset_dims), r)
    }),
    ("offset-axes", |c, r| {
        let rank = c.job.dest().layout.extents.len();
        axes(gather(c).map(|s| &mut s.offset_dims), rank, r)
    }),
    ("shape", shape),
    ("dest-reset", |c, r| {
        let axes = (0..c.job.dest().layout.extents.len()).collect();
        reset(&mut c.job.views[2].layout, axes, r)
    }),
    ("window-reset", window_reset),
    ("batch-reset", batch_reset),
    ("large-expected-rank", large_expected_rank),
];

const SCATTER: [(&str, Fault); 15] = [
    ("inserted-axes", |c, r| {
        let rank = c.job.dest().layout.extents.len();
        axes(scatter(c).map(|s| &mut s.inserted_window_dims), rank, r)
    }),
    ("scatter-map", |c, r| {
        let rank = c.job.dest().layout.extents.len();
        axes(
            scatter(c).map(|s| &mut s.scatter_dims_to_operand_dims),
            rank,
            r,
        )
    }),
    ("components", |c, r| components(c, r)),
    ("window-count", |c, r| {
        list(scatter(c).map(|s| &mut s.update_window_dims), r)
    }),
    ("count-above-rank", count_above_rank),
    ("batch-rank", batch_rank),
    ("window-axes", |c, r| {
        let rank = c.job.source().layout.extents.len();
        axes(scatter(c).map(|s| &mut s.update_window_dims), rank, r)
    }),
    ("batch-extents", batch_extents),
    ("window-above", update_window_above),
    ("inserted-on-nothing", inserted_on_nothing),
    ("batch-product", batch_product),
    ("batch-walk", batch_walk),
    ("window-walk", window_walk),
    ("component-offsets", component_offsets),
    ("update-span", update_span),
];

/// Faults in turn, so that each pair is met as often as any other.
pub struct Faults {
    turn: usize,
}

impl Faults {
    pub fn new(seed: u64) -> Self {
        // Another seed begins elsewhere.
        Faults {
            turn: (seed % 9973) as usize * 131,
        }
    }

    pub fn one(&mut self, random: &mut Random) -> Call {
        let (gather, faults) = self.next_kind();
        let place = (self.turn / 2) % faults.len();
        faulty(random, gather, &[faults[place].1])
    }

    pub fn two(&mut self, random: &mut Random) -> Call {
        let (gather, faults) = self.next_kind();
        let pairs = faults.len() * (faults.len() - 1) / 2;
        let (first, second) = pair((self.turn / 2) % pairs);
        let mut both = [faults[first].1, faults[second].1];
        random.shuffle(&mut both);
        faulty(random, gather, &both)
    }

    fn next_kind(&mut self) -> (bool, Vec<(&'static str, Fault)>) {
        self.turn += 1;
        let gather = self.turn % 2 == 0;
        (gather, faults_of(gather))
    }
}

fn faults_of(gather: bool) -> Vec<(&'static str, Fault)> {
    match gather {
        true => [&BOTH[..], &GATHER].concat(),
        false => [&BOTH[..], &SCATTER].concat(),
    }
}

/// The names of the faults of a gather or a scatter.
pub fn fault_names(gather: bool) -> Vec<&'static str> {
    faults_of(gather).iter().map(|(name, _)| *name).collect()
}

/// The pair with number `n`: the first is less than the second.
fn pair(mut n: usize) -> (usize, usize) {
    let mut second = 1;
    while n >= second {
        n -= second;
        second += 1;
    }
    (n, second)
}

/// A call that has a place for all these faults, with them.
fn faulty(random: &mut Random, gather: bool, faults: &[Fault]) -> Call {
    let mut last = None;
    for _ in 0..200 {
        let mut call = match gather {
            true => valid::gather(random),
            false => valid::scatter(random),
        };
        if faults.iter().all(|fault| fault(&mut call, random)) {
            return call;
        }
        last = Some(call);
    }
    last.expect("a call was made")
}

fn gather(call: &mut Call) -> Option<&mut GatherSpec> {
    match &mut call.job.spec {
        Spec::Gather(spec) => Some(spec),
        Spec::Scatter(_) => None,
    }
}

fn scatter(call: &mut Call) -> Option<&mut ScatterSpec> {
    match &mut call.job.spec {
        Spec::Gather(_) => None,
        Spec::Scatter(spec) => Some(spec),
    }
}

fn vector(call: &Call) -> usize {
    match &call.job.spec {
        Spec::Gather(spec) => spec.index_vector_dim as usize,
        Spec::Scatter(spec) => spec.index_vector_dim as usize,
    }
}

fn any_axis(layout: &Layout, random: &mut Random) -> Option<usize> {
    let rank = layout.extents.len().min(layout.strides.len());
    (rank > 0).then(|| random.below(rank as u64) as usize)
}

fn lengths(call: &mut Call, random: &mut Random) -> bool {
    let place = random.below(3) as usize;
    unequal_lengths(&mut call.job.views[place].layout, random)
}

pub fn unequal_lengths(layout: &mut Layout, random: &mut Random) -> bool {
    match random.below(4) {
        0 => layout.strides.push(random.between(-2, 2)),
        1 => layout.extents.push(random.below(3)),
        2 => return layout.strides.pop().is_some(),
        _ => return layout.extents.pop().is_some(),
    }
    true
}

fn rank_above_eight(call: &mut Call, random: &mut Random) -> bool {
    for _ in 0..random.pick(&[1, 1, 1, 2, 3]) {
        let place = random.below(3) as usize;
        more_axes(&mut call.job.views[place].layout, random);
    }
    true
}

/// More axes than a layout may have.
pub fn more_axes(layout: &mut Layout, random: &mut Random) {
    let rank = random.pick(&[9, 9, 10, 12, 16, 17, 20]);
    while layout.extents.len() < rank {
        layout.extents.push(1);
        layout.strides.push(random.between(0, 2));
    }
}

fn product(call: &mut Call, random: &mut Random, place: usize) -> bool {
    long_product(&mut call.job.views[place].layout, random)
}

/// Two long axes of stride 0, and perhaps a 0 after them, which excuses
/// nothing, or before them, which does.
pub fn long_product(layout: &mut Layout, random: &mut Random) -> bool {
    if layout.extents.len() != layout.strides.len() {
        return false;
    }
    let least = 2 + random.size(0, 1);
    while layout.extents.len() < least {
        layout.extents.push(1);
        layout.strides.push(0);
    }
    let mut axes = random.choose(layout.extents.len(), least);
    axes.sort();
    let long = random.pick(&[1 << 32, 1 << 40, 1 << 62]);
    let other = random.pick(&[1 << 32, 1 << 33, 4, u64::MAX]);
    let mut lengths = vec![long, other];
    if least == 3 {
        lengths.insert(random.pick(&[0, 2, 2]), 0);
    }
    for (&axis, &extent) in axes.iter().zip(&lengths) {
        layout.extents[axis as usize] = extent;
        layout.strides[axis as usize] = 0;
    }
    true
}

fn span(call: &mut Call, random: &mut Random, place: usize) -> bool {
    far_span(&mut call.job.views[place].layout, random)
}

/// A span that does not fit i64, or hardly does.
pub fn far_span(layout: &mut Layout, random: &mut Random) -> bool {
    let Some(axis) = any_axis(layout, random) else {
        return false;
    };
    let high = 1i64 << 62;
    match random.below(4) {
        0 => {
            layout.extents[axis] = layout.extents[axis].max(3);
            layout.strides[axis] = random.pick(&[high, -high - 1, i64::MAX, i64::MIN]);
        }
        1 => {
            layout.extents[axis] = random.pick(&[(1 << 63) + 1, u64::MAX]);
            layout.strides[axis] = 0;
        }
        2 if layout.extents.len() > 1 && layout.strides.len() > 1 => {
            for (extent, stride) in layout.extents.iter_mut().zip(&mut layout.strides) {
                *extent = 2;
                *stride = random.pick(&[high, high, -high, high - 1]);
            }
        }
        _ => layout.strides[axis] = random.pick(&[high, -high, i64::MAX, i64::MIN]),
    }
    true
}

fn not_nested(call: &mut Call, random: &mut Random) -> bool {
    let layout = &mut call.job.views[2].layout;
    let Some(axis) = any_axis(layout, random) else {
        return false;
    };
    if layout.extents[axis] < 2 {
        return false;
    }
    let other = any_axis(layout, random).map_or(0, |other| layout.strides[other]);
    layout.strides[axis] = match random.below(4) {
        0 => 0,
        1 => other,
        2 => other.wrapping_neg(),
        _ => random.between(-4, 4),
    };
    true
}

fn vector_axis(call: &mut Call, random: &mut Random) -> bool {
    let rank = call.job.index().layout.extents.len() as u64;
    let vector = random.pick(&[rank + 1, rank + 1, rank + 2, 1 << 63, u64::MAX, 16]);
    match &mut call.job.spec {
        Spec::Gather(spec) => spec.index_vector_dim = vector,
        Spec::Scatter(spec) => spec.index_vector_dim = vector,
    }
    true
}

fn call_layout(call: &mut Call, random: &mut Random) -> bool {
    for _ in 0..random.pick(&[1, 1, 2]) {
        let place = random.below(3) as usize;
        let mut layout = call.job.views[place].layout.clone();
        change_layout(&mut layout, random);
        call.layouts[place] = Some(layout);
    }
    true
}

/// Changes a layout a little, or now and then not at all.
pub fn change_layout(layout: &mut Layout, random: &mut Random) {
    let axis = any_axis(layout, random);
    match (random.below(10), axis) {
        (0, _) => {}
        (1, _) => *layout = Layout::default(),
        (2, _) => layout.strides.push(1),
        (3, _) => {
            layout.extents.push(1);
            layout.strides.push(1);
        }
        (4, Some(_)) => {
            layout.extents.pop();
        }
        (5, Some(_)) => layout.extents.reverse(),
        (6 | 7, Some(axis)) => layout.extents[axis] = layout.extents[axis].wrapping_add(1),
        (_, Some(axis)) => layout.strides[axis] = layout.strides[axis].wrapping_neg() ^ 1,
        (_, None) => layout.extents.push(random.below(3)),
    }
}

/// Moves a view out of its slice, by one element or by far, or cuts the slice.
fn bounds(call: &mut Call, random: &mut Random, place: usize) -> bool {
    let len = call.slice_len(place);
    if random.percent(30) && len > 0 {
        let cut = random.size(0, len - 1);
        cut_slice(call, place, cut);
        return true;
    }
    move_out(&mut call.job.views[place], len, random);
    true
}

/// Moves a view out of a slice of this length, by one element or by far.
pub fn move_out(view: &mut View, len: usize, random: &mut Random) {
    let (mut low, mut high) = (i128::from(view.offset), i128::from(view.offset));
    for (&extent, &stride) in view.layout.extents.iter().zip(&view.layout.strides) {
        let reach = i128::from(extent.saturating_sub(1)) * i128::from(stride);
        low = low.saturating_add(reach.min(0));
        high = high.saturating_add(reach.max(0));
    }
    let no_cells = view.layout.extents.contains(&0);
    let (down, up) = match no_cells {
        true => (
            i128::from(view.offset) + 1,
            len as i128 - i128::from(view.offset) + 1,
        ),
        false => (low + 1, len as i128 - high),
    };
    let moved = match random.below(6) {
        0 | 1 => i128::from(view.offset) - down,
        2 | 3 => i128::from(view.offset) + up,
        // Still inside, if it was: a move that must not be refused.
        4 => i128::from(view.offset) + up - 1,
        _ => random.pick(&[i128::from(i64::MAX), i128::from(i64::MIN), 1 << 62]),
    };
    view.offset = i64::try_from(moved).unwrap_or(i64::MAX);
}

fn cut_slice(call: &mut Call, place: usize, len: usize) {
    let data = match place {
        2 => &mut call.dest,
        p if p == call.job.index_place() => return call.index.truncate(len),
        _ => &mut call.source,
    };
    cut_data(data, len);
}

pub fn cut_data(data: &mut Data, len: usize) {
    match data {
        Data::I32(v) => v.truncate(len),
        Data::F64(v) => v.truncate(len),
    }
}

/// Makes a list longer or shorter.
fn list(list: Option<&mut Vec<u64>>, random: &mut Random) -> bool {
    let Some(list) = list else { return false };
    match random.below(6) {
        0 => list.extend([1; 20]),
        1 => list.resize(random.size(9, 25), 1),
        2 | 3 => list.push(random.below(9)),
        _ => return list.pop().is_some(),
    }
    true
}

/// Puts an axis into a list that is out of range or is there already.
fn axes(list: Option<&mut Vec<u64>>, rank: usize, random: &mut Random) -> bool {
    let Some(list) = list else { return false };
    let rank = rank as u64;
    let far = random.pick(&[rank, rank, rank + 1, rank + 7, 1 << 63, u64::MAX]);
    if list.is_empty() {
        list.push(far);
        return true;
    }
    let place = random.below(list.len() as u64) as usize;
    match random.below(10) {
        0..=3 => list[place] = far,
        4 => list.push(far),
        5 => list.push(list[place]),
        6 => list.extend([list[place], far]),
        7 | 8 if list.len() > 1 => list[place] = list[(place + 1) % list.len()],
        _ => list.extend((0..20).map(|n| n % (rank + 2))),
    }
    true
}

fn window_above(call: &mut Call, random: &mut Random) -> bool {
    let extents = call.job.source().layout.extents.clone();
    let Some(spec) = gather(call) else {
        return false;
    };
    let axes = extents.len().min(spec.slice_sizes.len()) as u64;
    if axes == 0 {
        return false;
    }
    for _ in 0..random.pick(&[1, 1, 2]) {
        let axis = random.below(axes) as usize;
        let above = extents[axis].saturating_add(1);
        spec.slice_sizes[axis] = random.pick(&[above, above, u64::MAX]);
    }
    true
}

fn collapsed_window(call: &mut Call, random: &mut Random) -> bool {
    let extents = call.job.source().layout.extents.clone();
    let Some(spec) = gather(call) else {
        return false;
    };
    let axes: Vec<usize> = spec
        .collapsed_slice_dims
        .iter()
        .filter_map(|&axis| usize::try_from(axis).ok())
        .filter(|&axis| axis < extents.len().min(spec.slice_sizes.len()))
        .collect();
    let mut changed = false;
    for axis in axes {
        if !changed || random.percent(60) {
            let two = extents[axis].min(2);
            spec.slice_sizes[axis] = random.pick(&[0, two, two]);
            changed |= spec.slice_sizes[axis] != 1;
        }
    }
    changed
}

/// Makes the map longer or shorter, or the vector axis.
fn components(call: &mut Call, random: &mut Random) -> bool {
    let vector = vector(call);
    let rank = match &call.job.spec {
        Spec::Gather(_) => call.job.source(),
        Spec::Scatter(_) => call.job.dest(),
    };
    let rank = rank.layout.extents.len() as u64;
    let place = call.job.index_place();
    let index = &mut call.job.views[place].layout;
    if vector < index.extents.len().min(index.strides.len()) && random.percent(40) {
        index.extents[vector] = random.pick(&[0, 1, 2, 3, 1 << 32, (1 << 32) + 1, 1 << 63]);
        index.strides[vector] = 0;
        return true;
    }
    let map = match &mut call.job.spec {
        Spec::Gather(spec) => &mut spec.start_index_map,
        Spec::Scatter(spec) => &mut spec.scatter_dims_to_operand_dims,
    };
    match (0..rank).find(|axis| !map.contains(axis)) {
        Some(axis) if random.percent(50) => map.push(axis),
        _ => return map.pop().is_some(),
    }
    true
}

fn shape(call: &mut Call, random: &mut Random) -> bool {
    other_extents(&mut call.job.views[2].layout, random)
}

/// Other extents: one more or less, turned round, an axis more or less.
pub fn other_extents(layout: &mut Layout, random: &mut Random) -> bool {
    let Some(axis) = any_axis(layout, random) else {
        layout.extents.push(1);
        layout.strides.push(1);
        return true;
    };
    match random.below(5) {
        0 => layout.extents[axis] += 1,
        1 => layout.extents[axis] = layout.extents[axis].saturating_sub(1),
        2 => layout.extents.reverse(),
        3 if layout.extents.len() < 8 => {
            layout.extents.push(1);
            layout.strides.push(1);
        }
        _ => {
            layout.extents.remove(axis);
            layout.strides.remove(axis);
        }
    }
    true
}

/// The stride whose reach over `extent` is -2^63, which cannot be negated.
fn lowest_reach(extent: u64) -> Option<i64> {
    match extent {
        2 => Some(i64::MIN),
        3 => Some(i64::MIN / 2),
        5 => Some(i64::MIN / 4),
        _ => None,
    }
}

fn reset(layout: &mut Layout, mut axes: Vec<usize>, random: &mut Random) -> bool {
    random.shuffle(&mut axes);
    for axis in axes {
        let Some(stride) = layout.extents.get(axis).copied().and_then(lowest_reach) else {
            continue;
        };
        if let Some(slot) = layout.strides.get_mut(axis) {
            *slot = stride;
            return true;
        }
    }
    false
}

/// The operand's stride on a kept axis: over the window, or over the extent
/// alone, which is not refused.
fn window_reset(call: &mut Call, random: &mut Random) -> bool {
    let Some(spec) = gather(call) else {
        return false;
    };
    let (windows, hidden) = (spec.slice_sizes.clone(), spec.collapsed_slice_dims.clone());
    let layout = &mut call.job.views[0].layout;
    let whole = random.percent(60);
    let axes = (0..layout.extents.len()).filter(|&axis| {
        let window = windows.get(axis).copied().unwrap_or(0);
        let same = window == layout.extents[axis];
        same == whole && !hidden.contains(&(axis as u64))
    });
    let axes = axes.collect();
    reset(layout, axes, random)
}

fn batch_reset(call: &mut Call, random: &mut Random) -> bool {
    let vector = vector(call);
    let place = call.job.index_place();
    let layout = &mut call.job.views[place].layout;
    let axes = (0..layout.extents.len()).filter(|&axis| axis != vector);
    let axes = axes.collect();
    reset(layout, axes, random)
}

/// So many batch and window axes that the expected rank passes 8.
fn large_expected_rank(call: &mut Call, random: &mut Random) -> bool {
    let vector = vector(call);
    let index = &mut call.job.views[1].layout;
    if index.extents.len() != index.strides.len() || vector > index.extents.len() {
        return false;
    }
    let scalar = vector == index.extents.len();
    while index.extents.len() < 8 {
        index.extents.push(1);
        index.strides.push(0);
    }
    let (rank, operand_rank) = (index.extents.len(), call.job.views[0].layout.extents.len());
    let Some(spec) = gather(call) else {
        return false;
    };
    if scalar {
        spec.index_vector_dim = rank as u64;
    }
    let batch = if scalar { rank } else { rank - 1 };
    let kept = operand_rank.saturating_sub(spec.collapsed_slice_dims.len());
    if random.percent(50) && kept > 0 && spec.offset_dims.len() == kept {
        let out = (batch + kept) as u64;
        spec.offset_dims = random.choose(batch + kept, kept);
        spec.offset_dims[0] = random.pick(&[out, out - 1, 8, 9]);
    }
    true
}

fn count_above_rank(call: &mut Call, _random: &mut Random) -> bool {
    let Some(spec) = scatter(call) else {
        return false;
    };
    let count = spec.update_window_dims.len();
    if count == 0 {
        return false;
    }
    let layout = &mut call.job.views[1].layout;
    layout.extents.truncate(count - 1);
    layout.strides.truncate(count - 1);
    true
}

fn batch_rank(call: &mut Call, random: &mut Random) -> bool {
    let layout = &mut call.job.views[1].layout;
    if random.percent(50) && layout.extents.len() < 8 {
        layout.extents.push(1);
        layout.strides.push(0);
        return true;
    }
    layout.extents.pop().is_some() && layout.strides.pop().is_some()
}

/// The axes of the updates that show the batch.
fn update_batch_axes(call: &mut Call) -> Vec<usize> {
    let rank = call.job.source().layout.extents.len();
    let Some(spec) = scatter(call) else {
        return Vec::new();
    };
    let shown = &spec.update_window_dims;
    (0..rank)
        .filter(|&a| !shown.contains(&(a as u64)))
        .collect()
}

fn batch_extents(call: &mut Call, random: &mut Random) -> bool {
    let mut axes = update_batch_axes(call);
    random.shuffle(&mut axes);
    let extents = &mut call.job.views[1].layout.extents;
    match (random.below(3), &axes[..]) {
        (_, []) => false,
        (0, [a, b, ..]) if extents[*a] != extents[*b] => {
            extents.swap(*a, *b);
            true
        }
        (_, [a, ..]) => {
            extents[*a] = random.pick(&[extents[*a] + 1, extents[*a].saturating_sub(1), 0]);
            true
        }
    }
}

fn update_window_above(call: &mut Call, random: &mut Random) -> bool {
    let Some(spec) = scatter(call) else {
        return false;
    };
    let shown = spec.update_window_dims.clone();
    let extents = &mut call.job.views[1].layout.extents;
    let mut changed = false;
    for axis in shown {
        let axis = usize::try_from(axis).unwrap_or(usize::MAX);
        if axis < extents.len() && (!changed || random.percent(40)) {
            extents[axis] += random.pick(&[1, 1, 7]);
            changed = true;
        }
    }
    changed
}

/// An inserted axis over an extent of 0: a window of 1 is too large for it.
fn inserted_on_nothing(call: &mut Call, random: &mut Random) -> bool {
    let no_updates = random.percent(50);
    let Some(spec) = scatter(call) else {
        return false;
    };
    let Some(&axis) = spec.inserted_window_dims.first() else {
        return false;
    };
    let Some(extent) = call.job.views[2].layout.extents.get_mut(axis as usize) else {
        return false;
    };
    *extent = 0;
    if no_updates {
        let axes = update_batch_axes(call);
        let Some(&axis) = axes.first() else {
            return true;
        };
        call.job.views[1].layout.extents[axis] = 0;
        let vector = vector(call);
        let index = &mut call.job.views[0].layout.extents;
        let first = (0..index.len()).find(|&axis| axis != vector);
        if let Some(first) = first {
            index[first] = 0;
        }
    }
    true
}

/// The index axes that show the batch.
fn index_batch_axes(call: &Call) -> Vec<usize> {
    let vector = vector(call);
    let rank = call.job.index().layout.extents.len();
    (0..rank).filter(|&axis| axis != vector).collect()
}

/// A batch whose product overflows, where those of index and updates are
/// held at 0 by a vector axis and a window axis of extent 0 before it.
fn batch_product(call: &mut Call, random: &mut Random) -> bool {
    let (shown, batch) = (update_batch_axes(call), index_batch_axes(call));
    let vector = vector(call);
    let no_components = call.job.index().layout.extents.get(vector) == Some(&0);
    let unequal = |l: &Layout| l.extents.len() != l.strides.len();
    if call.job.views.iter().any(|view| unequal(&view.layout)) {
        return false;
    }
    if shown.len() != batch.len() || batch.len() < 2 || vector > 1 || !no_components {
        return false;
    }
    let Some(spec) = scatter(call) else {
        return false;
    };
    let window = spec.update_window_dims.iter().copied().min();
    if window.is_none_or(|axis| axis > 1) {
        return false;
    }
    let window = window.unwrap_or(0) as usize;
    call.job.views[1].layout.extents[window] = 0;
    for place in 0..2 {
        let long = random.pick(&[1 << 32, 1 << 40]);
        call.job.views[0].layout.extents[batch[place]] = long;
        call.job.views[1].layout.extents[shown[place]] = long;
        call.job.views[0].layout.strides[batch[place]] = random.between(1, 3);
        call.job.views[1].layout.strides[shown[place]] = random.between(1, 3);
    }
    true
}

/// Steps that do not fit when multiplied by the extent, on one side of the
/// batch or the other.
fn batch_walk(call: &mut Call, random: &mut Random) -> bool {
    let (shown, batch) = (update_batch_axes(call), index_batch_axes(call));
    let updates = random.percent(50);
    let (place, axes) = if updates { (1, shown) } else { (0, batch) };
    steep(&mut call.job.views[place].layout, &axes, random)
}

fn window_walk(call: &mut Call, random: &mut Random) -> bool {
    let Some(spec) = scatter(call) else {
        return false;
    };
    let axes: Vec<usize> = spec
        .update_window_dims
        .iter()
        .filter_map(|&axis| usize::try_from(axis).ok())
        .collect();
    steep(&mut call.job.views[1].layout, &axes, random)
}

fn steep(layout: &mut Layout, axes: &[usize], random: &mut Random) -> bool {
    let rank = layout.strides.len().min(layout.extents.len());
    let axes: Vec<usize> = axes
        .iter()
        .copied()
        .filter(|&axis| axis < rank && layout.extents[axis] > 1)
        .collect();
    if axes.is_empty() {
        return false;
    }
    let axis = random.pick(&axes);
    let high = 1i64 << 62;
    layout.strides[axis] = random.pick(&[high, -high, -high - 1, i64::MAX, i64::MIN]);
    true
}

/// Three components and more at a stride of 2^62.
fn component_offsets(call: &mut Call, random: &mut Random) -> bool {
    let vector = vector(call);
    let layout = &mut call.job.views[0].layout;
    if layout.extents.get(vector).is_none_or(|&count| count < 2) {
        return false;
    }
    let (high, few) = (1i64 << 62, layout.extents[vector] == 2);
    let Some(stride) = layout.strides.get_mut(vector) else {
        return false;
    };
    *stride = match few {
        // Two components fit at any stride.
        true if random.percent(80) => return false,
        true => random.pick(&[high, i64::MIN, i64::MAX]),
        false => random.pick(&[high, high, -high - 1, -high, i64::MIN]),
    };
    true
}

/// Batch and window each reach 2^62 in the updates: each walk fits, and the
/// span of both, which does not, is not tested.
fn update_span(call: &mut Call, random: &mut Random) -> bool {
    let batch = update_batch_axes(call);
    let Some(spec) = scatter(call) else {
        return false;
    };
    let window = spec.update_window_dims.last().map(|&axis| axis as usize);
    let layout = &mut call.job.views[1].layout;
    let (Some(&batch), Some(window)) = (batch.last(), window) else {
        return false;
    };
    let two = |axis: usize| layout.extents.get(axis) == Some(&2);
    let rank = layout.strides.len();
    if !two(batch) || !two(window) || batch.max(window) >= rank {
        return false;
    }
    let high = random.pick(&[1i64 << 62, -(1 << 62) - 1]);
    layout.strides[batch] = high;
    layout.strides[window] = high;
    true
}
