//! Calls that are accepted and done, or nearly always so.

use crate::contents::{elements, starts};
use crate::random::Random;
use crate::starts::{put_at_ends, Components};
use lines::{Call, Element, GatherSpec, Job, Layout, Rule, ScatterSpec, Spec, View};

const MOST_GRID: u64 = 64;
const MOST_SHOWN: u64 = 100;

pub fn call(random: &mut Random) -> Call {
    match random.percent(50) {
        true => gather(random),
        false => scatter(random),
    }
}

pub fn element(random: &mut Random) -> Element {
    match random.percent(50) {
        true => Element::I32,
        false => Element::F64,
    }
}

/// The axes of a window on a grid, and the batch that goes with them.
pub struct Windowed {
    pub extents: Vec<u64>,
    pub windows: Vec<u64>,
    /// Axes collapsed or inserted, in list order.
    pub hidden: Vec<u64>,
    pub map: Vec<u64>,
    pub batch: Vec<u64>,
    pub index_extents: Vec<u64>,
    pub vector: u64,
    /// Which axes of the destination or the updates show the window.
    pub shown: Vec<u64>,
    pub shape: Vec<u64>,
}

/// A rank: mostly small, now and then a large one.
fn few(random: &mut Random, most: usize) -> usize {
    let (low, high) = match random.below(10) {
        0 => (5, 8),
        1..=3 => (0, 4),
        _ => (0, 2),
    };
    random.size(low.min(most), high.min(most))
}

/// Extents whose product stays small; now and then a 0.
fn extents(random: &mut Random, rank: usize, most_cells: u64) -> Vec<u64> {
    let mut left = most_cells;
    let mut extents: Vec<u64> = (0..rank)
        .map(|_| {
            let extent = match random.below(8) {
                0..=1 => 1,
                2..=4 => 2,
                5..=6 => 3,
                _ => random.below(7) + 1,
            };
            let extent = extent.min(left);
            left /= extent;
            extent
        })
        .collect();
    random.shuffle(&mut extents);
    if rank > 0 && random.percent(3) {
        extents[random.below(rank as u64) as usize] = 0;
    }
    extents
}

fn windowed(random: &mut Random) -> Windowed {
    loop {
        let windowed = windowed_of_any_size(random);
        if windowed.shape.iter().product::<u64>() <= MOST_SHOWN {
            return windowed;
        }
    }
}

fn windowed_of_any_size(random: &mut Random) -> Windowed {
    // A grid without axes has no starts.
    let rank = few(random, 8).max(usize::from(random.percent(60)));
    let extents = extents(random, rank, MOST_GRID);
    let hidden = hidden_axes(random, &extents);
    let kept: Vec<u64> = (0..rank as u64).filter(|a| !hidden.contains(a)).collect();
    let window = |axis: usize, random: &mut Random| match extents[axis] {
        _ if hidden.contains(&(axis as u64)) => 1,
        _ if random.percent(2) => 0,
        extent if random.percent(30) => extent,
        extent => random.below(extent + 1).max(u64::from(extent > 0)),
    };
    let windows: Vec<u64> = (0..rank).map(|axis| window(axis, random)).collect();
    // Without a grid axis there is a vector axis, of no components.
    let batch_rank = few(random, (8 - kept.len()).min(7 + rank));
    let batch = self::extents(random, batch_rank, 16);
    with_batch(random, extents, windows, hidden, batch)
}

/// Windows with the batch that is shown beside them.
pub fn with_batch(
    random: &mut Random,
    extents: Vec<u64>,
    windows: Vec<u64>,
    hidden: Vec<u64>,
    batch: Vec<u64>,
) -> Windowed {
    let rank = extents.len();
    let kept: Vec<u64> = (0..rank as u64).filter(|a| !hidden.contains(a)).collect();
    let scalar = rank > 0 && (batch.len() == 8 || random.percent(30));
    let (map, index_extents, vector) = index(random, rank, &batch, scalar);
    let mut shown = random.choose(kept.len() + batch.len(), kept.len());
    if random.percent(40) {
        shown.sort();
    }
    let kept_windows: Vec<u64> = kept.iter().map(|&axis| windows[axis as usize]).collect();
    let shape = shape(&shown, &kept_windows, &batch);
    Windowed {
        extents,
        windows,
        hidden,
        map,
        batch,
        index_extents,
        vector,
        shown,
        shape,
    }
}

/// Axes to be collapsed or inserted, in any order; not those without cells.
fn hidden_axes(random: &mut Random, extents: &[u64]) -> Vec<u64> {
    let mut hidden: Vec<u64> = (0..extents.len())
        .filter(|&axis| extents[axis] > 0 && random.percent(35))
        .map(|axis| axis as u64)
        .collect();
    random.shuffle(&mut hidden);
    hidden
}

/// Windows on the axes that show them, batch extents on the others.
pub fn shape(shown: &[u64], windows: &[u64], batch: &[u64]) -> Vec<u64> {
    let mut batch = batch.iter().copied();
    (0..(windows.len() + batch.len()) as u64)
        .map(|axis| match shown.iter().position(|&a| a == axis) {
            Some(place) => windows[place],
            None => batch.next().expect("a batch axis for each axis left"),
        })
        .collect()
}

/// The start map, the index extents and the vector axis.
fn index(
    random: &mut Random,
    rank: usize,
    batch: &[u64],
    scalar: bool,
) -> (Vec<u64>, Vec<u64>, u64) {
    if scalar {
        return (random.choose(rank, 1), batch.to_vec(), batch.len() as u64);
    }
    let components = match random.percent(50) {
        true => rank,
        false => random.size(0, rank),
    };
    let map = random.choose(rank, components);
    let vector = random.size(0, batch.len());
    let mut extents = batch.to_vec();
    extents.insert(vector, components as u64);
    (map, extents, vector as u64)
}

/// Strides for a view that is read: packed in some order, or small ones of
/// either sign, with zeros.
pub fn any_strides(random: &mut Random, extents: &[u64]) -> Vec<i64> {
    if random.percent(30) {
        return extents.iter().map(|_| random.between(-3, 3)).collect();
    }
    let mut strides = nested_strides(random, extents);
    if random.percent(25) {
        for stride in &mut strides {
            if random.percent(40) {
                *stride = 0;
            }
        }
    }
    strides
}

/// Strides under which no two cells share an element. Axes of extent 1 may
/// have any stride at all.
pub fn nested_strides(random: &mut Random, extents: &[u64]) -> Vec<i64> {
    let mut order: Vec<usize> = (0..extents.len()).collect();
    if random.percent(60) {
        random.shuffle(&mut order);
    }
    let (gaps, negative, odd_units) = (random.percent(30), random.percent(40), random.percent(25));
    let mut strides = vec![0; extents.len()];
    let mut reach = 0i64;
    for axis in order {
        let gap = if gaps { random.between(0, 2) } else { 0 };
        let mut stride = reach + 1 + gap;
        reach += stride * (extents[axis].max(1) as i64 - 1);
        if negative && random.percent(50) {
            stride = -stride;
        }
        if odd_units && extents[axis] == 1 {
            stride = random.pick(&[0, 1, -1, 7, 1 << 62, i64::MAX, i64::MIN]);
        }
        strides[axis] = stride;
    }
    strides
}

/// A view with all its cells in a slice, and the slice's length.
pub fn placed(random: &mut Random, extents: Vec<u64>, strides: Vec<i64>) -> (View, usize) {
    let (mut low, mut high) = (0i64, 0i64);
    for (&extent, &stride) in extents.iter().zip(&strides) {
        let reach = stride * (extent.max(1) as i64 - 1);
        low += reach.min(0);
        high += reach.max(0);
    }
    let (before, after) = match random.percent(40) {
        true => (random.between(0, 3), random.between(0, 3)),
        false => (0, 0),
    };
    let no_cells = extents.contains(&0);
    let (offset, len) = match no_cells {
        true => (before, before + after),
        false => (before - low, before - low + high + 1 + after),
    };
    let layout = Layout { extents, strides };
    (View { layout, offset }, len as usize)
}

pub fn gather(random: &mut Random) -> Call {
    let w = windowed(random);
    gather_of(random, w)
}

pub fn gather_of(random: &mut Random, w: Windowed) -> Call {
    let element = element(random);
    let operand_strides = any_strides(random, &w.extents);
    let (mut operand, operand_len) = placed(random, w.extents, operand_strides);
    stretch(random, &mut operand.layout, &w.windows);
    let index_strides = any_strides(random, &w.index_extents);
    let (index, index_len) = placed(random, w.index_extents, index_strides);
    let dest_strides = nested_strides(random, &w.shape);
    let (dest, dest_len) = placed(random, w.shape, dest_strides);
    let extents = &operand.layout.extents;
    let reach = extents.iter().copied().filter(|&e| e < 99);
    let reach = reach.max().unwrap_or(0) as i64;
    let mut starts = starts(random, index_len, reach);
    let components = components(&w.map, extents, &w.windows, &index, w.vector);
    put_some_at_ends(random, &components, &mut starts);
    let spec = GatherSpec {
        offset_dims: w.shown,
        collapsed_slice_dims: w.hidden,
        start_index_map: w.map,
        index_vector_dim: w.vector,
        slice_sizes: w.windows,
    };
    Call {
        job: Job {
            element,
            views: [operand, index, dest],
            spec: Spec::Gather(spec),
        },
        source: elements(random, element, operand_len),
        index: starts,
        dest: elements(random, element, dest_len),
        operand: None,
        layouts: [None, None, None],
        rule: Rule::Add,
    }
}

/// The components of the starts of windows on a grid.
fn components<'a>(
    map: &[u64],
    extents: &[u64],
    windows: &[u64],
    index: &'a View,
    vector: u64,
) -> Components<'a> {
    let last = |&axis: &u64| extents[axis as usize] - windows[axis as usize];
    Components {
        index,
        vector,
        lasts: map.iter().map(last).collect(),
    }
}

/// Starts at the ends of what the clamp leaves, in half the calls.
fn put_some_at_ends(random: &mut Random, components: &Components, starts: &mut [i64]) {
    if random.percent(50) {
        put_at_ends(random, components, starts);
    }
}

/// Now and then makes an axis of stride 0 very long: it needs no more room.
fn stretch(random: &mut Random, layout: &mut Layout, windows: &[u64]) {
    if layout.extents.is_empty() || !random.percent(6) {
        return;
    }
    let axis = random.below(layout.extents.len() as u64) as usize;
    if layout.extents[axis] == 0 || layout.strides[axis] != 0 {
        return;
    }
    let long = random.pick(&[
        1 << 31,
        (1 << 32) + 1,
        1 << 40,
        1 << 62,
        (1 << 63) - 1,
        1 << 63,
    ]);
    let before = std::mem::replace(&mut layout.extents[axis], long);
    let fits = layout
        .extents
        .iter()
        .try_fold(1u64, |n, &e| n.checked_mul(e));
    if fits.is_none() || windows[axis] > long {
        layout.extents[axis] = before;
    }
}

pub fn scatter(random: &mut Random) -> Call {
    let mut w = windowed(random);
    // More batches meet more often on one cell.
    while w.batch.len() < 2 && random.percent(50) {
        w = windowed(random);
    }
    scatter_of(random, w)
}

pub fn scatter_of(random: &mut Random, w: Windowed) -> Call {
    let element = element(random);
    let index_strides = any_strides(random, &w.index_extents);
    let (index, index_len) = placed(random, w.index_extents, index_strides);
    let update_strides = any_strides(random, &w.shape);
    let (updates, update_len) = placed(random, w.shape, update_strides);
    let reach = w.extents.iter().copied().max().unwrap_or(0) as i64;
    let mut starts = starts(random, index_len, reach);
    let components = components(&w.map, &w.extents, &w.windows, &index, w.vector);
    put_some_at_ends(random, &components, &mut starts);
    let dest_strides = nested_strides(random, &w.extents);
    let (dest, dest_len) = placed(random, w.extents, dest_strides);
    let spec = ScatterSpec {
        update_window_dims: w.shown,
        inserted_window_dims: w.hidden,
        scatter_dims_to_operand_dims: w.map,
        index_vector_dim: w.vector,
    };
    Call {
        job: Job {
            element,
            views: [index, updates, dest],
            spec: Spec::Scatter(spec),
        },
        index: starts,
        source: elements(random, element, update_len),
        dest: elements(random, element, dest_len),
        operand: None,
        layouts: [None, None, None],
        rule: Rule::Add,
    }
}
