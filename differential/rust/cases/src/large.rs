//! Calls with hundreds to some thousands of cells, so that the inner loops
//! run long: wide windows, many starts, windows that overlap or lie at the
//! edges, and elements of any bits.

use crate::random::Random;
use crate::valid::{gather_of, scatter_of, with_batch, Windowed};
use lines::{Call, Data, Spec, View};

const LEAST_SHOWN: u64 = 100;
const MOST_SHOWN: u64 = 5000;
const MOST_GRID: u64 = 5000;

/// The large cases of a seed, in order. Nearly all are accepted and done.
pub struct Large(Random);

impl Large {
    pub fn new(seed: u64) -> Self {
        Large(Random::new(seed))
    }
}

impl Iterator for Large {
    type Item = Call;

    fn next(&mut self) -> Option<Call> {
        let random = &mut self.0;
        let w = windowed(random);
        let reaches = w.extents.clone();
        let mut call = match random.percent(50) {
            true => gather_of(random, w),
            false => scatter_of(random, w),
        };
        if random.percent(40) {
            pack(random, &mut call);
        }
        if random.percent(70) {
            call.index = starts(random, call.index.len(), &reaches);
        }
        fill(random, &mut call.source);
        fill(random, &mut call.dest);
        Some(call)
    }
}

fn windowed(random: &mut Random) -> Windowed {
    loop {
        let windowed = match random.below(4) {
            0 => single_cells(random),
            _ => windows(random),
        };
        let cells = windowed.shape.iter().product::<u64>();
        if (LEAST_SHOWN..=MOST_SHOWN).contains(&cells) {
            return windowed;
        }
    }
}

/// Extents of any size, narrow and wide, whose product is at most `most`.
fn extents(random: &mut Random, rank: usize, most: u64) -> Vec<u64> {
    let mut left = most;
    let mut extents: Vec<u64> = (0..rank)
        .map(|_| {
            let widest = random.pick(&[1, 3, 9, 33, 129, 1025]);
            let extent = (random.below(widest) + 1).min(left);
            left /= extent;
            extent
        })
        .collect();
    random.shuffle(&mut extents);
    extents
}

fn windows(random: &mut Random) -> Windowed {
    let rank = random.size(1, 4);
    let extents = extents(random, rank, MOST_GRID);
    let hidden: Vec<u64> = (0..rank as u64).filter(|_| random.percent(15)).collect();
    let window = |axis: usize| match extents[axis] {
        _ if hidden.contains(&(axis as u64)) => 1,
        extent if random.percent(30) => extent,
        extent if random.percent(30) => extent - extent.min(random.below(4) + 1) + 1,
        extent => random.below(extent) + 1,
    };
    let windows: Vec<u64> = (0..rank).map(window).collect();
    let batch_rank = random.size(0, 3);
    let batch = self::extents(random, batch_rank, 256);
    with_batch(random, extents, windows, hidden, batch)
}

/// Windows of one cell each, and many starts.
fn single_cells(random: &mut Random) -> Windowed {
    let rank = random.size(1, 3);
    let extents = extents(random, rank, MOST_GRID);
    let none_hidden = random.percent(30);
    let hidden: Vec<u64> = (0..rank as u64)
        .filter(|_| !none_hidden && random.percent(80))
        .collect();
    let batch_rank = random.size(1, 3);
    let batch = self::extents(random, batch_rank, MOST_SHOWN);
    with_batch(random, extents, vec![1; rank], hidden, batch)
}

/// Packs the grid and the windows, the window's axes first in both, so that
/// its first axis has stride 1 on both sides.
fn pack(random: &mut Random, call: &mut Call) {
    let views = &mut call.job.views;
    let stretched = |view: &View| view.layout.extents.iter().any(|&e| e > MOST_GRID);
    if views.iter().any(stretched) {
        return;
    }
    let (grid, windows, hidden, shown) = match &call.job.spec {
        Spec::Gather(spec) => (0, 2, &spec.collapsed_slice_dims, &spec.offset_dims),
        Spec::Scatter(spec) => (2, 1, &spec.inserted_window_dims, &spec.update_window_dims),
    };
    let grid_rank = views[grid].layout.extents.len();
    let mut grid_order = others(grid_rank, hidden);
    grid_order.extend(hidden);
    let mut order = shown.clone();
    order.extend(others(views[windows].layout.extents.len(), shown));
    let grid_len = pack_view(random, &mut views[grid], &grid_order);
    let len = pack_view(random, &mut views[windows], &order);
    let (source_len, dest_len) = if grid == 0 {
        (grid_len, len)
    } else {
        (len, grid_len)
    };
    resize(&mut call.source, source_len);
    resize(&mut call.dest, dest_len);
}

/// The axes below `rank` that are not in the list, rising.
fn others(rank: usize, list: &[u64]) -> Vec<u64> {
    (0..rank as u64).filter(|a| !list.contains(a)).collect()
}

/// Gives the view strides packed in this order, and the slice's length.
fn pack_view(random: &mut Random, view: &mut View, order: &[u64]) -> usize {
    let mut stride = 1;
    for &axis in order {
        view.layout.strides[axis as usize] = stride;
        stride *= view.layout.extents[axis as usize] as i64;
    }
    view.offset = random.between(0, 3);
    (view.offset + stride + random.between(0, 3)) as usize
}

fn resize(data: &mut Data, len: usize) {
    match data {
        Data::I32(cells) => cells.resize(len, 0),
        Data::F64(cells) => cells.resize(len, 0),
    }
}

/// Starts all over the grid, at its edges and past them, or close together.
fn starts(random: &mut Random, len: usize, reaches: &[u64]) -> Vec<i64> {
    let style = random.below(4);
    let middle = random.pick(reaches) as i64 / 2;
    let start = |_| {
        let reach = random.pick(reaches) as i64;
        match style {
            0 => random.between(0, reach),
            1 => random.pick(&[i64::MIN, -1, 0, 1, reach - 1, reach, reach + 1, i64::MAX]),
            2 => middle + random.between(-2, 2),
            _ => random.between(-reach, 2 * reach),
        }
    };
    (0..len).map(start).collect()
}

fn fill(random: &mut Random, data: &mut Data) {
    let style = random.below(4);
    match data {
        Data::I32(cells) => cells.iter_mut().for_each(|x| *x = whole(random, style)),
        Data::F64(cells) => cells.iter_mut().for_each(|x| *x = float(random, style)),
    }
}

/// Small, of any bits, or so near the ends that sums wrap.
fn whole(random: &mut Random, style: u64) -> i32 {
    let near = random.between(0, 9) as i32;
    match style {
        0 => near - 5,
        1 => random.next() as i32,
        2 => i32::MAX - near,
        _ if random.percent(50) => i32::MIN + near,
        _ => i32::MAX - near,
    }
}

/// Whole numbers, any bits, numbers of any size whose sums depend on their
/// order, or those with a few of any bits.
fn float(random: &mut Random, style: u64) -> u64 {
    let uneven = random.between(-9999, 9999) as f64 * 10f64.powi(random.between(-9, 9) as i32);
    match style {
        0 => (random.between(-9, 9) as f64).to_bits(),
        1 => random.next(),
        2 if random.percent(5) => random.next(),
        _ => uneven.to_bits(),
    }
}
