//! Layouts at the edges of u64 and i64, in calls that never run long: a
//! window of 0 leaves nothing to do, and a layout that reaches far is refused
//! by 9 at the latest.

use crate::contents::{elements, starts};
use crate::random::Random;
use crate::valid::{self, element};
use lines::{Call, Element, GatherSpec, Job, Layout, Rule, ScatterSpec, Spec, View};

pub const EXTENTS: [u64; 12] = [
    0,
    1,
    1,
    2,
    2,
    3,
    1 << 31,
    1 << 32,
    1 << 62,
    (1 << 63) - 1,
    1 << 63,
    u64::MAX,
];

pub const STRIDES: [i64; 16] = [
    0,
    0,
    0,
    1,
    -1,
    2,
    1 << 31,
    1 << 61,
    (1 << 62) - 1,
    1 << 62,
    (1 << 62) + 1,
    -(1 << 62),
    -(1 << 62) - 1,
    i64::MAX,
    i64::MIN,
    i64::MIN + 1,
];

pub fn call(random: &mut Random) -> Call {
    match random.below(12) {
        0..=5 => batch(random),
        6..=7 => window(random),
        8..=9 => gather(random),
        10 => long_operand(random),
        _ => unread_index(random),
    }
}

/// A gather of none or of one from an axis as long as an axis can be.
fn long_operand(random: &mut Random) -> Call {
    let extent = random.pick(&[1 << 62, (1 << 63) - 1, 1 << 63]);
    let window = random.below(2);
    let mut call = gather(random);
    call.job.views = [
        view(vec![extent], vec![0], random.between(0, 2)),
        view(vec![1], vec![1], random.between(0, 3)),
        view(vec![window], vec![1], random.between(0, 2)),
    ];
    call.job.spec = Spec::Gather(GatherSpec {
        offset_dims: vec![0],
        start_index_map: vec![0],
        slice_sizes: vec![window],
        ..GatherSpec::default()
    });
    call
}

/// A call without components: its index has no cells and far strides, and is
/// not read.
fn unread_index(random: &mut Random) -> Call {
    loop {
        let mut call = valid::call(random);
        let place = call.job.index_place();
        let index = &mut call.job.views[place].layout;
        let vector = match &call.job.spec {
            Spec::Gather(spec) => spec.index_vector_dim as usize,
            Spec::Scatter(spec) => spec.index_vector_dim as usize,
        };
        if index.extents.get(vector) != Some(&0) {
            continue;
        }
        let far = random.below(index.extents.len() as u64) as usize;
        index.strides[far] = random.pick(&STRIDES);
        call.job.views[place].offset = random.between(0, 3);
        call.index = starts(random, 3, 2);
        return call;
    }
}

/// A walk's axes: extents with the strides of both sides.
struct Walk {
    extents: Vec<u64>,
    source: Vec<i64>,
    dest: Vec<i64>,
}

/// Two long axes of stride 0 that merge, past u64 or just to 2^63, with
/// perhaps an axis after them. A 0 before holds the product at 0, and the axis
/// of extent 1 between keeps the 0 apart from them.
fn long_merge(random: &mut Random) -> Walk {
    let (first, second) = random.pick(&[(1 << 62, 4), (1 << 32, 1 << 32), (1 << 62, 2)]);
    let mut walk = Walk {
        extents: vec![0, 1, first, second],
        source: vec![random.pick(&STRIDES), 1, 0, 0],
        dest: vec![random.pick(&STRIDES), random.pick(&STRIDES), 0, 0],
    };
    if random.percent(30) {
        walk.extents.push(random.pick(&[1, 2]));
        walk.source.push(random.pick(&[0, 1]));
        walk.dest.push(random.pick(&[0, 1]));
    }
    walk
}

fn walk(random: &mut Random, rank: usize) -> Walk {
    let mut walk = Walk {
        extents: Vec::new(),
        source: Vec::new(),
        dest: Vec::new(),
    };
    let tame = random.percent(40);
    for axis in 0..rank {
        let mut extent = match tame {
            true => random.pick(&EXTENTS[..6]),
            false => random.pick(&EXTENTS),
        };
        if axis == 0 && random.percent(30) {
            extent = 0;
        }
        let (mut source, mut dest) = (random.pick(&STRIDES), random.pick(&STRIDES));
        if axis > 0 && random.percent(45) {
            let before = walk.extents[axis - 1] as i64;
            source = walk.source[axis - 1].wrapping_mul(before);
            dest = walk.dest[axis - 1].wrapping_mul(before);
        }
        walk.extents.push(extent);
        walk.source.push(source);
        walk.dest.push(dest);
    }
    walk
}

fn view(extents: Vec<u64>, strides: Vec<i64>, offset: i64) -> View {
    View {
        layout: Layout { extents, strides },
        offset,
    }
}

/// A scatter whose batch walk is at the edges. The window axis has extent 0,
/// first or last among the update axes; the index has no components or some.
fn batch(random: &mut Random) -> Call {
    let rank = random.size(1, 4);
    let walk = match random.percent(10) {
        true => long_merge(random),
        false => walk(random, rank),
    };
    let rank = walk.extents.len();
    let components = random.pick(&[0, 0, 0, 1, 2, 3]);
    let grid_rank = components.max(1);
    let vector = random.pick(&[0, 0, rank]);
    let (mut index_extents, mut index_strides) = (walk.extents.clone(), walk.source);
    index_extents.insert(vector, components as u64);
    index_strides.insert(vector, random.pick(&STRIDES));
    let mut update_extents = walk.extents;
    let mut update_strides = walk.dest;
    let shown = random.pick(&[0, 0, rank]);
    for _ in 0..grid_rank {
        update_extents.insert(shown, 0);
        update_strides.insert(shown, 1);
    }
    let dest_strides = (0..grid_rank).map(|axis| 1 << axis).collect();
    let spec = ScatterSpec {
        update_window_dims: (shown..shown + grid_rank).map(|a| a as u64).collect(),
        inserted_window_dims: Vec::new(),
        scatter_dims_to_operand_dims: random.choose(grid_rank, components),
        index_vector_dim: vector as u64,
    };
    let views = [
        view(index_extents, index_strides, random.between(0, 2)),
        view(update_extents, update_strides, random.between(0, 2)),
        view(vec![2; grid_rank], dest_strides, 0),
    ];
    let len = 1 << grid_rank;
    scattered(random, views, spec, len)
}

fn scattered(random: &mut Random, views: [View; 3], spec: ScatterSpec, len: usize) -> Call {
    let element = element(random);
    Call {
        job: Job {
            element,
            views,
            spec: Spec::Scatter(spec),
        },
        index: starts(random, 2, 2),
        source: elements(random, element, 2),
        dest: elements(random, element, len),
        operand: None,
        layouts: [None, None, None],
        rule: Rule::Add,
    }
}

/// A scatter whose window walk is at the edges, with a batch of none or one.
fn window(random: &mut Random) -> Call {
    let rank = random.size(1, 3);
    let walk = walk(random, rank);
    let batch = random.below(2);
    let mut dest_extents = walk.extents.clone();
    for extent in &mut dest_extents {
        if random.percent(30) {
            *extent = extent.saturating_add(random.below(3));
        }
    }
    let mapped = random.size(0, rank.min(1));
    let spec = ScatterSpec {
        update_window_dims: (1..=rank as u64).collect(),
        inserted_window_dims: Vec::new(),
        scatter_dims_to_operand_dims: random.choose(rank, mapped),
        index_vector_dim: 1,
    };
    let views = [
        view(vec![batch, mapped as u64], vec![1, 1], 0),
        view(
            [vec![batch], walk.extents].concat(),
            [vec![1], walk.source].concat(),
            0,
        ),
        view(dest_extents, walk.dest, random.between(0, 2)),
    ];
    scattered(random, views, spec, 3)
}

/// A gather whose operand is at the edges, with small windows.
fn gather(random: &mut Random) -> Call {
    let rank = random.size(1, 3);
    let walk = walk(random, rank);
    let windows: Vec<u64> = walk
        .extents
        .iter()
        .map(|&extent| extent.min(random.pick(&[0, 1, 1, 2, 3])))
        .collect();
    let mapped = random.size(0, rank);
    let spec = GatherSpec {
        offset_dims: (0..rank as u64).collect(),
        collapsed_slice_dims: Vec::new(),
        start_index_map: random.choose(rank, mapped),
        index_vector_dim: 0,
        slice_sizes: windows.clone(),
    };
    let index_stride = random.pick(&[1, 1, 1 << 62, i64::MIN]);
    let batch_stride = random.pick(&STRIDES);
    let batch = random.pick(&[0, 1, 2, 2]);
    let dest_strides = match random.percent(70) {
        true => (0..=rank as u32).map(|axis| 4i64.pow(axis)).collect(),
        false => walk.dest.iter().copied().chain([1]).collect(),
    };
    let element = Element::I32;
    let views = [
        view(walk.extents, walk.source, random.between(0, 2)),
        view(
            vec![mapped as u64, batch],
            vec![index_stride, batch_stride],
            random.between(0, 2),
        ),
        view([windows, vec![batch]].concat(), dest_strides, 0),
    ];
    Call {
        job: Job {
            element,
            views,
            spec: Spec::Gather(spec),
        },
        source: elements(random, element, 3),
        index: starts(random, 4, 2),
        dest: elements(random, element, 130),
        operand: None,
        layouts: [None, None, None],
        rule: Rule::Add,
    }
}
