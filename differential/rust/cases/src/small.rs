//! Small cases, all of them: every meaning on a small grid, every short axis
//! list, every small destination layout, every view near the ends of its
//! slice, every pair of walk axes from a list of edges, every rule on two
//! updates of one cell, every way in which two windows slide, and small charts.

use crate::small_operands;
use crate::valid::shape;
use lines::{Call, Data, Element, GatherSpec, Job, Layout, Rule, ScatterSpec, Spec, View};

/// How much is listed: `Short` for every check, `Long` for a long run.
#[derive(Clone, Copy, PartialEq, Eq)]
pub enum Size {
    Short,
    Long,
}

/// Hands every small case to `take`.
pub fn all(size: Size, take: &mut dyn FnMut(Call)) {
    meanings(size, take);
    clamps(take);
    axis_lists(take);
    dest_layouts(size, take);
    bounds(take);
    walks(size, take);
    spans(size, take);
    rules(size, take);
    slides(size, take);
    shared_starts(size, take);
    small_operands::all(size, take);
}

/// Calls `take` with every list that has one entry from each of `choices`.
pub(crate) fn each<T: Copy>(choices: &[Vec<T>], take: &mut dyn FnMut(&[T])) {
    fn step<T: Copy>(choices: &[Vec<T>], list: &mut Vec<T>, take: &mut dyn FnMut(&[T])) {
        let Some(entries) = choices.get(list.len()) else {
            return take(list);
        };
        for &entry in entries {
            list.push(entry);
            step(choices, list, take);
            list.pop();
        }
    }
    step(choices, &mut Vec::new(), take);
}

/// Every list of `count` different numbers below `n`, in every order.
fn arrangements(n: usize, count: usize) -> Vec<Vec<u64>> {
    let mut all = Vec::new();
    each(&vec![(0..n as u64).collect(); count], &mut |list| {
        let repeats = (1..list.len()).any(|place| list[..place].contains(&list[place]));
        if !repeats {
            all.push(list.to_vec());
        }
    });
    all
}

/// Every list of different numbers below `n`, short and long.
fn all_arrangements(n: usize) -> Vec<Vec<u64>> {
    (0..=n).flat_map(|count| arrangements(n, count)).collect()
}

/// Packed, first axis fastest, at offset 0, with the number of cells.
pub(crate) fn packed(extents: &[u64]) -> (View, usize) {
    let mut cells = 1;
    let strides = extents
        .iter()
        .map(|&extent| {
            let stride = cells as i64;
            cells *= extent.max(1);
            stride
        })
        .collect();
    let no_cells = extents.contains(&0);
    let layout = Layout {
        extents: extents.to_vec(),
        strides,
    };
    (
        View { layout, offset: 0 },
        if no_cells { 0 } else { cells as usize },
    )
}

pub(crate) fn counted(len: usize, first: i32) -> Data {
    Data::I32((0..len as i32).map(|n| first + n).collect())
}

/// Starts that go over every value near a small grid, from some place on.
fn near_starts(len: usize, from: usize) -> Vec<i64> {
    const NEAR: [i64; 7] = [0, 1, 2, -1, 3, i64::MAX, i64::MIN];
    (0..len)
        .map(|n| NEAR[(n * 3 + from) % NEAR.len()])
        .collect()
}

/// A grid with windows and a batch, in every arrangement.
pub(crate) struct Arranged<'a> {
    pub extents: &'a [u64],
    pub windows: &'a [u64],
    pub hidden: &'a [u64],
    pub map: &'a [u64],
    pub index_extents: Vec<u64>,
    pub vector: u64,
    pub shown: &'a [u64],
    pub shape: Vec<u64>,
}

fn meanings(size: Size, take: &mut dyn FnMut(Call)) {
    let extents = match size {
        Size::Short => vec![1, 2],
        Size::Long => vec![0, 1, 2, 3],
    };
    for rank in 0..=2 {
        each(&vec![extents.clone(); rank], &mut |extents| {
            let windows: Vec<Vec<u64>> = extents
                .iter()
                .map(|&extent| (u64::from(size == Size::Short)..=extent).collect())
                .collect();
            each(&windows, &mut |windows| {
                arranged(extents, windows, &mut |arranged, turn| {
                    take(gathered(&arranged, turn));
                    take(scattered(&arranged, turn));
                });
            });
        });
    }
}

/// Every choice of hidden axes, map, index and window places.
fn arranged(extents: &[u64], windows: &[u64], take: &mut dyn FnMut(Arranged, usize)) {
    let rank = extents.len();
    let mut turn = 0;
    for hidden in all_arrangements(rank) {
        if hidden.iter().any(|&axis| windows[axis as usize] != 1) {
            continue;
        }
        let kept: Vec<u64> = (0..rank)
            .filter(|&axis| !hidden.contains(&(axis as u64)))
            .map(|axis| windows[axis])
            .collect();
        for map in all_arrangements(rank) {
            for batch in [&[][..], &[2], &[2, 3]] {
                for (index_extents, vector) in indexes(batch, map.len()) {
                    for shown in arrangements(kept.len() + batch.len(), kept.len()) {
                        turn += 1;
                        let arranged = Arranged {
                            extents,
                            windows,
                            hidden: &hidden,
                            map: &map,
                            index_extents: index_extents.clone(),
                            vector,
                            shown: &shown,
                            shape: shape(&shown, &kept, batch),
                        };
                        take(arranged, turn);
                    }
                }
            }
        }
    }
}

/// The index extents and vector axis, for every place of the vector axis.
fn indexes(batch: &[u64], components: usize) -> Vec<(Vec<u64>, u64)> {
    let mut all: Vec<(Vec<u64>, u64)> = (0..=batch.len())
        .map(|vector| {
            let mut extents = batch.to_vec();
            extents.insert(vector, components as u64);
            (extents, vector as u64)
        })
        .collect();
    if components == 1 {
        all.push((batch.to_vec(), batch.len() as u64));
    }
    all
}

fn gathered(a: &Arranged, turn: usize) -> Call {
    let (operand, operand_len) = packed(a.extents);
    let (index, index_len) = packed(&a.index_extents);
    let (dest, dest_len) = packed(&a.shape);
    let spec = GatherSpec {
        offset_dims: a.shown.to_vec(),
        collapsed_slice_dims: a.hidden.to_vec(),
        start_index_map: a.map.to_vec(),
        index_vector_dim: a.vector,
        slice_sizes: a.windows.to_vec(),
    };
    Call {
        job: Job {
            element: Element::I32,
            views: [operand, index, dest],
            spec: Spec::Gather(spec),
        },
        source: counted(operand_len, 1),
        index: near_starts(index_len, turn),
        dest: counted(dest_len, 50),
        operand: None,
        layouts: [None, None, None],
        rule: Rule::Add,
    }
}

pub(crate) fn scattered(a: &Arranged, turn: usize) -> Call {
    let (index, index_len) = packed(&a.index_extents);
    let (updates, update_len) = packed(&a.shape);
    let (dest, dest_len) = packed(a.extents);
    let spec = ScatterSpec {
        update_window_dims: a.shown.to_vec(),
        inserted_window_dims: a.hidden.to_vec(),
        scatter_dims_to_operand_dims: a.map.to_vec(),
        index_vector_dim: a.vector,
    };
    Call {
        job: Job {
            element: Element::I32,
            views: [index, updates, dest],
            spec: Spec::Scatter(spec),
        },
        index: near_starts(index_len, turn),
        source: counted(update_len, 1),
        dest: counted(dest_len, 100),
        operand: None,
        layouts: [None, None, None],
        rule: Rule::Add,
    }
}

/// Every start near every window of every small extent.
fn clamps(take: &mut dyn FnMut(Call)) {
    let far = [i64::MIN, i64::MAX, 1 << 32, -(1 << 32), (1 << 32) + 1];
    for extent in 0..=4u64 {
        for window in 0..=extent {
            for start in (-2..=5).chain(far) {
                let a = Arranged {
                    extents: &[extent],
                    windows: &[window],
                    hidden: &[],
                    map: &[0],
                    index_extents: vec![1],
                    vector: 0,
                    shown: &[0],
                    shape: vec![window],
                };
                for mut call in [gathered(&a, 0), scattered(&a, 0)] {
                    call.index = vec![start];
                    take(call);
                }
            }
        }
    }
}

/// Every short list of axes in the place of each list, in and out of range,
/// repeated and not, on a grid that is otherwise in order.
fn axis_lists(take: &mut dyn FnMut(Call)) {
    let a = Arranged {
        extents: &[2, 3],
        windows: &[1, 2],
        hidden: &[0],
        map: &[1],
        index_extents: vec![2],
        vector: 1,
        shown: &[0],
        shape: vec![2, 2],
    };
    for count in 0..=3 {
        each(&vec![(0..4u64).collect(); count], &mut |list| {
            for place in 0..7 {
                let mut gather = gathered(&a, 0);
                let mut scatter = scattered(&a, 0);
                let call = match replaced(&mut gather, &mut scatter, place, list) {
                    true => gather,
                    false => scatter,
                };
                take(call);
            }
        });
    }
}

/// Puts a list in a place; true where that is in the gather.
fn replaced(gather: &mut Call, scatter: &mut Call, place: usize, list: &[u64]) -> bool {
    let (Spec::Gather(g), Spec::Scatter(s)) = (&mut gather.job.spec, &mut scatter.job.spec) else {
        return true;
    };
    let lists = [
        &mut g.offset_dims,
        &mut g.collapsed_slice_dims,
        &mut g.start_index_map,
        &mut g.slice_sizes,
        &mut s.update_window_dims,
        &mut s.inserted_window_dims,
        &mut s.scatter_dims_to_operand_dims,
    ];
    for (n, slot) in lists.into_iter().enumerate() {
        if n == place {
            *slot = list.to_vec();
        }
    }
    place < 4
}

/// Every small destination layout: nested, or not.
fn dest_layouts(size: Size, take: &mut dyn FnMut(Call)) {
    let most = if size == Size::Short { 2 } else { 3 };
    for rank in 0..=most {
        let axes: Vec<(u64, i64)> = (0..=3)
            .flat_map(|extent| (-4..=4i64).map(move |stride| (extent, stride)))
            .filter(|&(_, stride)| rank < 3 || stride.abs() < 4)
            .collect();
        each(&vec![axes; rank], &mut |axes| {
            let extents: Vec<u64> = axes.iter().map(|&(extent, _)| extent).collect();
            let shown: Vec<u64> = (0..rank as u64).collect();
            let a = Arranged {
                extents: &extents,
                windows: &extents,
                hidden: &[],
                map: &[],
                index_extents: vec![0],
                vector: 0,
                shown: &shown,
                shape: extents.clone(),
            };
            let reach = |(extent, stride): &(u64, i64)| stride * (*extent as i64 - 1).max(0);
            let low: i64 = axes.iter().map(|axis| reach(axis).min(0)).sum();
            let high: i64 = axes.iter().map(|axis| reach(axis).max(0)).sum();
            for mut call in [gathered(&a, 0), scattered(&a, 0)] {
                call.job.views[2].layout.strides = axes.iter().map(|&(_, s)| s).collect();
                call.job.views[2].offset = -low;
                call.dest = counted((high - low + 1) as usize, 50);
                take(call);
            }
        });
    }
}

/// Every view of one axis near the ends of its slice.
fn bounds(take: &mut dyn FnMut(Call)) {
    for extent in 0..=3u64 {
        let a = Arranged {
            extents: &[extent],
            windows: &[extent],
            hidden: &[],
            map: &[],
            index_extents: vec![0],
            vector: 0,
            shown: &[0],
            shape: vec![extent],
        };
        for stride in -2..=2 {
            for offset in -2..=7 {
                for len in 0..=6 {
                    for place in 0..3 {
                        for mut call in [gathered(&a, 0), scattered(&a, 0)] {
                            move_view(&mut call, place, stride, offset, len);
                            take(call);
                        }
                    }
                }
            }
        }
    }
}

fn move_view(call: &mut Call, place: usize, stride: i64, offset: i64, len: usize) {
    let view = &mut call.job.views[place];
    view.layout.strides = vec![stride];
    view.offset = offset;
    match place {
        2 => call.dest = counted(len, 50),
        p if p == call.job.index_place() => call.index = near_starts(len, 0),
        _ => call.source = counted(len, 1),
    }
}

/// Every pair of batch axes from a list of edges, with no updates.
fn walks(size: Size, take: &mut dyn FnMut(Call)) {
    let (extents, strides) = match size {
        Size::Short => (
            vec![0, 1, 2, 1 << 62, 1 << 63],
            vec![0, 1 << 62, -(1 << 62) - 1, i64::MIN],
        ),
        Size::Long => (
            vec![0, 1, 2, 3, 1 << 32, 1 << 62, 1 << 63],
            vec![0, 1, 1 << 32, (1 << 62) - 1, 1 << 62, -(1 << 62), i64::MIN],
        ),
    };
    let mut axes = Vec::new();
    for &extent in &extents {
        for &source in &strides {
            axes.extend(strides.iter().map(|&dest| (extent, source, dest)));
        }
    }
    each(&[axes.clone(), axes], &mut |axes| {
        take(walk(axes));
    });
}

/// A scatter over these batch axes (extent, index stride, update stride), with
/// no components and a window of 0.
fn walk(axes: &[(u64, i64, i64)]) -> Call {
    let extents: Vec<u64> = axes.iter().map(|axis| axis.0).collect();
    let index_strides: Vec<i64> = axes.iter().map(|axis| axis.1).collect();
    let update_strides: Vec<i64> = axes.iter().map(|axis| axis.2).collect();
    let view = |extents: Vec<u64>, strides: Vec<i64>| View {
        layout: Layout { extents, strides },
        offset: 0,
    };
    let with = |first: u64, rest: &[u64]| [&[first], rest].concat();
    let with_stride = |rest: &[i64]| [&[1], rest].concat();
    Call {
        job: Job {
            element: Element::I32,
            views: [
                view(with(0, &extents), with_stride(&index_strides)),
                view(with(0, &extents), with_stride(&update_strides)),
                view(vec![1], vec![1]),
            ],
            spec: Spec::Scatter(ScatterSpec {
                update_window_dims: vec![0],
                ..ScatterSpec::default()
            }),
        },
        index: vec![],
        source: counted(0, 0),
        dest: counted(1, 7),
        operand: None,
        layouts: [None, None, None],
        rule: Rule::Add,
    }
}

/// Every pair of operand axes from a list of edges, with windows of 0 or 1.
fn spans(size: Size, take: &mut dyn FnMut(Call)) {
    let extents = [1, 2, 3, 1 << 32, 1 << 62, 1 << 63, (1 << 63) + 1, u64::MAX];
    let strides = [0, 1, 1 << 62, -(1 << 62), i64::MAX, i64::MIN];
    let extents = match size {
        Size::Short => &extents[..6],
        Size::Long => &extents[..],
    };
    let axes: Vec<(u64, i64)> = extents
        .iter()
        .flat_map(|&extent| strides.iter().map(move |&stride| (extent, stride)))
        .collect();
    each(&[axes.clone(), axes], &mut |axes| {
        for windows in [[0, 0], [1, 1], [2, 1], [1, 2]] {
            take(spanned(axes, &windows));
        }
    });
}

fn spanned(axes: &[(u64, i64)], windows: &[u64; 2]) -> Call {
    let a = Arranged {
        extents: windows,
        windows,
        hidden: &[],
        map: &[1],
        index_extents: vec![1],
        vector: 0,
        shown: &[0, 1],
        shape: windows.to_vec(),
    };
    let mut call = gathered(&a, 0);
    call.job.views[0].layout = Layout {
        extents: axes.iter().map(|axis| axis.0).collect(),
        strides: axes.iter().map(|axis| axis.1).collect(),
    };
    call.source = counted(1, 9);
    call
}

/// Zeros, ones, infinities and NaNs; then numbers near them or at the ends.
pub(crate) const FLOATS: [u64; 14] = [
    0x0000_0000_0000_0000,
    0x8000_0000_0000_0000,
    0x3ff0_0000_0000_0000,
    0xbff0_0000_0000_0000,
    0x7ff0_0000_0000_0000,
    0xfff0_0000_0000_0000,
    0x7ff0_0000_0000_0001,
    0xfff8_0000_0000_0002,
    0x3ff0_0000_0000_0001,
    0x4000_0000_0000_0000,
    0x0000_0000_0000_0001,
    0x800f_ffff_ffff_ffff,
    0x7fef_ffff_ffff_ffff,
    0xffef_ffff_ffff_ffff,
];

/// Every rule on two updates of one cell, each of the three from a list.
fn rules(size: Size, take: &mut dyn FnMut(Call)) {
    const RULES: [Rule; 3] = [Rule::Lowest, Rule::Highest, Rule::Replace];
    let wholes = vec![i32::MIN, i32::MAX, -1, 0, 1];
    let floats = match size {
        Size::Short => &FLOATS[..8],
        Size::Long => &FLOATS[..],
    };
    let ceilings = floats.iter().map(|&limit| Rule::Ceiling(limit));
    let float_rules: Vec<Rule> = RULES.into_iter().chain(ceilings).collect();
    each(&vec![wholes; 3], &mut |values| {
        for rule in RULES {
            let [source, dest] = [&values[1..], &values[..1]].map(|v| Data::I32(v.to_vec()));
            take(twice_on_one(rule, Element::I32, source, dest));
        }
    });
    each(&vec![floats.to_vec(); 3], &mut |values| {
        for &rule in &float_rules {
            let [source, dest] = [&values[1..], &values[..1]].map(|v| Data::F64(v.to_vec()));
            take(twice_on_one(rule, Element::F64, source, dest));
        }
    });
}

/// A scatter of two updates to one cell, in the layouts for which the Rust has
/// a path of its own.
fn twice_on_one(rule: Rule, element: Element, source: Data, dest: Data) -> Call {
    let a = Arranged {
        extents: &[1],
        windows: &[1],
        hidden: &[0],
        map: &[0],
        index_extents: vec![2, 1],
        vector: 1,
        shown: &[],
        shape: vec![2],
    };
    let mut call = scattered(&a, 0);
    call.job.element = element;
    Call {
        source,
        dest,
        rule,
        ..call
    }
}

/// Starts below 0, inside, and past the last one of windows with room for one
/// step or for none.
fn edge_starts(size: Size) -> Vec<i64> {
    match size {
        Size::Short => vec![-1, 0, 1, 2],
        Size::Long => vec![i64::MIN, -2, -1, 0, 1, 2, i64::MAX],
    }
}

/// Every two starts of two components, on windows with room on both axes, on
/// one or on none, and without cells; with the batch axis before, between and
/// after the window's.
fn slides(size: Size, take: &mut dyn FnMut(Call)) {
    const WINDOWS: [[u64; 2]; 6] = [[2, 1], [3, 1], [2, 2], [3, 2], [0, 1], [2, 0]];
    const SHOWN: [[u64; 2]; 3] = [[1, 2], [0, 2], [0, 1]];
    let mut turn = 0;
    for windows in WINDOWS {
        each(&vec![edge_starts(size); 4], &mut |starts| {
            turn += 1;
            let places = match size {
                Size::Short => turn % 3..turn % 3 + 1,
                Size::Long => 0..3,
            };
            for shown in &SHOWN[places] {
                let a = two_components(&windows, shown, &[2]);
                for call in [gathered(&a, 0), scattered(&a, 0)] {
                    take(with_starts(call, starts, None));
                }
            }
        });
    }
}

/// The same with four windows in two rows, of which those of a row, those of a
/// column or all read one start through stride 0, and with batch axes of
/// extent 1 and of none.
fn shared_starts(size: Size, take: &mut dyn FnMut(Call)) {
    const BATCHES: [([u64; 2], [i64; 3]); 5] = [
        ([2, 2], [1, 0, 2]),
        ([2, 2], [1, 2, 0]),
        ([2, 2], [1, 0, 0]),
        ([1, 2], [1, 0, 2]),
        ([2, 0], [1, 2, 2]),
    ];
    for (batch, strides) in BATCHES {
        each(&vec![edge_starts(size); 4], &mut |starts| {
            let a = two_components(&[2, 1], &[1, 3], &batch);
            for call in [gathered(&a, 0), scattered(&a, 0)] {
                take(with_starts(call, starts, Some(&strides)));
            }
        });
    }
}

/// A grid of three by two with a start on each axis, the vector axis first.
fn two_components<'a>(windows: &'a [u64; 2], shown: &'a [u64; 2], batch: &[u64]) -> Arranged<'a> {
    Arranged {
        extents: &[3, 2],
        windows,
        hidden: &[],
        map: &[0, 1],
        index_extents: [&[2], batch].concat(),
        vector: 0,
        shown,
        shape: shape(shown, windows, batch),
    }
}

/// The call with these starts, read by these strides or by its own.
fn with_starts(mut call: Call, starts: &[i64], strides: Option<&[i64; 3]>) -> Call {
    let place = call.job.index_place();
    if let Some(strides) = strides {
        call.job.views[place].layout.strides = strides.to_vec();
    }
    call.index = starts.to_vec();
    call
}
