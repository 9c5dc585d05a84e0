//! Small valid calls, made at random, and the harbour cases.

use crate::random::Random;
use core::fmt::Debug;
use strided::{
    Element, ElementType, GatherJob, GatherSpec, Rule, RuleF64, ScatterJob, ScatterSpec, ViewLayout,
};

/// What the tests do with elements by themselves.
pub trait Cell: Element + Debug {
    fn random(random: &mut Random) -> Self;
    /// One of the rules.
    fn rule(random: &mut Random) -> Self::Rule;
    /// What the element becomes of an update by a rule.
    fn combined(self, update: Self, rule: Self::Rule) -> Self;
    /// Whether the rule adds, so that it may give any NaN.
    fn adds(rule: Self::Rule) -> bool;
    /// The bits; NaNs, of which an add may give any, have the same.
    fn summed(self) -> u64;
    /// The bits, those of a NaN too.
    fn bits(self) -> u64;
}

impl Cell for i32 {
    fn random(random: &mut Random) -> Self {
        match random.below(4) {
            0 => random.pick(&[i32::MAX, i32::MIN, -1, 0, 1]),
            _ => random.word() as i32,
        }
    }

    fn rule(random: &mut Random) -> Rule {
        random.pick(&RULES)
    }

    fn combined(self, update: Self, rule: Rule) -> Self {
        match rule {
            Rule::Add => self.wrapping_add(update),
            Rule::Lowest => self.min(update),
            Rule::Highest => self.max(update),
            Rule::Replace => update,
        }
    }

    fn adds(rule: Rule) -> bool {
        rule == Rule::Add
    }

    fn summed(self) -> u64 {
        self.bits()
    }

    fn bits(self) -> u64 {
        self as u64
    }
}

impl Cell for f64 {
    /// Mostly numbers whose sums depend on the order.
    fn random(random: &mut Random) -> Self {
        match random.below(12) {
            0 => f64::from_bits(random.word()),
            1 => f64::from_bits(f64::NAN.to_bits() | random.word() >> 13),
            2 => random.pick(&[-0.0, f64::INFINITY, f64::NEG_INFINITY, f64::MAX]),
            3..=6 => random.between(-100, 100) as f64,
            _ => random.pick(&[0.1, 0.3, 1e16, -1e16, 1.0]) * random.between(1, 9) as f64,
        }
    }

    fn rule(random: &mut Random) -> RuleF64 {
        match random.below(RULES.len() + 1) {
            0 => RuleF64::Ceiling(Self::random(random)),
            place => RULES[place - 1].into(),
        }
    }

    fn combined(self, update: Self, rule: RuleF64) -> Self {
        let sum = self + update;
        match rule {
            RuleF64::Lowest if update < self => update,
            RuleF64::Highest if update > self => update,
            RuleF64::Lowest | RuleF64::Highest => self,
            RuleF64::Replace => update,
            RuleF64::Ceiling(limit) if sum > limit => limit,
            RuleF64::Add | RuleF64::Ceiling(_) => sum,
        }
    }

    fn adds(rule: RuleF64) -> bool {
        matches!(rule, RuleF64::Add | RuleF64::Ceiling(_))
    }

    fn summed(self) -> u64 {
        match self.is_nan() {
            true => f64::NAN.to_bits(),
            false => self.to_bits(),
        }
    }

    fn bits(self) -> u64 {
        self.to_bits()
    }
}

/// The rules that both types have.
pub const RULES: [Rule; 4] = [Rule::Add, Rule::Lowest, Rule::Highest, Rule::Replace];

pub fn cells<T: Cell>(random: &mut Random, len: usize) -> Vec<T> {
    random.list(len, T::random)
}

pub fn summed<T: Cell>(cells: &[T]) -> Vec<u64> {
    cells.iter().map(|cell| cell.summed()).collect()
}

pub fn bits<T: Cell>(cells: &[T]) -> Vec<u64> {
    cells.iter().map(|cell| cell.bits()).collect()
}

pub fn packed(dims: &[usize]) -> ViewLayout {
    ViewLayout::column_major(dims).expect("a small layout")
}

pub fn view(dims: &[usize], strides: &[isize], offset: isize) -> ViewLayout {
    ViewLayout {
        dims: dims.to_vec(),
        strides: strides.to_vec(),
        offset,
    }
}

/// Windows of two of five cells at two starts.
pub fn window_read() -> GatherJob {
    GatherJob {
        element: ElementType::I32,
        operand: packed(&[5]),
        index: packed(&[2]),
        dest: packed(&[2, 2]),
        spec: GatherSpec {
            offset_dims: vec![0],
            collapsed_slice_dims: vec![],
            start_index_map: vec![0],
            index_vector_dim: 1,
            slice_sizes: vec![2],
        },
    }
}

/// Three single cells added to a grid of five.
pub fn cuts_added() -> ScatterJob {
    ScatterJob {
        element: ElementType::I32,
        index: packed(&[3]),
        updates: packed(&[3]),
        dest: packed(&[5]),
        spec: ScatterSpec {
            update_window_dims: vec![],
            inserted_window_dims: vec![0],
            scatter_dims_to_operand_dims: vec![0],
            index_vector_dim: 1,
        },
    }
}

pub struct GatherCase {
    pub job: GatherJob,
    pub operand_len: usize,
    pub starts: Vec<i64>,
    pub dest_len: usize,
}

impl GatherCase {
    /// A gather that no check refuses.
    pub fn random(random: &mut Random, element: ElementType) -> Self {
        let grid = Grid::random(random);
        let batch = batch(random);
        let index = Index::random(random, &grid, &batch);
        let (dest_dims, offset_dims) = interleaved(random, &batch, &grid.kept_windows());
        let dest_strides = nested(random, &dest_dims);
        let strides = any_strides(random, grid.dims.len());
        let (operand, operand_len) = placed(random, &grid.dims, strides);
        let (dest, dest_len) = placed(random, &dest_dims, dest_strides);
        let spec = GatherSpec {
            offset_dims,
            collapsed_slice_dims: grid.dropped,
            start_index_map: index.map,
            index_vector_dim: index.vector,
            slice_sizes: grid.windows,
        };
        Self {
            job: GatherJob {
                element,
                operand,
                index: index.view,
                dest,
                spec,
            },
            operand_len,
            starts: index.starts,
            dest_len,
        }
    }
}

pub struct ScatterCase {
    pub job: ScatterJob,
    pub starts: Vec<i64>,
    pub updates_len: usize,
    pub dest_len: usize,
}

impl ScatterCase {
    /// A scatter that no check refuses.
    pub fn random(random: &mut Random, element: ElementType) -> Self {
        let grid = Grid::random(random);
        Self::on(random, element, grid)
    }

    /// Another scatter on the same grid that no check refuses.
    pub fn beside(&self, random: &mut Random) -> Self {
        let grid = Grid::of(random, self.job.dest.dims.clone());
        let mut other = Self::on(random, self.job.element, grid);
        other.job.dest = self.job.dest.clone();
        other.dest_len = self.dest_len;
        other
    }

    fn on(random: &mut Random, element: ElementType, grid: Grid) -> Self {
        let batch = batch(random);
        let index = Index::random(random, &grid, &batch);
        let (update_dims, update_window_dims) = interleaved(random, &batch, &grid.kept_windows());
        let dest_strides = nested(random, &grid.dims);
        let strides = any_strides(random, update_dims.len());
        let (updates, updates_len) = placed(random, &update_dims, strides);
        let (dest, dest_len) = placed(random, &grid.dims, dest_strides);
        let spec = ScatterSpec {
            update_window_dims,
            inserted_window_dims: grid.dropped,
            scatter_dims_to_operand_dims: index.map,
            index_vector_dim: index.vector,
        };
        Self {
            job: ScatterJob {
                element,
                index: index.view,
                updates,
                dest,
                spec,
            },
            starts: index.starts,
            updates_len,
            dest_len,
        }
    }
}

/// A view of these extents, with any strides, and the length of its slice.
pub fn operand_of(random: &mut Random, dims: &[usize]) -> (ViewLayout, usize) {
    let strides = any_strides(random, dims.len());
    placed(random, dims, strides)
}

/// The same, with strides by which no two coordinates share an element.
pub fn nested_of(random: &mut Random, dims: &[usize]) -> (ViewLayout, usize) {
    let strides = nested(random, dims);
    placed(random, dims, strides)
}

/// The grid that windows are taken of: its extents, the windows, and the axes
/// that are dropped (collapsed or inserted), whose windows are 1.
struct Grid {
    dims: Vec<usize>,
    windows: Vec<usize>,
    dropped: Vec<usize>,
}

impl Grid {
    fn random(random: &mut Random) -> Self {
        let rank = random.below(5);
        let dims = random.list(rank, extent);
        Self::of(random, dims)
    }

    fn of(random: &mut Random, dims: Vec<usize>) -> Self {
        let rank = dims.len();
        let mut grid = Self {
            dims,
            windows: vec![],
            dropped: vec![],
        };
        for axis in random.order(rank) {
            if grid.dims[axis] > 0 && random.one_in(3) {
                grid.dropped.push(axis);
            }
        }
        grid.windows = (0..rank).map(|axis| grid.window(random, axis)).collect();
        grid
    }

    fn window(&self, random: &mut Random, axis: usize) -> usize {
        match self.dims[axis] {
            _ if self.dropped.contains(&axis) => 1,
            0 => 0,
            // A window of no cells is rare.
            _ if random.one_in(20) => 0,
            dim => 1 + random.below(dim),
        }
    }

    fn kept_windows(&self) -> Vec<usize> {
        let kept = (0..self.dims.len()).filter(|axis| !self.dropped.contains(axis));
        kept.map(|axis| self.windows[axis]).collect()
    }
}

struct Index {
    view: ViewLayout,
    starts: Vec<i64>,
    map: Vec<usize>,
    vector: usize,
}

impl Index {
    fn random(random: &mut Random, grid: &Grid, batch: &[usize]) -> Self {
        let map = random.some_of(grid.dims.len());
        let mut dims = batch.to_vec();
        let mut vector = batch.len();
        // One component may also go without an axis of its own.
        if map.len() != 1 || random.one_in(2) {
            vector = random.below(batch.len() + 1);
            dims.insert(vector, map.len());
        }
        let strides = any_strides(random, dims.len());
        let (view, len) = placed(random, &dims, strides);
        Self {
            view,
            starts: random.list(len, start),
            map,
            vector,
        }
    }
}

fn extent(random: &mut Random) -> usize {
    match random.one_in(20) {
        true => 0,
        false => 1 + random.below(4),
    }
}

fn batch(random: &mut Random) -> Vec<usize> {
    let rank = random.below(3);
    random.list(rank, extent)
}

fn start(random: &mut Random) -> i64 {
    match random.below(10) {
        0 => random.pick(&[i64::MIN, i64::MAX]),
        _ => random.between(-3, 6) as i64,
    }
}

/// Window extents on some axes, which are named, batch extents on the others.
fn interleaved(
    random: &mut Random,
    batch: &[usize],
    windows: &[usize],
) -> (Vec<usize>, Vec<usize>) {
    let rank = batch.len() + windows.len();
    let mut window_dims = random.order(rank);
    window_dims.truncate(windows.len());
    let mut batch = batch.iter();
    let dim = |axis| match window_dims.iter().position(|&named| named == axis) {
        Some(place) => windows[place],
        None => *batch.next().expect("as many batch axes as are left"),
    };
    let dims = (0..rank).map(dim).collect();
    (dims, window_dims)
}

fn any_strides(random: &mut Random, rank: usize) -> Vec<isize> {
    random.list(rank, |random| random.between(-4, 4))
}

/// Strides by which no two coordinates share an element.
fn nested(random: &mut Random, dims: &[usize]) -> Vec<isize> {
    let mut strides = any_strides(random, dims.len());
    let mut reach = 0;
    for axis in random.order(dims.len()) {
        if dims[axis] > 1 {
            let stride = reach + random.between(1, 2);
            reach += stride * (dims[axis] as isize - 1);
            strides[axis] = random.pick(&[stride, -stride]);
        }
    }
    strides
}

/// A view with its offset, and the length of a slice in which it lies, with
/// some elements to spare.
fn placed(random: &mut Random, dims: &[usize], strides: Vec<isize>) -> (ViewLayout, usize) {
    let spare = random.between(0, 2);
    let reach = |stride: isize, dim: usize| stride * (dim.max(1) as isize - 1);
    let reaches = || strides.iter().zip(dims).map(|(&s, &d)| reach(s, d));
    let low: isize = reaches().map(|reach| reach.min(0)).sum();
    let high: isize = reaches().map(|reach| reach.max(0)).sum();
    let offset = spare - low;
    let len = offset + high + 1 + random.between(0, 2);
    (view(dims, &strides, offset), len as usize)
}
