//! What is called: a grid, windows of it at starts, and the lists that say
//! so. A gather goes from the grid to the windows, a scatter from the windows
//! to the grid.

/// A layout in the library's types and in the Rust's.
#[derive(Clone)]
pub struct Layout {
    pub extents: Vec<u64>,
    pub strides: Vec<i64>,
    pub dims: Vec<usize>,
    pub steps: Vec<isize>,
}

impl Layout {
    /// First axis fastest, the cells `step` apart.
    fn new(extents: &[u64], step: i64) -> Layout {
        let mut next = step;
        let mut strides = Vec::new();
        for &extent in extents {
            strides.push(next);
            next *= extent as i64;
        }
        Layout::of(extents, strides)
    }

    /// Last axis fastest.
    fn turned(extents: &[u64]) -> Layout {
        let reversed: Vec<u64> = extents.iter().rev().copied().collect();
        let mut strides = Layout::new(&reversed, 1).strides;
        strides.reverse();
        Layout::of(extents, strides)
    }

    fn of(extents: &[u64], strides: Vec<i64>) -> Layout {
        Layout {
            extents: extents.to_vec(),
            dims: usizes(extents),
            steps: strides.iter().map(|&s| s as isize).collect(),
            strides,
        }
    }

    /// How many elements a slice needs to hold it.
    pub fn room(&self) -> usize {
        let axes = self.extents.iter().zip(&self.strides);
        1 + axes.map(|(&e, &s)| (e - 1) * s as u64).sum::<u64>() as usize
    }
}

pub fn usizes(list: &[u64]) -> Vec<usize> {
    list.iter().map(|&n| n as usize).collect()
}

/// The order of the axes of the windows.
#[derive(Clone, Copy, PartialEq)]
pub enum Order {
    /// The window's axes, then the batch axis.
    BatchLast,
    /// The batch axis, then the window's.
    BatchFirst,
    /// The batch axis alone: each window is one cell of a grid of rank one.
    Scalars,
}

#[derive(Clone)]
pub struct Job {
    pub order: Order,
    pub batch: usize,
    pub grid: Layout,
    /// The operand that a scatter copies to the grid first, if it does.
    pub operand: Option<Layout>,
    pub index: Layout,
    pub windows: Layout,
    /// A window's extents along the grid's axes.
    pub slice_sizes: Vec<u64>,
    /// The window's axes among those of the windows: `offset_dims`, or
    /// `update_window_dims`.
    pub window_dims: Vec<u64>,
    /// The grid's axes that the windows lack: `collapsed_slice_dims`, or
    /// `inserted_window_dims`.
    pub dropped_dims: Vec<u64>,
    /// `start_index_map`, or `scatter_dims_to_operand_dims`.
    pub map: Vec<u64>,
    pub index_vector_dim: u64,
    /// The slice of the index layout.
    pub starts: Vec<i64>,
}

impl Job {
    /// Windows at `batch` starts, each start as many numbers as the grid has
    /// axes, window axes first.
    pub fn windows(grid: &[u64], window: &[u64], batch: u64) -> Job {
        let rank = grid.len() as u64;
        let job = Job {
            order: Order::BatchLast,
            batch: batch as usize,
            grid: Layout::new(grid, 1),
            operand: None,
            index: Layout::new(&[rank, batch], 1),
            windows: Layout::new(&[window, &[batch]].concat(), 1),
            slice_sizes: window.to_vec(),
            window_dims: (0..rank).collect(),
            dropped_dims: Vec::new(),
            map: (0..rank).collect(),
            index_vector_dim: 0,
            starts: Vec::new(),
        };
        job.with_starts()
    }

    pub fn batch_first(mut self) -> Job {
        let extents = [&[self.batch as u64], &self.slice_sizes[..]].concat();
        self.order = Order::BatchFirst;
        self.windows = Layout::new(&extents, 1);
        self.window_dims.iter_mut().for_each(|axis| *axis += 1);
        self
    }

    /// Single cells of a grid of rank one, in the layouts for which the
    /// Rust's gather has a path of its own.
    pub fn takes(cells: u64, batch: u64) -> Job {
        let job = Job {
            order: Order::Scalars,
            batch: batch as usize,
            grid: Layout::new(&[cells], 1),
            operand: None,
            index: Layout::new(&[batch], 1),
            windows: Layout::new(&[batch], 1),
            slice_sizes: vec![1],
            window_dims: Vec::new(),
            dropped_dims: vec![0],
            map: vec![0],
            index_vector_dim: 1,
            starts: Vec::new(),
        };
        job.with_starts()
    }

    /// The same for the Rust's scatter.
    pub fn puts(cells: u64, batch: u64) -> Job {
        Job {
            index: Layout::new(&[batch, 1], 1),
            ..Job::takes(cells, batch)
        }
    }

    /// All three layouts with their cells `step` apart.
    pub fn apart(mut self, step: i64) -> Job {
        for layout in [&mut self.grid, &mut self.index, &mut self.windows] {
            *layout = Layout::new(&layout.extents, step);
        }
        self.with_starts()
    }

    /// With an operand in the grid's layout.
    pub fn on_operand(mut self) -> Job {
        self.operand = Some(self.grid.clone());
        self
    }

    /// With an operand whose last axis is the fastest.
    pub fn on_turned_operand(mut self) -> Job {
        self.operand = Some(Layout::turned(&self.grid.extents));
        self
    }

    pub fn cells(&self) -> usize {
        self.windows.dims.iter().product()
    }

    /// The cells of the windows, and those of the operand.
    pub fn all_cells(&self) -> usize {
        self.cells() + self.operand.as_ref().map_or(0, Layout::room)
    }

    /// What one start and one component add to the place in the starts.
    pub fn start_steps(&self) -> (usize, usize) {
        let steps = &self.index.steps;
        match self.order {
            Order::Scalars => (steps[0] as usize, 0),
            _ => (steps[1] as usize, steps[0] as usize),
        }
    }

    /// Random starts among all cells of the grid: those too far on are
    /// clamped.
    fn with_starts(mut self) -> Job {
        let mut state = 20_240_607u64;
        let (each, component) = self.start_steps();
        self.starts = vec![0; self.index.room()];
        for b in 0..self.batch {
            for (c, &axis) in self.map.iter().enumerate() {
                state = state
                    .wrapping_mul(6_364_136_223_846_793_005)
                    .wrapping_add(1_442_695_040_888_963_407);
                let extent = self.grid.extents[axis as usize];
                self.starts[b * each + c * component] = ((state >> 33) % extent) as i64;
            }
        }
        self
    }
}
