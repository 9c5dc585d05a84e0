//! How many windows slid, in gathers and in scatters of the same windows, of
//! both elements, by a plan and by a stored job.

use crate::cases::{cells, cuts_added, packed, view, window_read, Cell, RULES};
use crate::random::Random;
use strided::{gather_job, scatter_job, Done, Job, Result};
use strided::{GatherJob, GatherSpec, ScatterJob, ScatterSpec, StridedError, ViewLayout};

/// Windows of a grid, to be read or to be put on it.
struct Windows {
    /// The grid's extents, and the window on each of its axes.
    grid: Vec<usize>,
    sizes: Vec<usize>,
    /// The grid's axes that the shape has not.
    dropped: Vec<usize>,
    /// The extents of all windows, and the axes of them that are a window's.
    shape: Vec<usize>,
    window_dims: Vec<usize>,
    /// The starts, the axis of their components, and the grid's axis of each.
    index: ViewLayout,
    vector: usize,
    map: Vec<usize>,
}

/// So many windows of a grid with one axis, at starts without an axis of their
/// own.
fn along(extent: usize, size: usize, count: usize) -> Windows {
    Windows {
        grid: vec![extent],
        sizes: vec![size],
        dropped: vec![],
        shape: vec![size, count],
        window_dims: vec![0],
        index: packed(&[count]),
        vector: 1,
        map: vec![0],
    }
}

impl Windows {
    /// How many slid, which is the same in every call.
    fn slid(&self, starts: &[i64]) -> u64 {
        let done = self.read::<i32>(starts);
        assert_eq!(self.read::<f64>(starts), done);
        assert_eq!(self.put::<i32>(starts), done);
        assert_eq!(self.put::<f64>(starts), done);
        done.slid()
    }

    fn read<T: Cell>(&self, starts: &[i64]) -> Done {
        let job = GatherJob {
            element: T::TYPE,
            operand: packed(&self.grid),
            index: self.index.clone(),
            dest: packed(&self.shape),
            spec: GatherSpec {
                offset_dims: self.window_dims.clone(),
                collapsed_slice_dims: self.dropped.clone(),
                start_index_map: self.map.clone(),
                index_vector_dim: self.vector,
                slice_sizes: self.sizes.clone(),
            },
        };
        let grid = some::<T>(&self.grid);
        let mut dest = some::<T>(&self.shape);
        let by_plan = job.compile().unwrap().execute(
            &mut job.dest.view_mut(&mut dest),
            &job.operand.view(&grid),
            &job.index.view(starts),
        );
        let stored = Job::Gather(job).to_bytes().unwrap();
        let by_job = gather_job(&stored, &grid, starts, &mut dest);
        assert_eq!(by_plan, by_job);
        by_plan.unwrap()
    }

    fn put<T: Cell>(&self, starts: &[i64]) -> Done {
        let job = ScatterJob {
            element: T::TYPE,
            index: self.index.clone(),
            updates: packed(&self.shape),
            dest: packed(&self.grid),
            spec: ScatterSpec {
                update_window_dims: self.window_dims.clone(),
                inserted_window_dims: self.dropped.clone(),
                scatter_dims_to_operand_dims: self.map.clone(),
                index_vector_dim: self.vector,
            },
        };
        let updates = some::<T>(&self.shape);
        let mut grid = some::<T>(&self.grid);
        let plan = job.compile().unwrap();
        let mut by_rule = |rule: T::Rule| {
            let (index, updates) = (job.index.view(starts), job.updates.view(&updates));
            plan.execute_updates(&mut job.dest.view_mut(&mut grid), &index, &updates, rule)
        };
        let [add, others @ ..] = RULES.map(|rule| by_rule(rule.into()));
        assert_eq!(others, [add; 3]);
        let stored = Job::Scatter(job).to_bytes().unwrap();
        let by_job = scatter_job(&stored, starts, &updates, &mut grid);
        assert_eq!(by_job, add);
        by_job.unwrap()
    }
}

/// As many elements as there are coordinates.
fn some<T: Cell>(dims: &[usize]) -> Vec<T> {
    cells(&mut Random::new(81), dims.iter().product())
}

#[test]
fn starts_at_and_past_both_ends() {
    let windows = along(5, 2, 1);
    for start in [0, 1, 2, 3] {
        assert_eq!(windows.slid(&[start]), 0, "{start}");
    }
    for start in [-1, -2, -5, i64::MIN + 1, i64::MIN] {
        assert_eq!(windows.slid(&[start]), 1, "{start}");
    }
    for start in [4, 5, 6, 1 << 32, 3 + (1 << 32), i64::MAX - 1, i64::MAX] {
        assert_eq!(windows.slid(&[start]), 1, "{start}");
    }
}

#[test]
fn windows_as_large_as_the_grid() {
    for extent in [1, 2, 5] {
        let windows = along(extent, extent, 3);
        assert_eq!(windows.slid(&[0, 0, 0]), 0);
        assert_eq!(windows.slid(&[0, 1, 0]), 1);
        assert_eq!(windows.slid(&[-1, 0, i64::MAX]), 2);
    }
}

#[test]
fn each_window_counts() {
    let windows = along(5, 2, 4);
    assert_eq!(windows.slid(&[0, 3, 1, 2]), 0);
    assert_eq!(windows.slid(&[0, 3, 1, 4]), 1);
    assert_eq!(windows.slid(&[-1, 3, 1, 2]), 1);
    assert_eq!(windows.slid(&[-1, 4, 9, -9]), 4);
    // Many of them, of which every third slides.
    let starts: Vec<i64> = (0..3000).map(|n| [0, 3, 4][n % 3]).collect();
    assert_eq!(along(5, 2, 3000).slid(&starts), 1000);
}

/// Windows of 2, 2 and 1 cells on a grid of 5, 4 and 3, at starts of three
/// components: on the last axis, the first and the second.
fn three_components(count: usize) -> Windows {
    Windows {
        grid: vec![5, 4, 3],
        sizes: vec![2, 2, 1],
        dropped: vec![2],
        shape: vec![2, 2, count],
        window_dims: vec![0, 1],
        index: packed(&[3, count]),
        vector: 0,
        map: vec![2, 0, 1],
    }
}

#[test]
fn a_window_counts_once_however_many_components_move() {
    let windows = three_components(1);
    for start in [[0, 0, 0], [2, 3, 2], [1, 2, 0]] {
        assert_eq!(windows.slid(&start), 0, "{start:?}");
    }
    for start in [
        [3, 0, 0],
        [-1, 3, 2],
        [2, 4, 2],
        [0, -1, 0],
        [2, 3, 3],
        [0, 0, -1],
        [2, 4, 3],
        [-1, -1, -1],
        [i64::MAX, 0, i64::MIN],
    ] {
        assert_eq!(windows.slid(&start), 1, "{start:?}");
    }
    let [inside, last, first] = [[1, 1, 1], [1, 1, 3], [3, 1, 1]];
    let starts = [inside, last, inside, first].concat();
    assert_eq!(three_components(4).slid(&starts), 2);
}

/// The extent of another axis than the component's does not count.
#[test]
fn each_component_has_its_own_axis() {
    let mut windows = three_components(1);
    windows.map = vec![0, 1, 2];
    assert_eq!(windows.slid(&[3, 2, 2]), 0);
    assert_eq!(windows.slid(&[2, 3, 2]), 1);
}

#[test]
fn windows_without_cells() {
    let windows = along(5, 0, 2);
    assert_eq!(windows.slid(&[9, -9]), 0);
    // No cells by the other axis, which no component is on.
    let mut windows = along(5, 2, 2);
    windows.grid.push(0);
    windows.sizes.push(0);
    windows.shape = vec![2, 0, 2];
    windows.window_dims = vec![0, 1];
    assert_eq!(windows.slid(&[9, -9]), 0);
}

#[test]
fn no_windows() {
    assert_eq!(along(5, 2, 0).slid(&[]), 0);
    // One of two batch axes has no coordinates.
    let mut windows = along(5, 2, 0);
    windows.shape = vec![2, 3, 0];
    windows.index = packed(&[3, 0]);
    windows.vector = 2;
    assert_eq!(windows.slid(&[9]), 0);
}

#[test]
fn a_start_that_many_batch_coordinates_read() {
    let mut windows = along(5, 2, 7);
    windows.index = view(&[7], &[0], 0);
    assert_eq!(windows.slid(&[4]), 7);
    assert_eq!(windows.slid(&[3]), 0);
    // Two starts, each read by three.
    windows.shape = vec![2, 3, 2];
    windows.index = view(&[3, 2], &[0, 1], 0);
    windows.vector = 2;
    assert_eq!(windows.slid(&[4, 0]), 3);
    assert_eq!(windows.slid(&[0, -1]), 3);
    assert_eq!(windows.slid(&[4, -1]), 6);
}

#[test]
fn starts_without_components() {
    let windows = Windows {
        shape: vec![5, 4],
        sizes: vec![5],
        index: view(&[0, 4], &[1, 1], 0),
        vector: 0,
        map: vec![],
        ..along(5, 5, 4)
    };
    assert_eq!(windows.slid(&[9, 9, 9, 9]), 0);
}

/// On a grid of 4 and 5 windows of 2 and 3, with the batch between their axes.
#[test]
fn a_batch_axis_between_the_window_axes() {
    let mut windows = Windows {
        grid: vec![4, 5],
        sizes: vec![2, 3],
        dropped: vec![],
        shape: vec![2, 4, 3],
        window_dims: vec![0, 2],
        index: packed(&[2, 4]),
        vector: 0,
        map: vec![0, 1],
    };
    let starts = [[2, 2], [3, 0], [0, 3], [-1, 9]].concat();
    assert_eq!(windows.slid(&starts), 3);
    // The window's axes the other way round, and the components on the last
    // axis of the starts.
    windows.shape = vec![3, 4, 2];
    windows.window_dims = vec![2, 0];
    windows.index = packed(&[4, 2]);
    windows.vector = 1;
    assert_eq!(windows.slid(&[2, 3, 0, -1, 2, 0, 3, 9]), 3);
    assert_eq!(windows.slid(&[2, 0, 1, 2, 2, 0, 1, 3]), 1);
}

#[test]
fn starts_that_are_read_backwards() {
    let mut windows = along(5, 2, 3);
    windows.index = view(&[3], &[-2], 5);
    assert_eq!(windows.slid(&[9, 4, 9, 0, 9, 3]), 1);
    assert_eq!(windows.slid(&[9, 0, 9, 3, 9, 1]), 0);
}

/// A call that is refused gives an error, and the error has no number.
#[test]
fn refused_calls() {
    let outside = StridedError::BufferBounds {
        view: 3,
        bytes_needed: 0,
    };
    let mut job = window_read();
    job.dest.offset = 1;
    let mut dest = [7; 4];
    let read: Result<Done> = job.compile().unwrap().execute(
        &mut job.dest.view_mut(&mut dest),
        &job.operand.view(&[10, 20, 30, 40, 50]),
        &job.index.view(&[4, -1]),
    );
    assert_eq!(read, Err(outside));
    let stored = Job::Gather(job).to_bytes().unwrap();
    let by_job = gather_job(&stored, &[1; 5], &[4, -1], &mut dest);
    assert_eq!((by_job, dest), (Err(outside), [7; 4]));

    let mut job = cuts_added();
    job.dest.offset = 1;
    let mut grid = [7; 5];
    let put: Result<Done> = job.compile().unwrap().execute(
        &mut job.dest.view_mut(&mut grid),
        &job.index.view(&[0, 0, 9]),
        &job.updates.view(&[3, 4, 5]),
    );
    assert_eq!(put, Err(outside));
    let stored = Job::Scatter(job).to_bytes().unwrap();
    let by_job = scatter_job(&stored, &[0, 0, 9], &[3, 4, 5], &mut grid);
    assert_eq!((by_job, grid), (Err(outside), [7; 5]));
}
