//! The loops that one would write for a job, with raw pointers: in the order
//! in which the windows lie, each start clamped once where it can be.

use crate::element::Element;
use crate::job::{Job, Layout, Order};

/// A window's extents, and its steps in the grid and in the windows; axes
/// that it lacks have one cell.
struct Nest {
    extents: [usize; 4],
    grid: [isize; 4],
    windows: [isize; 4],
}

/// Gathers, or scatters where `ADD`. `bases` has room for the place in the
/// grid of each start.
///
/// # Safety
/// Both slices hold their layouts.
pub unsafe fn run<T: Element, const ADD: bool>(
    job: &Job,
    source: *const T,
    dest: *mut T,
    bases: &mut [isize],
) {
    match job.order {
        Order::Scalars => scalars::<T, ADD>(job, source, dest),
        Order::BatchLast => batch_last::<T, ADD>(job, source, dest),
        Order::BatchFirst => batch_first::<T, ADD>(job, source, dest, bases),
    }
}

#[inline(always)]
unsafe fn cell<T: Element, const ADD: bool>(source: *const T, dest: *mut T, g: isize, w: isize) {
    if ADD {
        let to = dest.offset(g);
        *to = *to + *source.offset(w);
    } else {
        *dest.offset(w) = *source.offset(g);
    }
}

#[inline(never)]
unsafe fn scalars<T: Element, const ADD: bool>(job: &Job, source: *const T, dest: *mut T) {
    let last = job.grid.extents[0] as i64 - 1;
    for (b, start) in job.starts.iter().enumerate() {
        cell::<T, ADD>(source, dest, (*start).clamp(0, last) as isize, b as isize);
    }
}

#[inline(never)]
unsafe fn batch_last<T: Element, const ADD: bool>(job: &Job, source: *const T, dest: *mut T) {
    let nest = nest(job);
    let Nest {
        extents: e,
        grid: g,
        windows: w,
    } = &nest;
    let rank = job.slice_sizes.len();
    let compact = g[0] == 1 && w[0] == 1;
    for b in 0..job.batch {
        let grid = base(job, b);
        let windows = b as isize * job.windows.steps[rank];
        for l in 0..e[3] as isize {
            for k in 0..e[2] as isize {
                for j in 0..e[1] as isize {
                    let grid = grid + l * g[3] + k * g[2] + j * g[1];
                    let windows = windows + l * w[3] + k * w[2] + j * w[1];
                    if compact {
                        for i in 0..e[0] as isize {
                            cell::<T, ADD>(source, dest, grid + i, windows + i);
                        }
                    } else {
                        for i in 0..e[0] as isize {
                            cell::<T, ADD>(source, dest, grid + i * g[0], windows + i * w[0]);
                        }
                    }
                }
            }
        }
    }
}

/// Copies an operand of two axes to the grid: in one piece where both have the
/// same packed layout.
///
/// # Safety
/// Both slices hold their layouts.
#[inline(never)]
pub unsafe fn copy<T: Element>(operand: &Layout, grid: &Layout, source: *const T, dest: *mut T) {
    if operand.steps == grid.steps {
        return std::ptr::copy_nonoverlapping(source, dest, grid.room());
    }
    let ([from, from_column], [to, to_column]) = (&operand.steps[..], &grid.steps[..]) else {
        unreachable!("charts have two axes here")
    };
    for j in 0..grid.dims[1] as isize {
        for i in 0..grid.dims[0] as isize {
            *dest.offset(j * to_column + i * to) = *source.offset(j * from_column + i * from);
        }
    }
}

/// Whether `touch` is made for the job: windows of rows that lie close, and
/// no operand, whose copy it does not know.
pub fn is_touched(job: &Job) -> bool {
    job.operand.is_none()
        && job.order == Order::BatchLast
        && job.slice_sizes.len() == 2
        && job.slice_sizes[0] >= 64
}

/// One cell in every 64 bytes of each row of each window, a line of the
/// cache: what the memory alone takes, with next to no work.
///
/// # Safety
/// As for `run`.
#[inline(never)]
pub unsafe fn touch<T: Element, const ADD: bool>(job: &Job, source: *const T, dest: *mut T) {
    let Nest {
        extents: e,
        grid: g,
        windows: w,
    } = &nest(job);
    let line = 64 / size_of::<T>();
    for b in 0..job.batch {
        let grid = base(job, b);
        let windows = b as isize * job.windows.steps[job.slice_sizes.len()];
        for j in 0..e[1] as isize {
            for i in (0..e[0]).step_by(line) {
                let i = i as isize;
                cell::<T, ADD>(source, dest, grid + j * g[1] + i, windows + j * w[1] + i);
            }
        }
    }
}

#[inline(never)]
unsafe fn batch_first<T: Element, const ADD: bool>(
    job: &Job,
    source: *const T,
    dest: *mut T,
    bases: &mut [isize],
) {
    let Nest {
        extents: e,
        grid: g,
        windows: w,
    } = &nest(job);
    for (b, place) in bases.iter_mut().enumerate() {
        *place = base(job, b);
    }
    for l in 0..e[3] as isize {
        for k in 0..e[2] as isize {
            for j in 0..e[1] as isize {
                for i in 0..e[0] as isize {
                    let grid = l * g[3] + k * g[2] + j * g[1] + i * g[0];
                    let windows = l * w[3] + k * w[2] + j * w[1] + i * w[0];
                    for (b, place) in bases.iter().enumerate() {
                        cell::<T, ADD>(source, dest, grid + place, windows + b as isize);
                    }
                }
            }
        }
    }
}

fn nest(job: &Job) -> Nest {
    let mut nest = Nest {
        extents: [1; 4],
        grid: [0; 4],
        windows: [0; 4],
    };
    for (axis, &at) in job.window_dims.iter().enumerate() {
        nest.extents[axis] = job.slice_sizes[axis] as usize;
        nest.grid[axis] = job.grid.steps[axis];
        nest.windows[axis] = job.windows.steps[at as usize];
    }
    nest
}

/// The place in the grid of a start, clamped.
#[inline(always)]
fn base(job: &Job, b: usize) -> isize {
    let (each, component) = job.start_steps();
    let mut place = 0;
    for axis in 0..job.slice_sizes.len() {
        let last = (job.grid.extents[axis] - job.slice_sizes[axis]) as i64;
        let start = job.starts[b * each + axis * component].clamp(0, last);
        place += start as isize * job.grid.steps[axis];
    }
    place
}
