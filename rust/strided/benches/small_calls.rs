//! What small calls cost in nanoseconds: `cargo bench --bench small_calls`.
//!
//! Windows of a grid of 100×100, by a plan and by a stored job, at one start
//! and at 1000 starts in one call. A time is the median of the rounds. It is
//! no test.

use std::hint::black_box;
use std::time::{Duration, Instant};
use strided::{
    gather_job, scatter_job, Done, Element, GatherJob, GatherSpec, Job, Result, ScatterJob,
    ScatterSpec, StridedError, ViewLayout,
};

const SIDE: usize = 100;
const ROUNDS: usize = 401;
/// How long a round takes about: much less than the time after which a busy
/// machine goes on with other work.
const ROUND: Duration = Duration::from_micros(200);

fn main() -> Result<()> {
    println!("| call | element | by a plan, ns | by a stored job, ns | of 1000 starts in one call, ns each |");
    println!("|---|---|---|---|---|");
    for window in [[1, 1], [5, 2], [10, 10]] {
        gather(window, 1i32)?;
        gather(window, 1f64)?;
    }
    for window in [[1, 1], [5, 2], [10, 10]] {
        scatter(window, 1i32)?;
        scatter(window, 1f64)?;
    }
    Ok(())
}

fn packed(dims: &[usize]) -> Result<ViewLayout> {
    ViewLayout::column_major(dims).ok_or(StridedError::OffsetOverflow)
}

/// The starts of `count` windows, among all cells of the grid.
fn starts(count: usize) -> Vec<i64> {
    let steps = (0..2 * count as i64).map(|step| step * 37 % SIDE as i64);
    steps.collect()
}

fn gather<T: Element>(window: [usize; 2], one: T) -> Result<()> {
    let time = |count: usize| -> Result<[f64; 2]> {
        let job = GatherJob {
            element: T::TYPE,
            operand: packed(&[SIDE, SIDE])?,
            index: packed(&[2, count])?,
            dest: packed(&[window[0], window[1], count])?,
            spec: GatherSpec {
                offset_dims: vec![0, 1],
                collapsed_slice_dims: vec![],
                start_index_map: vec![0, 1],
                index_vector_dim: 0,
                slice_sizes: window.to_vec(),
            },
        };
        let plan = job.compile()?;
        let bytes = Job::Gather(job.clone()).to_bytes()?;
        let (grid, starts) = (vec![one; SIDE * SIDE], starts(count));
        let mut shown = vec![one; window[0] * window[1] * count];
        let by_plan = nanoseconds(|| {
            let (grid, starts) = (job.operand.view(&grid), job.index.view(&starts));
            plan.execute(&mut job.dest.view_mut(&mut shown), &grid, &starts)
        })?;
        let by_job = nanoseconds(|| gather_job(&bytes, &grid, &starts, &mut shown))?;
        Ok([by_plan, by_job])
    };
    row::<T>("gather", window, time(1)?, time(1000)?);
    Ok(())
}

fn scatter<T: Element>(window: [usize; 2], one: T) -> Result<()> {
    let time = |count: usize| -> Result<[f64; 2]> {
        let job = ScatterJob {
            element: T::TYPE,
            index: packed(&[2, count])?,
            updates: packed(&[window[0], window[1], count])?,
            dest: packed(&[SIDE, SIDE])?,
            spec: ScatterSpec {
                update_window_dims: vec![0, 1],
                inserted_window_dims: vec![],
                scatter_dims_to_operand_dims: vec![0, 1],
                index_vector_dim: 0,
            },
        };
        let plan = job.compile()?;
        let bytes = Job::Scatter(job.clone()).to_bytes()?;
        let (mut grid, starts) = (vec![one; SIDE * SIDE], starts(count));
        let updates = vec![one; window[0] * window[1] * count];
        let by_plan = nanoseconds(|| {
            let (starts, updates) = (job.index.view(&starts), job.updates.view(&updates));
            plan.execute(&mut job.dest.view_mut(&mut grid), &starts, &updates)
        })?;
        let by_job = nanoseconds(|| scatter_job(&bytes, &starts, &updates, &mut grid))?;
        Ok([by_plan, by_job])
    };
    row::<T>("scatter", window, time(1)?, time(1000)?);
    Ok(())
}

fn row<T: Element>(kind: &str, [rows, columns]: [usize; 2], one: [f64; 2], many: [f64; 2]) {
    let element = format!("{:?}", T::TYPE).to_lowercase();
    println!(
        "| {kind} {rows}×{columns} | {element} | {:.0} | {:.0} | {:.1} |",
        one[0],
        one[1],
        many[0] / 1000.0
    );
}

/// The median time of a call.
fn nanoseconds(mut call: impl FnMut() -> Result<Done>) -> Result<f64> {
    let begun = Instant::now();
    let mut calls = 0u32;
    while begun.elapsed() < ROUND {
        black_box(&mut call)()?;
        calls += 1;
    }
    let mut times = Vec::new();
    for _ in 0..ROUNDS {
        let begun = Instant::now();
        for _ in 0..calls {
            black_box(&mut call)()?;
        }
        times.push(begun.elapsed().as_nanos() as f64 / f64::from(calls));
    }
    times.sort_by(f64::total_cmp);
    Ok(times[ROUNDS / 2])
}
