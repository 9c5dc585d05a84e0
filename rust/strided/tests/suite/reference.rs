//! Gathers and scatters beside plain loops over all coordinates.

use crate::cases::{bits, cells, summed, Cell, GatherCase, ScatterCase};
use crate::random::Random;
use strided::{gather_job, scatter_job, Done, GatherJob, Job, Rule, ScatterJob, ViewLayout};

const CASES: usize = 4000;

#[test]
fn gathers_of_i32() {
    gathers::<i32>(11);
}

#[test]
fn gathers_of_f64() {
    gathers::<f64>(12);
}

#[test]
fn scatters_of_i32() {
    scatters::<i32>(13);
}

#[test]
fn scatters_of_f64() {
    scatters::<f64>(14);
}

fn gathers<T: Cell>(seed: u64) {
    let mut random = Random::new(seed);
    for case in 0..CASES {
        let call = GatherCase::random(&mut random, T::TYPE);
        let operand = cells::<T>(&mut random, call.operand_len);
        let before = cells::<T>(&mut random, call.dest_len);

        let mut expected = before.clone();
        plain_gather(&call.job, &operand, &call.starts, &mut expected);

        let mut dest = before.clone();
        let plan = call.job.compile().expect("a valid gather");
        let done = plan.execute(
            &mut call.job.dest.view_mut(&mut dest),
            &call.job.operand.view(&operand),
            &call.job.index.view(&call.starts),
        );
        let slid = slid_in_gather(&call.job, &call.starts);
        assert_eq!(done.map(Done::slid), Ok(slid), "case {case}");
        assert_eq!(bits(&dest), bits(&expected), "case {case}: {:?}", call.job);

        let mut dest = before;
        let job = Job::Gather(call.job).to_bytes().expect("a small job");
        let by_job = gather_job(&job, &operand, &call.starts, &mut dest);
        assert_eq!(by_job, done, "case {case}, by its job");
        assert_eq!(bits(&dest), bits(&expected), "case {case}, by its job");
    }
}

fn scatters<T: Cell>(seed: u64) {
    let mut random = Random::new(seed);
    for case in 0..CASES {
        let call = ScatterCase::random(&mut random, T::TYPE);
        let updates = cells::<T>(&mut random, call.updates_len);
        let before = cells::<T>(&mut random, call.dest_len);

        let mut expected = before.clone();
        let add = Rule::Add.into();
        plain_scatter(&call.job, &call.starts, &updates, &mut expected, add);

        let mut dest = before.clone();
        let plan = call.job.compile().expect("a valid scatter");
        let done = plan.execute(
            &mut call.job.dest.view_mut(&mut dest),
            &call.job.index.view(&call.starts),
            &call.job.updates.view(&updates),
        );
        let slid = slid_in_scatter(&call.job, &call.starts);
        assert_eq!(done.map(Done::slid), Ok(slid), "case {case}");
        assert_eq!(
            summed(&dest),
            summed(&expected),
            "case {case}: {:?}",
            call.job
        );

        let mut dest = before;
        let job = Job::Scatter(call.job).to_bytes().expect("a small job");
        let by_job = scatter_job(&job, &call.starts, &updates, &mut dest);
        assert_eq!(by_job, done, "case {case}, by its job");
        assert_eq!(summed(&dest), summed(&expected), "case {case}, by its job");
    }
}

fn plain_gather<T: Cell>(job: &GatherJob, operand: &[T], starts: &[i64], dest: &mut [T]) {
    let spec = &job.spec;
    let kept = others(job.operand.dims.len(), &spec.collapsed_slice_dims);
    let batch_axes = others(job.dest.dims.len(), &spec.offset_dims);
    for cell in coordinates(&job.dest.dims) {
        let batch: Vec<usize> = batch_axes.iter().map(|&axis| cell[axis]).collect();
        let components = components(&job.index, starts, spec.index_vector_dim, &batch);
        let mut read = vec![0; job.operand.dims.len()];
        for (&axis, &shown) in kept.iter().zip(&spec.offset_dims) {
            read[axis] = cell[shown];
        }
        for (&axis, component) in spec.start_index_map.iter().zip(components) {
            read[axis] += clamped(component, job.operand.dims[axis], spec.slice_sizes[axis]);
        }
        dest[place(&job.dest, &cell)] = operand[place(&job.operand, &read)];
    }
}

pub fn plain_scatter<T: Cell>(
    job: &ScatterJob,
    starts: &[i64],
    updates: &[T],
    dest: &mut [T],
    rule: T::Rule,
) {
    for (taken, landed) in landings(job, starts) {
        dest[landed] = dest[landed].combined(updates[taken], rule);
    }
}

/// For each update, in order, the element that it is read from and the one
/// that it lands on.
pub fn landings(job: &ScatterJob, starts: &[i64]) -> Vec<(usize, usize)> {
    let spec = &job.spec;
    let kept = others(job.dest.dims.len(), &spec.inserted_window_dims);
    let batch_axes = others(job.updates.dims.len(), &spec.update_window_dims);
    let window = picked(&job.updates.dims, &spec.update_window_dims);
    let windows = scatter_windows(job);
    let mut found = Vec::new();
    for batch in coordinates(&picked(&job.updates.dims, &batch_axes)) {
        for cell in coordinates(&window) {
            let components = components(&job.index, starts, spec.index_vector_dim, &batch);
            let mut taken = vec![0; job.updates.dims.len()];
            let mut lands = vec![0; job.dest.dims.len()];
            for (&axis, &coordinate) in batch_axes.iter().zip(&batch) {
                taken[axis] = coordinate;
            }
            for (at, &coordinate) in cell.iter().enumerate() {
                taken[spec.update_window_dims[at]] = coordinate;
                lands[kept[at]] = coordinate;
            }
            for (&axis, component) in spec.scatter_dims_to_operand_dims.iter().zip(components) {
                lands[axis] += clamped(component, job.dest.dims[axis], windows[axis]);
            }
            found.push((place(&job.updates, &taken), place(&job.dest, &lands)));
        }
    }
    found
}

/// The window on each axis of a scatter's destination.
fn scatter_windows(job: &ScatterJob) -> Vec<usize> {
    let kept = others(job.dest.dims.len(), &job.spec.inserted_window_dims);
    let window = picked(&job.updates.dims, &job.spec.update_window_dims);
    let mut windows = vec![1; job.dest.dims.len()];
    for (axis, extent) in kept.into_iter().zip(window) {
        windows[axis] = extent;
    }
    windows
}

/// How many windows of a gather slide.
pub fn slid_in_gather(job: &GatherJob, starts: &[i64]) -> u64 {
    let spec = &job.spec;
    let batch_axes = others(job.dest.dims.len(), &spec.offset_dims);
    let moved = |batch: &Vec<usize>| {
        let components = components(&job.index, starts, spec.index_vector_dim, batch);
        moves(
            &job.operand.dims,
            &spec.slice_sizes,
            &spec.start_index_map,
            &components,
        )
    };
    match job.dest.dims.contains(&0) {
        true => 0,
        false => count(&picked(&job.dest.dims, &batch_axes), moved),
    }
}

/// How many windows of a scatter slide.
pub fn slid_in_scatter(job: &ScatterJob, starts: &[i64]) -> u64 {
    let spec = &job.spec;
    let batch_axes = others(job.updates.dims.len(), &spec.update_window_dims);
    let windows = scatter_windows(job);
    let moved = |batch: &Vec<usize>| {
        let components = components(&job.index, starts, spec.index_vector_dim, batch);
        moves(
            &job.dest.dims,
            &windows,
            &spec.scatter_dims_to_operand_dims,
            &components,
        )
    };
    match job.updates.dims.contains(&0) {
        true => 0,
        false => count(&picked(&job.updates.dims, &batch_axes), moved),
    }
}

/// How many coordinates have something.
fn count(dims: &[usize], has: impl Fn(&Vec<usize>) -> bool) -> u64 {
    coordinates(dims).into_iter().filter(has).count() as u64
}

/// Whether the clamp moves one of the components, which are on these axes.
fn moves(grid: &[usize], windows: &[usize], axes: &[usize], components: &[i64]) -> bool {
    let mut pairs = axes.iter().zip(components);
    pairs.any(|(&axis, &start)| clamped(start, grid[axis], windows[axis]) as i64 != start)
}

/// The entries at these places.
fn picked(list: &[usize], places: &[usize]) -> Vec<usize> {
    places.iter().map(|&place| list[place]).collect()
}

/// The axes below `rank` that are not listed.
fn others(rank: usize, listed: &[usize]) -> Vec<usize> {
    (0..rank).filter(|axis| !listed.contains(axis)).collect()
}

/// All coordinates, first axis fastest.
pub fn coordinates(dims: &[usize]) -> Vec<Vec<usize>> {
    let mut all = vec![vec![]];
    for &dim in dims.iter().rev() {
        let behind = |c: usize, rest: &Vec<usize>| [&[c], &rest[..]].concat();
        all = all
            .iter()
            .flat_map(|rest| (0..dim).map(move |c| behind(c, rest)))
            .collect();
    }
    all
}

pub fn place(view: &ViewLayout, coordinate: &[usize]) -> usize {
    let steps = coordinate.iter().zip(&view.strides);
    let sum: isize = steps.map(|(&c, &stride)| c as isize * stride).sum();
    (view.offset + sum) as usize
}

/// The components of the start at a batch coordinate.
fn components(index: &ViewLayout, starts: &[i64], vector: usize, batch: &[usize]) -> Vec<i64> {
    let count = index.dims.get(vector).copied().unwrap_or(1);
    let at = |component: usize| {
        let mut coordinate = batch.to_vec();
        if vector < index.dims.len() {
            coordinate.insert(vector, component);
        }
        starts[place(index, &coordinate)]
    };
    (0..count).map(at).collect()
}

fn clamped(start: i64, extent: usize, window: usize) -> usize {
    start.clamp(0, (extent - window) as i64) as usize
}
