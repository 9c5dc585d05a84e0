//! Arguments of all kinds, most of which are refused: none makes a panic, and
//! a refusal leaves the destination as it was.

use crate::cases::{bits, cells, summed, view, Cell, GatherCase, ScatterCase};
use crate::random::Random;
use strided::{
    gather_job, scatter_job, Done, Element, GatherJob, GatherSpec, Job, Result, Rule, ScatterJob,
    ScatterPlan, ScatterSpec, StridedError, ViewLayout,
};

pub const CASES: usize = 15_000;

/// A scatter of more updates is not run: strides of 0 let there be so many
/// that it would go on for years.
pub const MOST_UPDATES: usize = 1 << 12;

const EXTENTS: [usize; 10] = [
    0,
    1,
    2,
    3,
    5,
    1 << 31,
    1 << 32,
    1 << 62,
    1 << 63,
    usize::MAX,
];
const STEPS: [isize; 10] = [0, 1, 2, -1, -3, 7, 1 << 32, 1 << 62, isize::MIN, isize::MAX];

#[test]
fn wild_gathers() {
    let mut random = Random::new(31);
    for _ in 0..CASES {
        let job = wild_gather(&mut random);
        let starts = wild_starts(&mut random);
        let lens = [random.below(12), random.below(12)];
        let _ = gather::<i32>(&mut random, &job, &job, &starts, lens);
        let _ = gather::<f64>(&mut random, &job, &job, &starts, lens);
    }
}

#[test]
fn wild_scatters() {
    let mut random = Random::new(32);
    for _ in 0..CASES {
        let job = wild_scatter(&mut random);
        let starts = wild_starts(&mut random);
        let lens = [random.below(12), random.below(12)];
        let _ = scatter::<i32>(&mut random, &job, &job, &starts, lens);
        let _ = scatter::<f64>(&mut random, &job, &job, &starts, lens);
    }
}

#[test]
fn gathers_with_something_changed() {
    let mut random = Random::new(33);
    let mut seen = [0; 11];
    for _ in 0..CASES {
        let case = GatherCase::random(&mut random, i32::TYPE);
        let mut job = case.job;
        if random.one_in(2) {
            change_gather(&mut random, &mut job);
        }
        let mut views = job.clone();
        if random.one_in(3) {
            change_gather(&mut random, &mut views);
        }
        let lens = [case.operand_len, case.dest_len];
        let answer = gather::<i32>(&mut random, &job, &views, &case.starts, lens);
        seen[answer.err().map_or(0, |refusal| refusal.number()) as usize] += 1;
    }
    let unseen: Vec<usize> = (0..10).filter(|&number| seen[number] == 0).collect();
    assert!(unseen.is_empty(), "no case was answered by {unseen:?}");
}

#[test]
fn scatters_with_something_changed() {
    let mut random = Random::new(34);
    let mut seen = [0; 11];
    for _ in 0..CASES {
        let case = ScatterCase::random(&mut random, f64::TYPE);
        let mut job = case.job;
        if random.one_in(2) {
            change_scatter(&mut random, &mut job);
        }
        let mut views = job.clone();
        if random.one_in(3) {
            change_scatter(&mut random, &mut views);
        }
        let lens = [case.updates_len, case.dest_len];
        let answer = scatter::<f64>(&mut random, &job, &views, &case.starts, lens);
        seen[answer.err().map_or(0, |refusal| refusal.number()) as usize] += 1;
    }
    let unseen: Vec<usize> = (0..10).filter(|&number| seen[number] == 0).collect();
    assert!(unseen.is_empty(), "no case was answered by {unseen:?}");
}

/// Compiles by `job` and executes with the views of `views`; where these are
/// the same, runs the stored job, too, which must give the same.
fn gather<T: Cell>(
    random: &mut Random,
    job: &GatherJob,
    views: &GatherJob,
    starts: &[i64],
    [operand_len, dest_len]: [usize; 2],
) -> Result<Done> {
    let operand = cells::<T>(random, operand_len);
    let before = cells::<T>(random, dest_len);
    let mut dest = before.clone();
    let answer = job.compile().and_then(|plan| {
        plan.execute(
            &mut views.dest.view_mut(&mut dest),
            &views.operand.view(&operand),
            &views.index.view(starts),
        )
    });
    assert!(answer.is_ok() || bits(&dest) == bits(&before), "{job:?}");
    if job == views {
        let mut job = job.clone();
        job.element = T::TYPE;
        let mut again = before;
        let run = |bytes: Vec<u8>| gather_job(&bytes, &operand, starts, &mut again);
        if let Some(by_job) = stored(&Job::Gather(job)).map(run) {
            assert_eq!(by_job, answer);
            assert_eq!(bits(&again), bits(&dest));
        }
    }
    answer
}

/// As [`gather`]; none where there are too many updates. By any rule the
/// answer is the same.
fn scatter<T: Cell>(
    random: &mut Random,
    job: &ScatterJob,
    views: &ScatterJob,
    starts: &[i64],
    [updates_len, dest_len]: [usize; 2],
) -> Result<Option<Done>> {
    let plan = job.compile();
    if plan.is_ok() && job.updates.dims.iter().product::<usize>() > MOST_UPDATES {
        return Ok(None);
    }
    let updates = cells::<T>(random, updates_len);
    let before = cells::<T>(random, dest_len);
    let [mut dest, mut other] = [before.clone(), before.clone()];
    let answer = put(&plan, views, starts, &updates, &mut dest, Rule::Add.into());
    let by_rule = put(&plan, views, starts, &updates, &mut other, T::rule(random));
    assert_eq!(by_rule, answer, "{job:?}");
    for dest in [&dest, &other] {
        assert!(answer.is_ok() || bits(dest) == bits(&before), "{job:?}");
    }
    if job == views {
        let mut job = job.clone();
        job.element = T::TYPE;
        let mut again = before;
        let run = |bytes: Vec<u8>| scatter_job(&bytes, starts, &updates, &mut again);
        if let Some(by_job) = stored(&Job::Scatter(job)).map(run) {
            assert_eq!(by_job, answer);
            assert_eq!(summed(&again), summed(&dest));
        }
    }
    answer.map(Some)
}

/// Executes a plan, where there is one, with the views of `views`.
fn put<T: Cell>(
    plan: &Result<ScatterPlan>,
    views: &ScatterJob,
    starts: &[i64],
    updates: &[T],
    dest: &mut [T],
    rule: T::Rule,
) -> Result<Done> {
    plan.clone()?.execute_updates(
        &mut views.dest.view_mut(dest),
        &views.index.view(starts),
        &views.updates.view(updates),
        rule,
    )
}

/// The job's bytes, where its lists are short enough for it to be stored.
fn stored(job: &Job) -> Option<Vec<u8>> {
    match job.to_bytes() {
        Ok(bytes) => {
            assert_eq!(Job::from_bytes(&bytes).as_ref(), Ok(job));
            Some(bytes)
        }
        Err(StridedError::StrideLengthMismatch) => None,
        Err(StridedError::RankTooLarge { rank, limit }) => {
            assert!(rank > limit);
            None
        }
        Err(StridedError::RankMismatch { count, against }) => {
            assert!(count > against);
            None
        }
        Err(refusal) => panic!("{refusal:?} from the writer"),
    }
}

pub fn wild_starts(random: &mut Random) -> Vec<i64> {
    let len = random.below(8);
    random.list(len, |random| random.pick(&STEPS) as i64)
}

pub fn wild_view(random: &mut Random) -> ViewLayout {
    let rank = match random.one_in(20) {
        true => random.pick(&[8, 9, 300]),
        false => random.below(4),
    };
    let steps = match random.one_in(20) {
        true => rank + 1,
        false => rank,
    };
    let offset = match random.one_in(4) {
        true => random.pick(&STEPS),
        false => random.between(0, 3),
    };
    let small = !random.one_in(4);
    let dims = random.list(rank, |random| match small {
        true => random.below(4),
        false => random.pick(&EXTENTS),
    });
    let strides = random.list(steps, |random| match small {
        true => random.between(-2, 3),
        false => random.pick(&STEPS),
    });
    view(&dims, &strides, offset)
}

fn wild_list(random: &mut Random) -> Vec<usize> {
    let len = match random.one_in(30) {
        true => random.pick(&[16, 17, 300]),
        false => random.below(3),
    };
    random.list(len, |random| match random.one_in(10) {
        true => random.pick(&EXTENTS),
        false => random.below(3),
    })
}

fn wild_vector(random: &mut Random) -> usize {
    match random.one_in(10) {
        true => random.pick(&EXTENTS),
        false => random.below(3),
    }
}

fn wild_gather(random: &mut Random) -> GatherJob {
    GatherJob {
        element: i32::TYPE,
        operand: wild_view(random),
        index: wild_view(random),
        dest: wild_view(random),
        spec: GatherSpec {
            offset_dims: wild_list(random),
            collapsed_slice_dims: wild_list(random),
            start_index_map: wild_list(random),
            index_vector_dim: wild_vector(random),
            slice_sizes: wild_list(random),
        },
    }
}

pub fn wild_scatter(random: &mut Random) -> ScatterJob {
    ScatterJob {
        element: i32::TYPE,
        index: wild_view(random),
        updates: wild_view(random),
        dest: wild_view(random),
        spec: ScatterSpec {
            update_window_dims: wild_list(random),
            inserted_window_dims: wild_list(random),
            scatter_dims_to_operand_dims: wild_list(random),
            index_vector_dim: wild_vector(random),
        },
    }
}

fn change_gather(random: &mut Random, job: &mut GatherJob) {
    let spec = &mut job.spec;
    match random.below(8) {
        0 => change_view(random, &mut job.operand),
        1 => change_view(random, &mut job.index),
        2 => change_view(random, &mut job.dest),
        3 => change_list(random, &mut spec.offset_dims),
        4 => change_list(random, &mut spec.collapsed_slice_dims),
        5 => change_list(random, &mut spec.start_index_map),
        6 => spec.index_vector_dim = wild_vector(random),
        _ => change_list(random, &mut spec.slice_sizes),
    }
}

pub fn change_scatter(random: &mut Random, job: &mut ScatterJob) {
    let spec = &mut job.spec;
    match random.below(7) {
        0 => change_view(random, &mut job.index),
        1 => change_view(random, &mut job.updates),
        2 => change_view(random, &mut job.dest),
        3 => change_list(random, &mut spec.update_window_dims),
        4 => change_list(random, &mut spec.inserted_window_dims),
        5 => change_list(random, &mut spec.scatter_dims_to_operand_dims),
        _ => spec.index_vector_dim = wild_vector(random),
    }
}

pub fn change_view(random: &mut Random, view: &mut ViewLayout) {
    let small = random.one_in(2);
    match random.below(5) {
        0 => view.offset = random.pick(&STEPS),
        1 => view.offset = random.between(-1, 4),
        2 => *view = wild_view(random),
        3 => change_entry(random, &mut view.strides, |random| match small {
            true => random.between(-3, 3),
            false => random.pick(&STEPS),
        }),
        _ => change_entry(random, &mut view.dims, |random| match small {
            true => random.below(4),
            false => random.pick(&EXTENTS),
        }),
    }
}

fn change_list(random: &mut Random, list: &mut Vec<usize>) {
    match random.below(4) {
        0 => list.push(random.below(3)),
        1 => drop(list.pop()),
        2 => *list = wild_list(random),
        _ => change_entry(random, list, |random| random.below(5)),
    }
}

fn change_entry<T>(random: &mut Random, list: &mut [T], entry: impl Fn(&mut Random) -> T) {
    if !list.is_empty() {
        let place = random.below(list.len());
        list[place] = entry(random);
    }
}
