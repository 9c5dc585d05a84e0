//! The largest numbers, the longest lists, and slices of no elements.

use crate::cases::{cuts_added, packed, view, window_read};
use strided::{
    gather_job, scatter_job, Done, GatherJob, GatherPlan, Job, Result, ScatterJob, StridedMut,
    StridedRef, ViewLayout, RANK_LIMIT,
};

fn number<T>(result: Result<T>) -> u64 {
    result.err().map_or(0, |refusal| refusal.number())
}

fn gather_numbers(change: impl Fn(&mut GatherJob)) -> (u64, u64) {
    let mut job = window_read();
    change(&mut job);
    let mut dest = [7; 4];
    let stored = Job::Gather(job.clone()).to_bytes();
    let run = stored.and_then(|stored| gather_job(&stored, &[1, 2, 3, 4, 5], &[0, 0], &mut dest));
    assert!(run.is_ok() || dest == [7; 4]);
    (number(job.compile()), number(run))
}

fn scatter_numbers(change: impl Fn(&mut ScatterJob)) -> (u64, u64) {
    let mut job = cuts_added();
    change(&mut job);
    let mut dest = [7; 5];
    let stored = Job::Scatter(job.clone()).to_bytes();
    let run = stored.and_then(|stored| scatter_job(&stored, &[0, 0, 9], &[3, 4, 5], &mut dest));
    assert!(run.is_ok() || dest == [7; 5]);
    (number(job.compile()), number(run))
}

#[test]
fn extents_as_large_as_can_be() {
    let huge = |rank| view(&vec![usize::MAX; rank], &vec![1; rank], 0);
    for rank in 1..=RANK_LIMIT {
        assert_eq!(gather_numbers(|job| job.operand = huge(rank)), (3, 3));
        assert_eq!(gather_numbers(|job| job.index = huge(rank)), (3, 3));
        assert_eq!(gather_numbers(|job| job.dest = huge(rank)), (3, 3));
        assert_eq!(scatter_numbers(|job| job.dest = huge(rank)), (3, 3));
    }
    // A single axis of the updates fits, but not beside three starts.
    assert_eq!(scatter_numbers(|job| job.updates = huge(1)), (7, 7));
    assert_eq!(scatter_numbers(|job| job.updates = huge(2)), (3, 3));
    let sizes = |job: &mut GatherJob| job.spec.slice_sizes = vec![usize::MAX];
    assert_eq!(gather_numbers(sizes), (6, 6));
}

#[test]
fn strides_and_offsets_as_far_as_can_be() {
    for step in [isize::MIN, isize::MAX] {
        let operand = |job: &mut GatherJob| job.operand.strides = vec![step];
        assert_eq!(gather_numbers(operand), (3, 3));
        let dest = |job: &mut ScatterJob| job.dest.strides = vec![step];
        assert_eq!(scatter_numbers(dest), (3, 3));
        let offset = |job: &mut GatherJob| job.index.offset = step;
        assert_eq!(gather_numbers(offset), (0, 9));
        let updates = |job: &mut ScatterJob| job.updates.offset = step;
        assert_eq!(scatter_numbers(updates), (0, 9));
    }
    // One step on fits, though no slice reaches there; of one step back the
    // way back does not fit.
    let index = |step| move |job: &mut GatherJob| job.index.strides = vec![step];
    assert_eq!(gather_numbers(index(isize::MAX)), (0, 9));
    assert_eq!(gather_numbers(index(isize::MIN)), (3, 3));
}

#[test]
fn long_lists() {
    // A list that is too long for a stored job is refused by compile, too, by
    // the check that it does not pass.
    for len in [17, 300] {
        let list = vec![0; len];
        let change = |job: &mut GatherJob| job.spec.offset_dims = list.clone();
        assert_eq!(gather_numbers(change), (5, 5));
        let change = |job: &mut GatherJob| job.spec.collapsed_slice_dims = list.clone();
        assert_eq!(gather_numbers(change), (6, 5));
        let change = |job: &mut GatherJob| job.spec.start_index_map = list.clone();
        assert_eq!(gather_numbers(change), (6, 5));
        let change = |job: &mut GatherJob| job.spec.slice_sizes = list.clone();
        assert_eq!(gather_numbers(change), (5, 5));
        let change = |job: &mut ScatterJob| job.spec.update_window_dims = list.clone();
        assert_eq!(scatter_numbers(change), (5, 5));
        let change = |job: &mut ScatterJob| job.spec.inserted_window_dims = list.clone();
        assert_eq!(scatter_numbers(change), (6, 5));
        let change = |job: &mut ScatterJob| job.spec.scatter_dims_to_operand_dims = list.clone();
        assert_eq!(scatter_numbers(change), (6, 5));
    }
}

#[test]
fn nine_axes() {
    let nine = packed(&[1; RANK_LIMIT + 1]);
    assert_eq!(gather_numbers(|job| job.operand = nine.clone()), (2, 2));
    assert_eq!(gather_numbers(|job| job.index = nine.clone()), (2, 2));
    assert_eq!(gather_numbers(|job| job.dest = nine.clone()), (2, 2));
    assert_eq!(scatter_numbers(|job| job.index = nine.clone()), (2, 2));
    assert_eq!(scatter_numbers(|job| job.updates = nine.clone()), (2, 2));
    assert_eq!(scatter_numbers(|job| job.dest = nine.clone()), (2, 2));
}

#[test]
fn eight_axes() {
    let mut job = window_read();
    job.operand = packed(&[2; RANK_LIMIT]);
    job.index = view(&[0], &[1], 0);
    job.dest = ViewLayout::row_major(&[2; RANK_LIMIT]).unwrap();
    job.spec.offset_dims = (0..RANK_LIMIT).collect();
    job.spec.start_index_map = vec![];
    job.spec.index_vector_dim = 0;
    job.spec.slice_sizes = vec![2; RANK_LIMIT];
    let operand: Vec<i32> = (0..256).collect();
    let mut dest = vec![0; 256];
    let stored = Job::Gather(job).to_bytes().unwrap();
    gather_job(&stored, &operand, &[], &mut dest).unwrap();
    // The bits of the place are the coordinates, so that the order turns them.
    let turned: Vec<i32> = (0..=255u8).map(|n| n.reverse_bits().into()).collect();
    assert_eq!(dest, turned);
}

#[test]
fn slices_without_elements() {
    let none: [i32; 0] = [];
    let stored = Job::Gather(window_read()).to_bytes().unwrap();
    let mut dest = [7; 4];
    assert_eq!(number(gather_job(&stored, &none, &[4, -1], &mut dest)), 9);
    assert_eq!(number(gather_job(&stored, &[1; 5], &[4, -1], &mut [])), 9);
    assert_eq!(dest, [7; 4]);

    // No starts: no windows, and nothing to write.
    let mut job = window_read();
    job.index = packed(&[0]);
    job.dest = packed(&[2, 0]);
    let stored = Job::Gather(job).to_bytes().unwrap();
    assert_eq!(
        gather_job(&stored, &[1; 5], &[], &mut []).map(Done::slid),
        Ok(0)
    );
    assert_eq!(
        gather_job(&stored, &[1; 5], &[], &mut dest).map(Done::slid),
        Ok(0)
    );
    assert_eq!(dest, [7; 4]);

    let mut job = cuts_added();
    job.index = packed(&[0]);
    job.updates = packed(&[0]);
    let stored = Job::Scatter(job).to_bytes().unwrap();
    let mut grid = [7; 5];
    assert_eq!(
        scatter_job(&stored, &[], &[], &mut grid).map(Done::slid),
        Ok(0)
    );
    assert_eq!(grid, [7; 5]);
}

#[test]
fn views_without_cells_keep_their_offset_inside() {
    let mut job = window_read();
    job.index = packed(&[0]);
    job.dest = packed(&[2, 0]);
    for (offset, expected) in [(-1, 9), (0, 0), (4, 0), (5, 9)] {
        job.dest.offset = offset;
        let stored = Job::Gather(job.clone()).to_bytes().unwrap();
        let answer = gather_job(&stored, &[1; 5], &[], &mut [7; 4]);
        assert_eq!(number(answer), expected, "offset {offset}");
    }
}

#[test]
fn grids_without_axes() {
    let mut job = window_read();
    job.operand = packed(&[]);
    job.index = view(&[0], &[1], 0);
    job.dest = packed(&[]);
    job.spec.offset_dims = vec![];
    job.spec.start_index_map = vec![];
    job.spec.index_vector_dim = 0;
    job.spec.slice_sizes = vec![];
    let stored = Job::Gather(job).to_bytes().unwrap();
    let mut dest = [0];
    assert_eq!(
        gather_job(&stored, &[42], &[], &mut dest).map(Done::slid),
        Ok(0)
    );
    assert_eq!(dest, [42]);
}

#[test]
fn layouts_whose_strides_do_not_fit() {
    assert_eq!(ViewLayout::column_major(&[usize::MAX, 1]), None);
    assert_eq!(ViewLayout::row_major(&[1, 1 << 32, 1 << 31]), None);
    assert_eq!(ViewLayout::column_major(&[1 << 32, 1 << 32, 5]), None);
    // The last product is no stride.
    assert!(ViewLayout::column_major(&[1, usize::MAX]).is_some());
    assert!(ViewLayout::column_major(&[0, usize::MAX, 2]).is_some());
    assert_eq!(packed(&[]), ViewLayout::default());
    assert_eq!(packed(&[1; 300]).strides, [1; 300]);
}

#[test]
fn a_plan_is_executed_many_times() {
    let job = window_read();
    let plan = job.compile().unwrap();
    assert_eq!(plan.spec(), &job.spec);
    assert_eq!(plan.dest_dims(), [2, 2]);
    assert_eq!(plan.clone(), plan);
    let mut dest = [0; 8];
    for turn in 0..3 {
        let view = &mut StridedMut::new(&mut dest, &[2, 2], &[1, 2], turn);
        let operand = StridedRef::new(&[10, 20, 30, 40, 50], &[5], &[1], 0);
        let starts = StridedRef::new(&[4, -1], &[2], &[1], 0);
        plan.execute(view, &operand, &starts).unwrap();
    }
    assert_eq!(dest, [40, 40, 40, 50, 10, 20, 0, 0]);
}

#[test]
fn plans_and_views_go_between_threads() {
    fn sendable<T: Send + Sync>(_: &T) {}
    let plan: GatherPlan = window_read().compile().unwrap();
    sendable(&plan);
    sendable(&StridedRef::new(&[1.0], &[1], &[1], 0));
    let cells = [10, 20, 30, 40, 50];
    let read = || {
        let mut dest = [0; 4];
        let answer = plan.execute(
            &mut StridedMut::new(&mut dest, &[2, 2], &[1, 2], 0),
            &StridedRef::new(&cells, &[5], &[1], 0),
            &StridedRef::new(&[4, -1], &[2], &[1], 0),
        );
        answer.map(|done| (dest, done.slid()))
    };
    std::thread::scope(|scope| {
        let runs: Vec<_> = (0..4).map(|_| scope.spawn(read)).collect();
        for run in runs {
            assert_eq!(run.join().unwrap(), Ok(([40, 50, 10, 20], 2)));
        }
    });
}
