//! Every refusal, with its number, a, b and words.

use crate::cases::{cuts_added, packed, view, window_read};
use core::fmt::Debug;
use strided::{
    check_job, gather_job, scatter_job, Done, GatherJob, Job, Result, ScatterJob, StridedError,
};

const LENGTHS: &str = "the extents and strides of a layout differ in length";
const OVERFLOW: &str = "a product, span, step or reset of the layouts does not fit in 64 bits";
const NOT_NESTED: &str =
    "the destination is not nested: two of its coordinates might name one element";
const OTHER_LAYOUT: &str = "the layout of a view is not the one the plan was compiled for";

#[track_caller]
fn refused<T: Debug>(result: Result<T>, number: u64, a: u64, b: u64) -> StridedError {
    let refusal = result.expect_err("a refusal");
    assert_eq!((refusal.number(), refusal.a(), refusal.b()), (number, a, b));
    refusal
}

fn gather(change: impl FnOnce(&mut GatherJob)) -> Result<()> {
    let mut job = window_read();
    change(&mut job);
    job.compile().map(|_| ())
}

fn scatter(change: impl FnOnce(&mut ScatterJob)) -> Result<()> {
    let mut job = cuts_added();
    change(&mut job);
    job.compile().map(|_| ())
}

#[test]
fn unchanged_they_compile() {
    assert_eq!(gather(|_| ()), Ok(()));
    assert_eq!(scatter(|_| ()), Ok(()));
}

#[test]
fn lengths_of_a_layout_differ() {
    let refusal = refused(gather(|job| job.operand.strides = vec![1, 1]), 1, 0, 0);
    assert_eq!(refusal, StridedError::StrideLengthMismatch);
    assert_eq!(refusal.to_string(), LENGTHS);
    refused(gather(|job| job.index.strides = vec![]), 1, 0, 0);
    refused(gather(|job| job.dest.dims = vec![2]), 1, 0, 0);
    refused(scatter(|job| job.index.dims = vec![]), 1, 0, 0);
    refused(scatter(|job| job.updates.strides = vec![]), 1, 0, 0);
    refused(scatter(|job| job.dest.strides = vec![0; 300]), 1, 0, 0);
}

#[test]
fn a_rank_is_too_large() {
    let refusal = refused(gather(|job| job.index = packed(&[1; 9])), 2, 9, 8);
    assert_eq!(refusal, StridedError::RankTooLarge { rank: 9, limit: 8 });
    let words = "a layout has rank 9, above the limit of 8";
    assert_eq!(refusal.to_string(), words);
    refused(gather(|job| job.operand = packed(&[1; 300])), 2, 300, 8);
    let two = scatter(|job| {
        job.updates = packed(&[1; 10]);
        job.dest = packed(&[1; 9]);
    });
    refused(two, 2, 10, 8);
}

#[test]
fn a_number_does_not_fit() {
    let product = view(&[usize::MAX, 2, 0], &[0, 0, 0], 0);
    let refusal = refused(gather(|job| job.operand = product.clone()), 3, 0, 0);
    assert_eq!(refusal, StridedError::OffsetOverflow);
    assert_eq!(refusal.to_string(), OVERFLOW);
    refused(scatter(|job| job.index = product), 3, 0, 0);
    let span = view(&[usize::MAX], &[0], 0);
    refused(gather(|job| job.index = span), 3, 0, 0);
    let reset = view(&[2, 2], &[1, isize::MIN], 0);
    refused(gather(|job| job.dest = reset), 3, 0, 0);
}

#[test]
fn a_step_of_the_batch_walk_does_not_fit() {
    let walk = |dims: &[usize], strides: &[isize]| {
        let (index, updates) = (view(dims, &vec![0; dims.len()], 0), view(dims, strides, 0));
        scatter(|job| {
            job.spec.index_vector_dim = dims.len();
            job.index = index;
            job.updates = updates;
        })
    };
    refused(walk(&[2, 1], &[1 << 62, 0]), 3, 0, 0);
    assert_eq!(walk(&[2], &[1 << 62]), Ok(()));
}

#[test]
fn the_destination_is_not_nested() {
    let refusal = refused(gather(|job| job.dest.strides = vec![1, 1]), 4, 0, 0);
    assert_eq!(refusal, StridedError::NonInjectiveOutputLayout);
    assert_eq!(refusal.to_string(), NOT_NESTED);
    refused(scatter(|job| job.dest.strides = vec![0]), 4, 0, 0);
    let woven = view(&[3, 2], &[2, 3], 0);
    refused(gather(|job| job.dest = woven), 4, 0, 0);
}

#[test]
fn counts_of_a_gather_differ() {
    let sizes = gather(|job| job.spec.slice_sizes = vec![2, 2]);
    let refusal = refused(sizes, 5, 2, 1);
    let named = StridedError::RankMismatch {
        count: 2,
        against: 1,
    };
    assert_eq!(refusal, named);
    assert_eq!(refusal.to_string(), "two counts disagree: 2 against 1");
    // Two components along axis 0 of the index, for a map of one entry.
    refused(gather(|job| job.spec.index_vector_dim = 0), 5, 2, 1);
    refused(gather(|job| job.spec.offset_dims = vec![]), 5, 0, 1);
}

#[test]
fn counts_of_a_scatter_differ() {
    refused(scatter(|job| job.spec.index_vector_dim = 0), 5, 3, 1);
    refused(
        scatter(|job| job.spec.update_window_dims = vec![0]),
        5,
        1,
        0,
    );
    refused(scatter(|job| job.updates = packed(&[3, 1])), 5, 2, 1);
    let above = scatter(|job| {
        job.dest = packed(&[5, 5]);
        job.spec.inserted_window_dims = vec![];
        job.spec.update_window_dims = vec![0, 1];
    });
    refused(above, 5, 2, 1);
}

#[test]
fn axes_of_a_gather_are_invalid() {
    let vector = gather(|job| job.spec.index_vector_dim = 2);
    let refusal = refused(vector, 6, 2, 2);
    assert_eq!(refusal, StridedError::InvalidAxis { axis: 2, rank: 2 });
    let words = "axis 2 is out of range for rank 2, repeated, or has a window it cannot have";
    assert_eq!(refusal.to_string(), words);
    refused(
        gather(|job| job.spec.collapsed_slice_dims = vec![3]),
        6,
        3,
        1,
    );
    refused(
        gather(|job| job.spec.collapsed_slice_dims = vec![0, 0]),
        6,
        0,
        1,
    );
    refused(gather(|job| job.spec.start_index_map = vec![0, 0]), 6, 0, 1);
    refused(gather(|job| job.spec.slice_sizes = vec![6]), 6, 0, 1);
    // A collapsed axis whose window is 2.
    refused(
        gather(|job| job.spec.collapsed_slice_dims = vec![0]),
        6,
        0,
        1,
    );
    refused(gather(|job| job.spec.offset_dims = vec![2]), 6, 2, 2);
}

#[test]
fn axes_of_a_scatter_are_invalid() {
    refused(
        scatter(|job| job.spec.inserted_window_dims = vec![1]),
        6,
        1,
        1,
    );
    let map = scatter(|job| job.spec.scatter_dims_to_operand_dims = vec![0, 0]);
    refused(map, 6, 0, 1);
    refused(scatter(|job| job.spec.index_vector_dim = 7), 6, 7, 2);
    let cut_of = |extent: usize, window_axis: usize| {
        scatter(|job| {
            job.index = packed(&[1]);
            job.updates = packed(&[extent]);
            job.spec.index_vector_dim = 0;
            job.spec.inserted_window_dims = vec![];
            job.spec.update_window_dims = vec![window_axis];
        })
    };
    refused(cut_of(2, 1), 6, 1, 1);
    refused(cut_of(6, 0), 6, 0, 1);
    assert_eq!(cut_of(5, 0), Ok(()));
}

#[test]
fn a_shape_is_not_the_expected_one() {
    let refusal = refused(gather(|job| job.dest = packed(&[2])), 7, 1, 2);
    let named = StridedError::ShapeMismatch {
        given: 1,
        expected: 2,
    };
    assert_eq!(refusal, named);
    let words = "the shape that was given, of rank 1, is not the expected one, of rank 2";
    assert_eq!(refusal.to_string(), words);
    refused(gather(|job| job.dest = packed(&[3, 2])), 7, 2, 2);
    refused(scatter(|job| job.updates = packed(&[4])), 7, 1, 1);
}

/// Executes the window read, compiled as it is, with views of `views`.
fn read_with(views: &GatherJob) -> Result<Done> {
    let mut dest = [7; 4];
    let plan = window_read().compile()?;
    let answer = plan.execute(
        &mut views.dest.view_mut(&mut dest),
        &views.operand.view(&[10, 20, 30, 40, 50]),
        &views.index.view(&[4, -1]),
    );
    assert!(answer.is_ok() || dest == [7; 4]);
    answer
}

/// Executes the cuts added, compiled as they are, with views of `views`.
fn add_with(views: &ScatterJob) -> Result<Done> {
    let mut dest = [7.0; 5];
    let plan = cuts_added().compile()?;
    let answer = plan.execute(
        &mut views.dest.view_mut(&mut dest),
        &views.index.view(&[0, 0, 9]),
        &views.updates.view(&[3.0, 4.0, 5.0]),
    );
    assert!(answer.is_ok() || dest == [7.0; 5]);
    answer
}

#[test]
fn a_view_has_another_layout_than_the_plan() {
    let layouts = [
        view(&[4], &[1], 0),
        view(&[5], &[2], 0),
        view(&[2, 2], &[1], 0),
        packed(&[1; 9]),
        packed(&[]),
    ];
    for layout in layouts {
        let [mut operand, mut index, mut dest] = [window_read(), window_read(), window_read()];
        operand.operand = layout.clone();
        index.index = layout.clone();
        dest.dest = layout.clone();
        for views in [operand, index, dest] {
            let refusal = refused(read_with(&views), 8, 0, 0);
            assert_eq!(refusal, StridedError::PlanLayoutMismatch);
            assert_eq!(refusal.to_string(), OTHER_LAYOUT);
        }
        let [mut index, mut updates, mut dest] = [cuts_added(), cuts_added(), cuts_added()];
        index.index = layout.clone();
        updates.updates = layout.clone();
        dest.dest = layout;
        for views in [index, updates, dest] {
            refused(add_with(&views), 8, 0, 0);
        }
    }
}

#[test]
fn a_view_reaches_outside_its_slice() {
    for offset in [-1, 1, isize::MIN, isize::MAX] {
        let [mut operand, mut index, mut dest] = [window_read(), window_read(), window_read()];
        operand.operand.offset = offset;
        index.index.offset = offset;
        dest.dest.offset = offset;
        refused(read_with(&operand), 9, 1, 0);
        refused(read_with(&index), 9, 2, 0);
        let refusal = refused(read_with(&dest), 9, 3, 0);
        let named = StridedError::BufferBounds {
            view: 3,
            bytes_needed: 0,
        };
        assert_eq!(refusal, named);
        let words = "view 3 reaches outside its slice (the views of a call count from 1)";
        assert_eq!(refusal.to_string(), words);

        let [mut index, mut updates, mut dest] = [cuts_added(), cuts_added(), cuts_added()];
        index.index.offset = offset;
        updates.updates.offset = offset;
        dest.dest.offset = offset;
        refused(add_with(&index), 9, 1, 0);
        refused(add_with(&updates), 9, 2, 0);
        refused(add_with(&dest), 9, 3, 0);
    }
}

#[test]
fn bytes_store_no_job() {
    let refusal = refused(check_job(&[0, 0, 0, 3, 1, 3, 1]), 10, 5, 0);
    assert_eq!(refusal, StridedError::JobBytes { place: 5 });
    let words = "the bytes store no job of this kind and element: the field at byte 5 is wrong";
    assert_eq!(refusal.to_string(), words);
    refused(Job::from_bytes(&[0, 0, 0, 0]), 10, 4, 0);
    refused(gather_job(&[], &[0], &[], &mut [0]), 10, 0, 0);
    refused(scatter_job(&[1], &[], &[0.0], &mut [0.0]), 10, 0, 0);
}

#[test]
fn a_job_is_of_another_kind_or_element() {
    let gather = Job::Gather(window_read()).to_bytes().unwrap();
    let scatter = Job::Scatter(cuts_added()).to_bytes().unwrap();
    refused(scatter_job(&gather, &[], &[1], &mut [1]), 10, 5, 0);
    refused(gather_job(&scatter, &[1], &[], &mut [1]), 10, 5, 0);
    refused(gather_job(&gather, &[1.0], &[], &mut [1.0]), 10, 6, 0);
    refused(scatter_job(&scatter, &[], &[1.0], &mut [1.0]), 10, 6, 0);
}

#[test]
fn a_refusal_is_an_error() {
    let refusal: Box<dyn std::error::Error> = Box::new(StridedError::OffsetOverflow);
    assert_eq!(refusal.to_string(), OVERFLOW);
}
