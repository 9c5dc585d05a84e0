//! The names of strided-rs: views that are tested when they are made, errors
//! in its shapes, and calls beside those of the crate's root.

use crate::cases::{bits, cells, operand_of, packed, summed, view, Cell, GatherCase, ScatterCase};
use crate::operand::compiled;
use crate::random::Random;
use core::num::Wrapping;
use strided::strided_basic::{
    Element, Exec, GatherIndex, GatherPlan, RawStridedMut, RawStridedRef, Result, ScatterPlan,
    StridedError, ViewElement,
};
use strided::{GatherJob, ScatterJob, ViewLayout};

const CASES: usize = 3000;

fn read<'a, T: ViewElement>(view: &'a ViewLayout, data: &'a [T]) -> Result<RawStridedRef<'a, T>> {
    RawStridedRef::new(data, &view.dims, &view.strides, view.offset)
}

fn written<'a, T: ViewElement>(
    view: &'a ViewLayout,
    data: &'a mut [T],
) -> Result<RawStridedMut<'a, T>> {
    RawStridedMut::new(data, &view.dims, &view.strides, view.offset)
}

/// Whether every cell lies inside a slice, or, without cells, the offset.
fn is_inside(view: &ViewLayout, len: usize) -> bool {
    if view.dims.contains(&0) {
        return (0..=len as isize).contains(&view.offset);
    }
    let reaches = || {
        let axes = view.dims.iter().zip(&view.strides);
        axes.map(|(&dim, &stride)| stride * (dim as isize - 1))
    };
    let low: isize = reaches().map(|reach| reach.min(0)).sum();
    let high: isize = reaches().map(|reach| reach.max(0)).sum();
    view.offset + low >= 0 && view.offset + high < len as isize
}

/// A view of up to eight axes on a slice of some elements.
fn small_view(random: &mut Random) -> ViewLayout {
    let rank = random.below(9);
    let dims = random.list(rank, |random| match random.one_in(30) {
        true => 0,
        false => 1 + random.below(2),
    });
    let strides = random.list(rank, |random| random.between(-2, 2));
    view(&dims, &strides, random.between(-2, 12))
}

#[test]
fn a_view_is_tested_when_it_is_made() {
    let mut random = Random::new(91);
    let mut found = [0, 0];
    for _ in 0..CASES {
        let view = small_view(&mut random);
        let len = random.below(12);
        let inside = is_inside(&view, len);
        found[usize::from(inside)] += 1;
        made(&view, &mut vec![1i32; len], inside);
        made(&view, &mut vec![1i64; len], inside);
        made(&view, &mut vec![f64::NAN; len], inside);
        made(&view, &mut vec![Wrapping(1); len], inside);
    }
    assert!(found.iter().all(|&count| count > CASES / 10), "{found:?}");
}

fn made<T: ViewElement + PartialEq>(view: &ViewLayout, data: &mut [T], inside: bool) {
    let expected = match inside {
        true => Ok(()),
        false => Err(StridedError::BufferBounds),
    };
    assert_eq!(read(view, data).map(drop), expected, "{view:?}");
    assert_eq!(written(view, data).map(drop), expected, "{view:?}");
}

#[test]
fn parts_of_a_view() {
    let mut cells = [1, 2, 3, 4];
    let (dims, strides) = ([3], [-1]);
    let view = RawStridedRef::new(&cells, &dims, &strides, 3).unwrap();
    assert_eq!((view.data(), view.dims()), (&[1, 2, 3, 4][..], &[3][..]));
    assert_eq!((view.strides(), view.offset()), (&[-1][..], 3));
    let mut view = RawStridedMut::new(&mut cells, &dims, &strides, 2).unwrap();
    view.data_mut()[0] = 9;
    assert_eq!((view.data(), view.dims()), (&[9, 2, 3, 4][..], &[3][..]));
    assert_eq!((view.strides(), view.offset()), (&[-1][..], 2));
}

#[test]
fn refusals_of_a_view() {
    let refusal = |dims: &[usize], strides: &[isize], offset: isize| {
        let refusal = RawStridedRef::new(&[1.0, 2.0], dims, strides, offset).unwrap_err();
        assert!(!refusal.to_string().is_empty());
        refusal
    };
    assert_eq!(refusal(&[2], &[], 0), StridedError::StrideLengthMismatch);
    let (rank, limit) = (9, 8);
    let named = StridedError::RankTooLarge { rank, limit };
    assert_eq!(refusal(&[1; 9], &[1; 9], 0), named);
    let overflow = StridedError::OffsetOverflow;
    assert_eq!(refusal(&[usize::MAX, 2], &[0, 0], 0), overflow);
    assert_eq!(refusal(&[3], &[isize::MAX], 0), overflow);
    let outside = StridedError::BufferBounds;
    assert_eq!(refusal(&[2], &[1], isize::MAX), outside);
    assert_eq!(refusal(&[2], &[1], isize::MIN), outside);
    assert_eq!(refusal(&[], &[], 2), outside);
    assert_eq!(refusal(&[0], &[1], 3), outside);
}

/// An element with another name for the same number.
trait Named: Element {
    type Plain: Cell;
    fn of(plain: Self::Plain) -> Self;
    fn plain(self) -> Self::Plain;
}

macro_rules! named {
    ($name:ty, $plain:ty, $of:expr, $back:expr) => {
        impl Named for $name {
            type Plain = $plain;
            fn of(plain: $plain) -> Self {
                $of(plain)
            }
            fn plain(self) -> $plain {
                $back(self)
            }
        }
    };
}

named!(i32, i32, i32::from, i32::from);
named!(f64, f64, f64::from, f64::from);
named!(Wrapping<i32>, i32, Wrapping, |number: Self| number.0);

fn named_cells<T: Named>(plain: &[T::Plain]) -> Vec<T> {
    plain.iter().map(|&cell| T::of(cell)).collect()
}

fn plain_bits<T: Named>(cells: &[T]) -> Vec<u64> {
    cells.iter().map(|cell| cell.plain().bits()).collect()
}

fn plain_sums<T: Named>(cells: &[T]) -> Vec<u64> {
    cells.iter().map(|cell| cell.plain().summed()).collect()
}

/// Starts of another type; those that it does not hold are cut off, and
/// clamped all the same.
fn as_i32(starts: &[i64]) -> Vec<i32> {
    let least = |start: i64| start.clamp(i32::MIN.into(), i32::MAX.into());
    starts.iter().map(|&start| least(start) as i32).collect()
}

fn gather_plan(job: &GatherJob) -> GatherPlan {
    let plan = GatherPlan::compile(
        &job.operand.dims,
        &job.operand.strides,
        &job.index.dims,
        &job.index.strides,
        &job.dest.dims,
        &job.dest.strides,
        job.spec.clone(),
    )
    .expect("a valid gather");
    assert_eq!(plan.spec(), &job.spec);
    assert_eq!(plan.dest_dims(), job.dest.dims);
    plan
}

fn gathers<T: Named>(seed: u64) {
    let mut random = Random::new(seed);
    for case in 0..CASES {
        let call = GatherCase::random(&mut random, <T::Plain as strided::Element>::TYPE);
        let job = &call.job;
        let operand = cells::<T::Plain>(&mut random, call.operand_len);
        let mut expected = cells::<T::Plain>(&mut random, call.dest_len);
        let mut dest = named_cells::<T>(&expected);
        let done = job.compile().unwrap().execute(
            &mut job.dest.view_mut(&mut expected),
            &job.operand.view(&operand),
            &job.index.view(&call.starts),
        );
        assert!(done.is_ok(), "case {case}");

        let (operand, starts) = (named_cells::<T>(&operand), as_i32(&call.starts));
        let done = gather_plan(job).execute(
            &mut written(&job.dest, &mut dest).unwrap(),
            &read(&job.operand, &operand).unwrap(),
            &read(&job.index, &starts).unwrap(),
            Exec::serial(),
        );
        assert_eq!(done, Ok(()), "case {case}");
        assert_eq!(plain_bits(&dest), bits(&expected), "case {case}");
    }
}

fn scatter_plan(operand: &ViewLayout, job: &ScatterJob) -> ScatterPlan {
    ScatterPlan::compile(
        &operand.dims,
        &operand.strides,
        &job.index.dims,
        &job.index.strides,
        &job.updates.dims,
        &job.updates.strides,
        &job.dest.dims,
        &job.dest.strides,
        job.spec.clone(),
    )
    .expect("a valid scatter")
}

fn scatters<T: Named>(seed: u64) {
    let mut random = Random::new(seed);
    for case in 0..CASES {
        let call = ScatterCase::random(&mut random, <T::Plain as strided::Element>::TYPE);
        let job = &call.job;
        let (operand, operand_len) = operand_of(&mut random, &job.dest.dims);
        let operand_cells = cells::<T::Plain>(&mut random, operand_len);
        let updates = cells::<T::Plain>(&mut random, call.updates_len);
        let mut expected = cells::<T::Plain>(&mut random, call.dest_len);
        let mut dest = named_cells::<T>(&expected);
        let done = compiled(&operand, job).unwrap().execute(
            &mut job.dest.view_mut(&mut expected),
            &operand.view(&operand_cells),
            &job.index.view(&call.starts),
            &job.updates.view(&updates),
        );
        assert!(done.is_ok(), "case {case}");

        let (operand_cells, updates) =
            (named_cells::<T>(&operand_cells), named_cells::<T>(&updates));
        let done = scatter_plan(&operand, job).execute(
            &mut written(&job.dest, &mut dest).unwrap(),
            &read(&operand, &operand_cells).unwrap(),
            &read(&job.index, &call.starts).unwrap(),
            &read(&job.updates, &updates).unwrap(),
            Exec::serial(),
        );
        assert_eq!(done, Ok(()), "case {case}");
        assert_eq!(plain_sums(&dest), summed(&expected), "case {case}");
    }
}

#[test]
fn gathers_are_those_of_the_root() {
    gathers::<i32>(92);
    gathers::<f64>(93);
    gathers::<Wrapping<i32>>(94);
}

#[test]
fn scatters_are_those_of_the_root() {
    scatters::<i32>(95);
    scatters::<f64>(96);
    scatters::<Wrapping<i32>>(97);
}

/// Extents with one that is larger, or with one more.
fn other_dims(random: &mut Random, dims: &[usize]) -> Vec<usize> {
    let mut other = dims.to_vec();
    let place = random.below(dims.len() + 1);
    match other.get_mut(place) {
        Some(dim) => *dim += 1,
        None => other.push(1),
    }
    other
}

#[test]
fn the_shapes_of_a_gather() {
    let mut random = Random::new(98);
    for case in 0..CASES {
        let GatherJob {
            operand,
            index,
            dest,
            spec,
            ..
        } = GatherCase::random(&mut random, strided::ElementType::I32).job;
        let given = packed(&other_dims(&mut random, &dest.dims));
        let refusal = GatherPlan::compile(
            &operand.dims,
            &operand.strides,
            &index.dims,
            &index.strides,
            &given.dims,
            &given.strides,
            spec,
        )
        .unwrap_err();
        let named = StridedError::ShapeMismatch(given.dims, dest.dims);
        assert_eq!(refusal, named, "case {case}");
    }
}

fn refusal_of(operand: &ViewLayout, job: ScatterJob) -> StridedError {
    ScatterPlan::compile(
        &operand.dims,
        &operand.strides,
        &job.index.dims,
        &job.index.strides,
        &job.updates.dims,
        &job.updates.strides,
        &job.dest.dims,
        &job.dest.strides,
        job.spec,
    )
    .unwrap_err()
}

/// Of a destination that is not the operand's, also where the updates are
/// wrong too; and of updates that are not the index's.
#[test]
fn the_shapes_of_a_scatter() {
    let mut random = Random::new(99);
    let mut found = [0, 0];
    for case in 0..CASES {
        let mut job = ScatterCase::random(&mut random, strided::ElementType::I32).job;
        let (mut operand, _) = operand_of(&mut random, &job.dest.dims);
        let expected = job.updates.dims.clone();
        let windows = &job.spec.update_window_dims;
        let batch = (0..expected.len()).find(|axis| !windows.contains(axis));
        if let Some(axis) = batch {
            job.updates.dims[axis] += 1;
        }
        let of_dest = batch.is_none() || random.one_in(2);
        let named = match of_dest {
            true => {
                operand = packed(&other_dims(&mut random, &operand.dims));
                StridedError::ShapeMismatch(job.dest.dims.clone(), operand.dims.clone())
            }
            false => StridedError::ShapeMismatch(job.updates.dims.clone(), expected),
        };
        found[usize::from(of_dest)] += 1;
        assert_eq!(refusal_of(&operand, job), named, "case {case}");
    }
    assert!(found.iter().all(|&count| count > CASES / 10), "{found:?}");
}

#[test]
fn starts_of_both_types() {
    assert_eq!(
        [i32::MIN, -1, i32::MAX].map(GatherIndex::to_i64)[0],
        -1 << 31
    );
    assert_eq!(
        [i64::MIN, i64::MAX].map(GatherIndex::to_i64),
        [i64::MIN, i64::MAX]
    );
    let mut exec = Exec::serial();
    assert!(exec.reborrow().is_serial());
}

#[test]
fn errors_say_what_they_are() {
    let shapes = StridedError::ShapeMismatch(vec![2, 3], vec![2]);
    let words = "the shape [2, 3] is not the expected one, [2]";
    assert_eq!(shapes.to_string(), words);
    let axis = StridedError::InvalidAxis { axis: 7, rank: 2 };
    let words = "axis 7 is out of range for rank 2, repeated, or has a window it cannot have";
    assert_eq!(axis.to_string(), words);
    let counts = StridedError::RankMismatch(2, 1);
    assert_eq!(counts.to_string(), "two counts disagree: 2 against 1");
    let error: Box<dyn std::error::Error> = Box::new(StridedError::BufferBounds);
    assert_eq!(error.to_string(), "a view reaches outside its slice");
}
