//! A case answered by the Rust.

use crate::added;
use crate::gather_plan::{GatherPlan, GatherSpec, ScatterPlan, ScatterSpec};
use crate::rules::{Ceiling, Highest, Lowest, Replace};
use crate::stubs::{Exec, RawStridedMut, RawStridedRef, StridedError};
use lines::{Answer, Call, Case, Data, Layout, Number, Rule, Spec, View, MOST_UPDATES};
use std::num::Wrapping;
use std::ops::Add;

pub fn answer(case: &Case) -> Answer {
    match case {
        Case::Call(call) => called(call),
        // The Rust has no stored job.
        Case::Read(_) | Case::Write { .. } => Answer::None,
    }
}

fn called(call: &Call) -> Answer {
    if let Some(number) = added::before_compile(call) {
        return Answer::Called(number, call.dest.clone(), None);
    }
    let operand = call.operand.as_ref().map(|operand| &operand.data);
    match (operand, &call.source, &call.dest) {
        (None, Data::I32(source), Data::I32(dest)) => by_i32(call, (None, source, dest)),
        (None, Data::F64(source), Data::F64(dest)) => by_f64(call, (None, source, dest)),
        (Some(Data::I32(operand)), Data::I32(source), Data::I32(dest)) => {
            by_i32(call, (Some(operand), source, dest))
        }
        (Some(Data::F64(operand)), Data::F64(source), Data::F64(dest)) => {
            by_f64(call, (Some(operand), source, dest))
        }
        _ => Answer::Malformed,
    }
}

/// The slices of a scatter's operand, if it has one, of the gather's operand
/// or the scatter's updates, and of the destination.
type Slices<'a, E> = (Option<&'a [E]>, &'a [E], &'a [E]);

/// The Rust on elements whose `+` is the rule. A gather's `+` is not used.
fn by_i32(call: &Call, slices: Slices<i32>) -> Answer {
    match call.rule {
        Rule::Add => run(call, slices, Wrapping, |x| x.0, Data::I32),
        Rule::Lowest => run(call, slices, Lowest, |x| x.0, Data::I32),
        Rule::Highest => run(call, slices, Highest, |x| x.0, Data::I32),
        Rule::Replace => run(call, slices, Replace, |x| x.0, Data::I32),
        Rule::Ceiling(_) => Answer::Malformed,
    }
}

/// The same for f64, which a case has as bits.
fn by_f64(call: &Call, slices: Slices<u64>) -> Answer {
    let float = f64::from_bits;
    match call.rule {
        Rule::Add => run(call, slices, float, |x| x.to_bits(), Data::F64),
        Rule::Lowest => {
            let element = |x| Lowest(float(x));
            run(call, slices, element, |x| x.0.to_bits(), Data::F64)
        }
        Rule::Highest => {
            let element = |x| Highest(float(x));
            run(call, slices, element, |x| x.0.to_bits(), Data::F64)
        }
        Rule::Replace => {
            let element = |x| Replace(float(x));
            run(call, slices, element, |x| x.0.to_bits(), Data::F64)
        }
        Rule::Ceiling(limit) => {
            let limit = float(limit);
            let element = |x| Ceiling {
                value: float(x),
                limit,
            };
            run(call, slices, element, |x| x.value.to_bits(), Data::F64)
        }
    }
}

/// Compiles and executes on elements made of the case's, and gives the number
/// with the whole destination. The Rust does not count windows that slid.
fn run<E: Copy, T>(
    call: &Call,
    (operand, source, dest): Slices<E>,
    element: impl Fn(E) -> T,
    back: impl Fn(T) -> E,
    data: fn(Vec<E>) -> Data,
) -> Answer
where
    T: Copy + Add<Output = T> + Send + Sync,
{
    let elements = |slice: &[E]| slice.iter().map(|&x| element(x)).collect::<Vec<T>>();
    let (source, mut dest) = (elements(source), elements(dest));
    let done = match &call.job.spec {
        Spec::Gather(_) => gather(call, &source, &mut dest),
        Spec::Scatter(_) => {
            let operand = operand.map(elements).unwrap_or_else(|| dest.clone());
            scatter(call, &operand, &source, &mut dest)
        }
    };
    let dest = data(dest.into_iter().map(back).collect());
    match done {
        Ok(()) => Answer::Called(Number::DONE, dest, None),
        Err(Stop::Refused(number)) => Answer::Called(number, dest, None),
        Err(Stop::TooMany) => Answer::TooMany,
    }
}

enum Stop {
    Refused(Number),
    TooMany,
}

impl From<StridedError> for Stop {
    fn from(error: StridedError) -> Self {
        let count = |n: usize| n as u64;
        Stop::Refused(match error {
            StridedError::StrideLengthMismatch => Number::new(1, 0, 0),
            StridedError::OffsetOverflow => Number::new(3, 0, 0),
            StridedError::NonInjectiveOutputLayout => Number::new(4, 0, 0),
            StridedError::RankMismatch(a, b) => Number::new(5, count(a), count(b)),
            StridedError::InvalidAxis { axis, rank } => Number::new(6, count(axis), count(rank)),
            StridedError::ShapeMismatch(given, expected) => {
                Number::new(7, count(given.len()), count(expected.len()))
            }
            StridedError::PlanLayoutMismatch => Number::new(8, 0, 0),
        })
    }
}

/// A layout in the types of the Rust.
struct Native {
    dims: Vec<usize>,
    strides: Vec<isize>,
}

impl Native {
    fn of(layout: &Layout) -> Self {
        Native {
            dims: usizes(&layout.extents),
            strides: layout.strides.iter().map(|&s| s as isize).collect(),
        }
    }

    fn read<'a, T>(&'a self, view: &View, data: &'a [T]) -> RawStridedRef<'a, T> {
        RawStridedRef {
            data,
            dims: &self.dims,
            strides: &self.strides,
            offset: view.offset as isize,
        }
    }

    fn write<'a, T>(&'a self, view: &View, data: &'a mut [T]) -> RawStridedMut<'a, T> {
        RawStridedMut {
            data,
            dims: &self.dims,
            strides: &self.strides,
            offset: view.offset as isize,
        }
    }
}

fn usizes(list: &[u64]) -> Vec<usize> {
    list.iter().map(|&n| n as usize).collect()
}

/// The layouts of the plan, and those of the call.
fn layouts(call: &Call) -> ([Native; 3], [Native; 3]) {
    let plan = [0, 1, 2].map(|place| Native::of(&call.job.views[place].layout));
    let called = [0, 1, 2].map(|place| Native::of(call.call_layout(place)));
    (plan, called)
}

/// Where the call's layouts are the plan's, the test of 9, so that the Rust
/// never runs outside a slice. Where they are not, its own check gives 8
/// before anything is read. `updates` is how many a scatter would add.
fn may_run(call: &Call, updates: u64) -> Result<(), Stop> {
    let same = (0..3).all(|place| *call.call_layout(place) == call.job.views[place].layout);
    let operand = call.operand.as_ref();
    let same = same && operand.is_none_or(|o| *o.call_layout() == o.view.layout);
    if !same {
        return Ok(());
    }
    if let Some(number) = added::out_of_bounds(call) {
        return Err(Stop::Refused(number));
    }
    if updates > MOST_UPDATES {
        return Err(Stop::TooMany);
    }
    Ok(())
}

/// An index view without cells may stand where batch coordinates exist (no
/// components). The Rust steps its index offset all the same and may wrap; in
/// a release build that is an unused number, and nothing is read through it.
fn gather<T>(call: &Call, operand: &[T], dest: &mut [T]) -> Result<(), Stop>
where
    T: Copy + Send + Sync,
{
    let Spec::Gather(spec) = &call.job.spec else {
        unreachable!()
    };
    let (plan, called) = layouts(call);
    let compiled = GatherPlan::compile(
        &plan[0].dims,
        &plan[0].strides,
        &plan[1].dims,
        &plan[1].strides,
        &plan[2].dims,
        &plan[2].strides,
        GatherSpec {
            offset_dims: usizes(&spec.offset_dims),
            collapsed_slice_dims: usizes(&spec.collapsed_slice_dims),
            start_index_map: usizes(&spec.start_index_map),
            index_vector_dim: spec.index_vector_dim as usize,
            slice_sizes: usizes(&spec.slice_sizes),
        },
    )?;
    may_run(call, 0)?;
    let [operand_view, index_view, dest_view] = &call.job.views;
    compiled.execute(
        &mut called[2].write(dest_view, dest),
        &called[0].read(operand_view, operand),
        &called[1].read(index_view, &call.index),
        Exec::serial(),
    )?;
    Ok(())
}

/// The view of a scatter's operand, its layout in the plan and in the call. An
/// update-only call has the destination's, and a copy of its elements, so that
/// only the update phase shows.
fn operand_view(call: &Call) -> (&View, Native, Native) {
    let (view, called) = match &call.operand {
        Some(operand) => (&operand.view, operand.call_layout()),
        None => (call.job.dest(), &call.job.dest().layout),
    };
    (view, Native::of(&view.layout), Native::of(called))
}

fn scatter<T>(call: &Call, operand: &[T], updates: &[T], dest: &mut [T]) -> Result<(), Stop>
where
    T: Copy + Add<Output = T> + Send + Sync,
{
    let Spec::Scatter(spec) = &call.job.spec else {
        unreachable!()
    };
    let (plan, called) = layouts(call);
    let (operand_view, operand_plan, operand_called) = operand_view(call);
    let compiled = ScatterPlan::compile(
        &operand_plan.dims,
        &operand_plan.strides,
        &plan[0].dims,
        &plan[0].strides,
        &plan[1].dims,
        &plan[1].strides,
        &plan[2].dims,
        &plan[2].strides,
        ScatterSpec {
            update_window_dims: usizes(&spec.update_window_dims),
            inserted_window_dims: usizes(&spec.inserted_window_dims),
            scatter_dims_to_operand_dims: usizes(&spec.scatter_dims_to_operand_dims),
            index_vector_dim: spec.index_vector_dim as usize,
        },
    )?;
    let [index_view, update_view, dest_view] = &call.job.views;
    // Compile has checked that the product fits.
    may_run(call, update_view.layout.extents.iter().product())?;
    compiled.execute(
        &mut called[2].write(dest_view, dest),
        &operand_called.read(operand_view, operand),
        &called[0].read(index_view, &call.index),
        &called[1].read(update_view, updates),
        Exec::serial(),
    )?;
    Ok(())
}
