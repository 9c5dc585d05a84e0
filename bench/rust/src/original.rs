//! Gather and scatter by the Rust, in the two steps that it has, and by the
//! library in one: its crate's plan keeps layouts and lists alone, and each
//! call compiles them.

use crate::element::Element;
use crate::gather_plan::{GatherPlan, GatherSpec, ScatterPlan, ScatterSpec};
use crate::job::{usizes, Job, Layout};
use crate::stubs::{Exec, RawStridedMut, RawStridedRef};
use strided::{StridedMut, StridedRef};

pub trait Kind {
    /// Whether the windows are put on the grid, by the elements' `+`.
    const ADD: bool;
    type Spec: Clone;
    type Plan;
    type Library;
    /// How many elements the source has.
    fn room(job: &Job) -> usize {
        match Self::ADD {
            true => job.windows.room(),
            false => job.grid.room(),
        }
    }
    fn spec(job: &Job) -> Self::Spec;
    /// The Rust takes the lists by value, so each compile needs its own.
    fn compile(job: &Job, spec: Self::Spec) -> Self::Plan;
    /// Never inlined: one machine code for both columns of the Rust.
    fn execute<T: Element>(plan: &Self::Plan, job: &Job, source: &[T], dest: &mut [T]);
    fn prepare(job: &Job) -> Self::Library;
    fn library<T: Element>(plan: &Self::Library, job: &Job, source: &[T], dest: &mut [T]);
}

fn lend<'a, T>(layout: &'a Layout, data: &'a [T]) -> StridedRef<'a, T> {
    StridedRef::new(data, &layout.dims, &layout.steps, 0)
}

fn lend_mut<'a, T>(layout: &'a Layout, data: &'a mut [T]) -> StridedMut<'a, T> {
    StridedMut::new(data, &layout.dims, &layout.steps, 0)
}

fn read<'a, T>(layout: &'a Layout, data: &'a [T]) -> RawStridedRef<'a, T> {
    RawStridedRef {
        data,
        dims: &layout.dims,
        strides: &layout.steps,
        offset: 0,
    }
}

fn write<'a, T>(layout: &'a Layout, data: &'a mut [T]) -> RawStridedMut<'a, T> {
    RawStridedMut {
        data,
        dims: &layout.dims,
        strides: &layout.steps,
        offset: 0,
    }
}

/// The layout of the operand.
fn operand(job: &Job) -> &Layout {
    job.operand.as_ref().expect("the job has an operand")
}

/// The lists of the job, as the library's crate takes them.
pub fn gather_spec(job: &Job) -> strided::GatherSpec {
    strided::GatherSpec {
        offset_dims: usizes(&job.window_dims),
        collapsed_slice_dims: usizes(&job.dropped_dims),
        start_index_map: usizes(&job.map),
        index_vector_dim: job.index_vector_dim as usize,
        slice_sizes: usizes(&job.slice_sizes),
    }
}

/// The lists of the job, as the library's crate takes them.
pub fn scatter_spec(job: &Job) -> strided::ScatterSpec {
    strided::ScatterSpec {
        update_window_dims: usizes(&job.window_dims),
        inserted_window_dims: usizes(&job.dropped_dims),
        scatter_dims_to_operand_dims: usizes(&job.map),
        index_vector_dim: job.index_vector_dim as usize,
    }
}

pub struct Gather;

impl Kind for Gather {
    const ADD: bool = false;
    type Spec = GatherSpec;
    type Plan = GatherPlan;
    type Library = strided::GatherPlan;

    fn spec(job: &Job) -> GatherSpec {
        GatherSpec {
            offset_dims: usizes(&job.window_dims),
            collapsed_slice_dims: usizes(&job.dropped_dims),
            start_index_map: usizes(&job.map),
            index_vector_dim: job.index_vector_dim as usize,
            slice_sizes: usizes(&job.slice_sizes),
        }
    }

    #[inline(never)]
    fn compile(job: &Job, spec: GatherSpec) -> GatherPlan {
        GatherPlan::compile(
            &job.grid.dims,
            &job.grid.steps,
            &job.index.dims,
            &job.index.steps,
            &job.windows.dims,
            &job.windows.steps,
            spec,
        )
        .expect("the Rust refuses")
    }

    #[inline(never)]
    fn execute<T: Element>(plan: &GatherPlan, job: &Job, source: &[T], dest: &mut [T]) {
        plan.execute(
            &mut write(&job.windows, dest),
            &read(&job.grid, source),
            &read(&job.index, &job.starts),
            Exec::serial(),
        )
        .expect("the Rust refuses");
    }

    fn prepare(job: &Job) -> strided::GatherPlan {
        strided::GatherPlan::compile(
            &job.grid.dims,
            &job.grid.steps,
            &job.index.dims,
            &job.index.steps,
            &job.windows.dims,
            &job.windows.steps,
            gather_spec(job),
        )
        .expect("the library refuses")
    }

    fn library<T: Element>(plan: &strided::GatherPlan, job: &Job, source: &[T], dest: &mut [T]) {
        plan.execute(
            &mut lend_mut(&job.windows, T::lent_mut(dest)),
            &lend(&job.grid, T::lent(source)),
            &lend(&job.index, &job.starts),
        )
        .expect("the library refuses");
    }
}

pub struct Scatter;

impl Kind for Scatter {
    const ADD: bool = true;
    type Spec = ScatterSpec;
    type Plan = ScatterPlan;
    type Library = strided::ScatterPlan;

    fn spec(job: &Job) -> ScatterSpec {
        ScatterSpec {
            update_window_dims: usizes(&job.window_dims),
            inserted_window_dims: usizes(&job.dropped_dims),
            scatter_dims_to_operand_dims: usizes(&job.map),
            index_vector_dim: job.index_vector_dim as usize,
        }
    }

    #[inline(never)]
    fn compile(job: &Job, spec: ScatterSpec) -> ScatterPlan {
        ScatterPlan::compile(
            &job.grid.dims,
            &job.grid.steps,
            &job.index.dims,
            &job.index.steps,
            &job.windows.dims,
            &job.windows.steps,
            &job.grid.dims,
            &job.grid.steps,
            spec,
        )
        .expect("the Rust refuses")
    }

    /// The operand's elements are never read: its copy does nothing here.
    #[inline(never)]
    fn execute<T: Element>(plan: &ScatterPlan, job: &Job, source: &[T], dest: &mut [T]) {
        plan.execute(
            &mut write(&job.grid, dest),
            &read(&job.grid, &[]),
            &read(&job.index, &job.starts),
            &read(&job.windows, source),
            Exec::serial(),
        )
        .expect("the Rust refuses");
    }

    fn prepare(job: &Job) -> strided::ScatterPlan {
        strided::ScatterPlan::compile(
            &job.index.dims,
            &job.index.steps,
            &job.windows.dims,
            &job.windows.steps,
            &job.grid.dims,
            &job.grid.steps,
            scatter_spec(job),
        )
        .expect("the library refuses")
    }

    fn library<T: Element>(plan: &strided::ScatterPlan, job: &Job, source: &[T], dest: &mut [T]) {
        plan.execute_updates(
            &mut lend_mut(&job.grid, T::lent_mut(dest)),
            &lend(&job.index, &job.starts),
            &lend(&job.windows, T::lent(source)),
            T::RULE,
        )
        .expect("the library refuses");
    }
}

/// A scatter with an operand, whose elements stand behind the updates in the
/// source.
pub struct OperandScatter;

impl Kind for OperandScatter {
    const ADD: bool = true;
    type Spec = ScatterSpec;
    type Plan = ScatterPlan;
    type Library = strided::OperandScatterPlan;

    fn room(job: &Job) -> usize {
        job.windows.room() + operand(job).room()
    }

    fn spec(job: &Job) -> ScatterSpec {
        Scatter::spec(job)
    }

    #[inline(never)]
    fn compile(job: &Job, spec: ScatterSpec) -> ScatterPlan {
        ScatterPlan::compile(
            &operand(job).dims,
            &operand(job).steps,
            &job.index.dims,
            &job.index.steps,
            &job.windows.dims,
            &job.windows.steps,
            &job.grid.dims,
            &job.grid.steps,
            spec,
        )
        .expect("the Rust refuses")
    }

    #[inline(never)]
    fn execute<T: Element>(plan: &ScatterPlan, job: &Job, source: &[T], dest: &mut [T]) {
        let (updates, elements) = source.split_at(job.windows.room());
        plan.execute(
            &mut write(&job.grid, dest),
            &read(operand(job), elements),
            &read(&job.index, &job.starts),
            &read(&job.windows, updates),
            Exec::serial(),
        )
        .expect("the Rust refuses");
    }

    fn prepare(job: &Job) -> strided::OperandScatterPlan {
        strided::OperandScatterPlan::compile(
            &operand(job).dims,
            &operand(job).steps,
            &job.index.dims,
            &job.index.steps,
            &job.windows.dims,
            &job.windows.steps,
            &job.grid.dims,
            &job.grid.steps,
            scatter_spec(job),
        )
        .expect("the library refuses")
    }

    fn library<T: Element>(
        plan: &strided::OperandScatterPlan,
        job: &Job,
        source: &[T],
        dest: &mut [T],
    ) {
        let (updates, elements) = T::lent(source).split_at(job.windows.room());
        plan.execute_by(
            &mut lend_mut(&job.grid, T::lent_mut(dest)),
            &lend(operand(job), elements),
            &lend(&job.index, &job.starts),
            &lend(&job.windows, updates),
            T::RULE,
        )
        .expect("the library refuses");
    }
}
