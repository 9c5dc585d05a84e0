//! The same calls by a stored job: the library reads the bytes, compiles and
//! runs. The Rust has no stored jobs; it compiles and executes as ever.

use crate::element::Element;
use crate::job::{Job, Layout};
use crate::original::{gather_spec, scatter_spec, Gather, Kind, Scatter};
use std::marker::PhantomData;
use strided::{ElementType, GatherJob, ScatterJob, ViewLayout};

/// The job's bytes for i32 and for f64.
pub struct Bytes([Vec<u8>; 2]);

impl Bytes {
    fn of<T: Element>(&self) -> &[u8] {
        &self.0[usize::from(T::NAME == "f64")]
    }
}

fn view(layout: &Layout) -> ViewLayout {
    ViewLayout {
        dims: layout.dims.clone(),
        strides: layout.steps.clone(),
        offset: 0,
    }
}

/// A kind of call that a job can store.
pub trait Storable: Kind {
    fn stored(job: &Job, element: ElementType) -> strided::Job;
    fn run<T: Element>(bytes: &[u8], job: &Job, source: &[T], dest: &mut [T]);
}

/// The same kind, called by its stored job.
pub struct Stored<K>(PhantomData<K>);

impl<K: Storable> Kind for Stored<K> {
    const ADD: bool = K::ADD;
    type Spec = K::Spec;
    type Plan = K::Plan;
    type Library = Bytes;

    fn spec(job: &Job) -> K::Spec {
        K::spec(job)
    }

    fn compile(job: &Job, spec: K::Spec) -> K::Plan {
        K::compile(job, spec)
    }

    fn execute<T: Element>(plan: &K::Plan, job: &Job, source: &[T], dest: &mut [T]) {
        K::execute(plan, job, source, dest);
    }

    fn prepare(job: &Job) -> Bytes {
        Bytes([ElementType::I32, ElementType::F64].map(|element| {
            K::stored(job, element)
                .to_bytes()
                .expect("the library refuses the job")
        }))
    }

    fn library<T: Element>(bytes: &Bytes, job: &Job, source: &[T], dest: &mut [T]) {
        K::run(bytes.of::<T>(), job, source, dest);
    }
}

impl Storable for Gather {
    fn stored(job: &Job, element: ElementType) -> strided::Job {
        strided::Job::Gather(GatherJob {
            element,
            operand: view(&job.grid),
            index: view(&job.index),
            dest: view(&job.windows),
            spec: gather_spec(job),
        })
    }

    fn run<T: Element>(bytes: &[u8], job: &Job, source: &[T], dest: &mut [T]) {
        strided::gather_job(bytes, T::lent(source), &job.starts, T::lent_mut(dest))
            .expect("the library refuses");
    }
}

impl Storable for Scatter {
    fn stored(job: &Job, element: ElementType) -> strided::Job {
        strided::Job::Scatter(ScatterJob {
            element,
            index: view(&job.index),
            updates: view(&job.windows),
            dest: view(&job.grid),
            spec: scatter_spec(job),
        })
    }

    fn run<T: Element>(bytes: &[u8], job: &Job, source: &[T], dest: &mut [T]) {
        strided::scatter_job(bytes, &job.starts, T::lent(source), T::lent_mut(dest))
            .expect("the library refuses");
    }
}
