//! From a job to text.

use std::fmt::{self, Display, Write};

use strided::{ElementType, GatherJob, Job, ScatterJob, ViewLayout};

/// The job in the form that `parse` reads, with all strides and offsets.
pub fn print(job: &Job) -> String {
    let mut text = String::new();
    let written = match job {
        Job::Gather(job) => gather(&mut text, job),
        Job::Scatter(job) => scatter(&mut text, job),
    };
    // A string takes everything that is written to it.
    debug_assert!(written.is_ok());
    text
}

/// A list as it is printed, `[0, 1]`.
pub fn list<T: Display>(entries: &[T]) -> String {
    let entries: Vec<String> = entries.iter().map(T::to_string).collect();
    format!("[{}]", entries.join(", "))
}

fn gather(out: &mut String, job: &GatherJob) -> fmt::Result {
    head(out, "gather", job.element)?;
    view(out, "operand", &job.operand)?;
    view(out, "index", &job.index)?;
    view(out, "dest", &job.dest)?;
    let spec = &job.spec;
    writeln!(out, "offset_dims = {}", list(&spec.offset_dims))?;
    writeln!(
        out,
        "collapsed_slice_dims = {}",
        list(&spec.collapsed_slice_dims)
    )?;
    writeln!(out, "start_index_map = {}", list(&spec.start_index_map))?;
    writeln!(out, "index_vector_dim = {}", spec.index_vector_dim)?;
    writeln!(out, "slice_sizes = {}", list(&spec.slice_sizes))
}

fn scatter(out: &mut String, job: &ScatterJob) -> fmt::Result {
    head(out, "scatter", job.element)?;
    view(out, "index", &job.index)?;
    view(out, "updates", &job.updates)?;
    view(out, "dest", &job.dest)?;
    let spec = &job.spec;
    writeln!(
        out,
        "update_window_dims = {}",
        list(&spec.update_window_dims)
    )?;
    writeln!(
        out,
        "inserted_window_dims = {}",
        list(&spec.inserted_window_dims)
    )?;
    writeln!(
        out,
        "scatter_dims_to_operand_dims = {}",
        list(&spec.scatter_dims_to_operand_dims)
    )?;
    writeln!(out, "index_vector_dim = {}", spec.index_vector_dim)
}

fn head(out: &mut String, kind: &str, element: ElementType) -> fmt::Result {
    let element = match element {
        ElementType::I32 => "i32",
        ElementType::F64 => "f64",
    };
    writeln!(out, "kind = {kind}\nelement = {element}\n")
}

fn view(out: &mut String, name: &str, layout: &ViewLayout) -> fmt::Result {
    writeln!(out, "{name}.extents = {}", list(&layout.dims))?;
    writeln!(out, "{name}.strides = {}", list(&layout.strides))?;
    writeln!(out, "{name}.offset = {}\n", layout.offset)
}
