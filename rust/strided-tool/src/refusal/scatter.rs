//! What a refusal says of a scatter. The library decides; here its a and b are found again in the job, in the order in which it asks.

use strided::{ScatterJob, StridedError, ViewLayout};

use super::counts::{batch, components, first, long_list, others, pick, Candidate};
use crate::job_text::list;
use crate::npy::shape_in_words;

pub fn explanation(
    job: &ScatterJob,
    chart: Option<&ViewLayout>,
    error: StridedError,
) -> Option<String> {
    let found = (error.a(), error.b());
    match error {
        StridedError::RankMismatch { .. } => counts(job, found),
        StridedError::InvalidAxis { .. } => axes(job, found),
        StridedError::ShapeMismatch { .. } => Some(match chart {
            Some(chart) if chart.dims != job.dest.dims => other_chart(job, chart),
            _ => shape(job),
        }),
        _ => None,
    }
}

fn counts(job: &ScatterJob, found: (u64, u64)) -> Option<String> {
    let spec = &job.spec;
    let (a, b) = found;
    let kept = others(job.dest.dims.len(), &spec.inserted_window_dims).len();
    let parts = components(&job.index.dims, spec.index_vector_dim);
    let window = spec.update_window_dims.len();
    let updates = job.updates.dims.len();
    let rest = updates.saturating_sub(window);
    let batch = batch(&job.index.dims, spec.index_vector_dim).len();
    let lists = [
        ("update_window_dims", spec.update_window_dims.as_slice()),
        ("inserted_window_dims", &spec.inserted_window_dims),
        (
            "scatter_dims_to_operand_dims",
            &spec.scatter_dims_to_operand_dims,
        ),
    ];
    long_list(found, &lists).or_else(|| {
        first([
            Candidate::counts(
                found,
                (parts, spec.scatter_dims_to_operand_dims.len()),
                format!("a start has {a} components, and scatter_dims_to_operand_dims has {b} entries"),
            ),
            Candidate::counts(
                found,
                (window, kept),
                format!("update_window_dims has {a} entries, and {b} axes of dest are not inserted"),
            ),
            Candidate::counts(
                found,
                (window, updates),
                format!("update_window_dims has {a} entries, and the updates have {b} axes"),
            ),
            Candidate::counts(
                found,
                (rest, batch),
                format!("the updates have {a} axes outside update_window_dims, and the index has {b} beside its vector axis"),
            ),
        ])
    })
}

fn axes(job: &ScatterJob, found: (u64, u64)) -> Option<String> {
    let spec = &job.spec;
    let dest = &job.dest.dims;
    let updates = job.updates.dims.len();
    let index_rank = job.index.dims.len();
    let in_dest = |name, axes| Candidate::list(found, name, axes, dest.len(), "dest");
    first([
        in_dest("inserted_window_dims", &spec.inserted_window_dims),
        in_dest(
            "scatter_dims_to_operand_dims",
            &spec.scatter_dims_to_operand_dims,
        ),
        Candidate::vector(found, spec.index_vector_dim, index_rank),
        Candidate::list(
            found,
            "update_window_dims",
            &spec.update_window_dims,
            updates,
            "the updates",
        ),
        Candidate::windows(found, &windows(job), dest, "dest"),
    ])
}

/// The window's extent along each axis of the destination: that of the updates, or 1 where the axis is inserted.
pub fn windows(job: &ScatterJob) -> Vec<usize> {
    let spec = &job.spec;
    let mut kept = pick(&job.updates.dims, &spec.update_window_dims).into_iter();
    (0..job.dest.dims.len())
        .map(|axis| match spec.inserted_window_dims.contains(&axis) {
            true => 1,
            false => kept.next().unwrap_or(0),
        })
        .collect()
}

fn shape(job: &ScatterJob) -> String {
    let spec = &job.spec;
    let rest = others(job.updates.dims.len(), &spec.update_window_dims);
    format!(
        "the updates have the extents {} outside update_window_dims, and the index has {} beside its vector axis; they must be equal",
        list(&pick(&job.updates.dims, &rest)),
        list(&batch(&job.index.dims, spec.index_vector_dim))
    )
}

fn other_chart(job: &ScatterJob, chart: &ViewLayout) -> String {
    format!(
        "the chart is {}, and the grid is {}; give a chart of the grid's shape, or leave out --grid for a grid of the chart's",
        shape_in_words(&chart.dims),
        shape_in_words(&job.dest.dims)
    )
}
