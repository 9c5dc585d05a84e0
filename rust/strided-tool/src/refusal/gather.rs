//! What a refusal says of a gather. The library decides; here its a and b are found again in the job, in the order in which it asks.

use strided::{GatherJob, StridedError};

use super::counts::{batch, components, first, long_list, others, pick, Candidate};
use crate::job_text::list;

pub fn explanation(job: &GatherJob, error: StridedError) -> Option<String> {
    let found = (error.a(), error.b());
    match error {
        StridedError::RankMismatch { .. } => counts(job, found),
        StridedError::InvalidAxis { .. } => axes(job, found),
        StridedError::ShapeMismatch { .. } => Some(shape(job)),
        _ => None,
    }
}

fn counts(job: &GatherJob, found: (u64, u64)) -> Option<String> {
    let spec = &job.spec;
    let (a, b) = found;
    let rank = job.operand.dims.len();
    let kept = others(rank, &spec.collapsed_slice_dims).len();
    let parts = components(&job.index.dims, spec.index_vector_dim);
    let lists = [
        ("offset_dims", spec.offset_dims.as_slice()),
        ("collapsed_slice_dims", &spec.collapsed_slice_dims),
        ("start_index_map", &spec.start_index_map),
        ("slice_sizes", &spec.slice_sizes),
    ];
    long_list(found, &lists).or_else(|| {
        first([
            Candidate::counts(
                found,
                (spec.slice_sizes.len(), rank),
                format!("slice_sizes has {a} entries, and the operand has {b} axes"),
            ),
            Candidate::counts(
                found,
                (parts, spec.start_index_map.len()),
                format!("a start has {a} components, and start_index_map has {b} entries"),
            ),
            Candidate::counts(
                found,
                (spec.offset_dims.len(), kept),
                format!(
                    "offset_dims has {a} entries, and {b} axes of the operand are not collapsed"
                ),
            ),
        ])
    })
}

fn axes(job: &GatherJob, found: (u64, u64)) -> Option<String> {
    let spec = &job.spec;
    let operand = &job.operand.dims;
    let rank = operand.len();
    let index_rank = job.index.dims.len();
    let result = batch(&job.index.dims, spec.index_vector_dim)
        .len()
        .saturating_add(spec.offset_dims.len());
    let in_operand = |name, axes| Candidate::list(found, name, axes, rank, "the operand");
    first([
        in_operand("collapsed_slice_dims", &spec.collapsed_slice_dims),
        in_operand("start_index_map", &spec.start_index_map),
        Candidate::vector(found, spec.index_vector_dim, index_rank),
        Candidate::windows(found, &spec.slice_sizes, operand, "the operand"),
        Candidate::collapsed(found, &spec.collapsed_slice_dims, &spec.slice_sizes, rank),
        Candidate::list(
            found,
            "offset_dims",
            &spec.offset_dims,
            result,
            "the result",
        ),
    ])
}

fn shape(job: &GatherJob) -> String {
    let spec = &job.spec;
    let kept = others(job.operand.dims.len(), &spec.collapsed_slice_dims);
    format!(
        "dest has extents {}; on the axes {} it must have the window's {}, and on the others, in order, the batch's {}",
        list(&job.dest.dims),
        list(&spec.offset_dims),
        list(&pick(&spec.slice_sizes, &kept)),
        list(&batch(&job.index.dims, spec.index_vector_dim))
    )
}
