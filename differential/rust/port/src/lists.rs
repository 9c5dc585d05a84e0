//! Calls by lists, and the answers that they give.

use crate::{called, called_on, number};
use lines::{Answer, Call, Data, GatherSpec, Number, Operand, Rule, ScatterSpec, Spec, View};
use strided::ffi;

/// A call whole, and the export of its compile's refusals with it: a panic
/// tells where the two differ.
pub fn call(call: &Call) -> Answer {
    let views = &call.job.views;
    let ((number, dest, slid), refusal) = match (&call.job.spec, &call.operand) {
        (Spec::Gather(spec), _) => (gather(call, spec), gather_refusal(views, spec)),
        (Spec::Scatter(spec), None) => (scatter(call, spec), scatter_refusal(views, spec)),
        (Spec::Scatter(spec), Some(operand)) => (
            scatter_operand(call, operand, spec),
            scatter_operand_refusal(&operand.view, views, spec),
        ),
    };
    let compiled = match number.n {
        1..=7 => number,
        _ => Number::DONE,
    };
    assert_eq!(refusal, compiled);
    Answer::Called(number, dest, slid)
}

/// Compile and call: the number, the destination as they leave it, and how
/// many windows slid.
fn gather(call: &Call, spec: &GatherSpec) -> (Number, Data, Option<u64>) {
    let [operand, index, dest] = &call.job.views;
    let [a, b, c] = [0, 1, 2].map(|place| call.call_layout(place));
    // The two functions differ in the element alone.
    macro_rules! by {
        ($function:ident) => {
            |source, written| {
                ffi::$function(
                    &operand.layout.extents,
                    &operand.layout.strides,
                    &index.layout.extents,
                    &index.layout.strides,
                    &dest.layout.extents,
                    &dest.layout.strides,
                    &spec.offset_dims,
                    &spec.collapsed_slice_dims,
                    &spec.start_index_map,
                    spec.index_vector_dim,
                    &spec.slice_sizes,
                    &a.extents,
                    &a.strides,
                    operand.offset,
                    &b.extents,
                    &b.strides,
                    index.offset,
                    &c.extents,
                    &c.strides,
                    dest.offset,
                    source,
                    &call.index,
                    written,
                )
            }
        };
    }
    called(
        call,
        by!(strided_raw_gather_i32),
        by!(strided_raw_gather_f64),
    )
}

/// Compile and call, as in a gather. The two functions differ in the element,
/// and in the limit that i32 has not.
fn scatter(call: &Call, spec: &ScatterSpec) -> (Number, Data, Option<u64>) {
    let [index, updates, dest] = &call.job.views;
    let [a, b, c] = [0, 1, 2].map(|place| call.call_layout(place));
    let (rule, limit) = rule(call.rule);
    macro_rules! by {
        ($function:ident($($first:ident),*)) => {
            |source, written| ffi::$function(
                $($first,)*
                &index.layout.extents,
                &index.layout.strides,
                &updates.layout.extents,
                &updates.layout.strides,
                &dest.layout.extents,
                &dest.layout.strides,
                &spec.update_window_dims,
                &spec.inserted_window_dims,
                &spec.scatter_dims_to_operand_dims,
                spec.index_vector_dim,
                &a.extents,
                &a.strides,
                index.offset,
                &b.extents,
                &b.strides,
                updates.offset,
                &c.extents,
                &c.strides,
                dest.offset,
                &call.index,
                source,
                written,
            )
        };
    }
    called(
        call,
        by!(strided_raw_scatter_i32(rule)),
        by!(strided_raw_scatter_f64(rule, limit)),
    )
}

/// Compile and call with an operand, as without one.
fn scatter_operand(
    call: &Call,
    operand: &Operand,
    spec: &ScatterSpec,
) -> (Number, Data, Option<u64>) {
    let [index, updates, dest] = &call.job.views;
    let (chart, own) = (&operand.view, operand.call_layout());
    let [a, b, c] = [0, 1, 2].map(|place| call.call_layout(place));
    let (rule, limit) = rule(call.rule);
    macro_rules! by {
        ($function:ident($($first:ident),*)) => {
            |copied, source, written| ffi::$function(
                $($first,)*
                &chart.layout.extents, &chart.layout.strides,
                &index.layout.extents, &index.layout.strides,
                &updates.layout.extents, &updates.layout.strides,
                &dest.layout.extents, &dest.layout.strides,
                &spec.update_window_dims,
                &spec.inserted_window_dims,
                &spec.scatter_dims_to_operand_dims,
                spec.index_vector_dim,
                &own.extents, &own.strides, chart.offset,
                &a.extents, &a.strides, index.offset,
                &b.extents, &b.strides, updates.offset,
                &c.extents, &c.strides, dest.offset,
                copied,
                &call.index,
                source,
                written,
            )
        };
    }
    called_on(
        call,
        operand,
        by!(strided_raw_scatter_operand_i32(rule)),
        by!(strided_raw_scatter_operand_f64(rule, limit)),
    )
}

/// The library's number for the rule, and the limit. Ceiling alone reads it;
/// what the others are given would show in nearly every sum.
fn rule(rule: Rule) -> (u64, f64) {
    match rule {
        Rule::Add => (1, f64::NEG_INFINITY),
        Rule::Lowest => (2, f64::NEG_INFINITY),
        Rule::Highest => (3, f64::NEG_INFINITY),
        Rule::Replace => (4, f64::NEG_INFINITY),
        Rule::Ceiling(limit) => (5, f64::from_bits(limit)),
    }
}

/// The first refusal of a gather's compile; 0 where there is none.
fn gather_refusal([operand, index, dest]: &[View; 3], spec: &GatherSpec) -> Number {
    number(ffi::strided_gather_refusal(
        &operand.layout.extents,
        &operand.layout.strides,
        &index.layout.extents,
        &index.layout.strides,
        &dest.layout.extents,
        &dest.layout.strides,
        &spec.offset_dims,
        &spec.collapsed_slice_dims,
        &spec.start_index_map,
        spec.index_vector_dim,
        &spec.slice_sizes,
    ))
}

/// The first refusal of a scatter's compile; 0 where there is none.
fn scatter_refusal([index, updates, dest]: &[View; 3], spec: &ScatterSpec) -> Number {
    number(ffi::strided_scatter_refusal(
        &index.layout.extents,
        &index.layout.strides,
        &updates.layout.extents,
        &updates.layout.strides,
        &dest.layout.extents,
        &dest.layout.strides,
        &spec.update_window_dims,
        &spec.inserted_window_dims,
        &spec.scatter_dims_to_operand_dims,
        spec.index_vector_dim,
    ))
}

/// The first refusal of the compile of a scatter with an operand; 0 where
/// there is none.
fn scatter_operand_refusal(
    operand: &View,
    [index, updates, dest]: &[View; 3],
    spec: &ScatterSpec,
) -> Number {
    number(ffi::strided_scatter_operand_refusal(
        &operand.layout.extents,
        &operand.layout.strides,
        &index.layout.extents,
        &index.layout.strides,
        &updates.layout.extents,
        &updates.layout.strides,
        &dest.layout.extents,
        &dest.layout.strides,
        &spec.update_window_dims,
        &spec.inserted_window_dims,
        &spec.scatter_dims_to_operand_dims,
        spec.index_vector_dim,
    ))
}
