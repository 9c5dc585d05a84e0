//! Stored jobs: the reader, the writers, and calls whose job goes through its
//! stored bytes.

use crate::{called, number};
use lines::{Answer, Call, Data, Element, Job, Number, Rule, Spec};
use strided::ffi;

/// More bytes than any job takes.
const NEVER_NEEDED: u64 = 4096;

/// The reader. The library hands no job back, so that the one printed is read
/// here, by the model, once the library has accepted the bytes; a panic tells
/// if the library's writer does not give the bytes again.
pub fn read(bytes: &[u8]) -> Answer {
    let number = number(ffi::strided_read_job(bytes));
    if number.n != 0 {
        return Answer::Read(number, None);
    }
    let Answer::Read(_, Some(job)) = model::read(bytes) else {
        panic!("the library accepts what the model refuses");
    };
    let mut again = vec![0; bytes.len()];
    assert_eq!(written(&job, &mut again), number);
    assert_eq!(again, bytes);
    Answer::Read(number, Some(job))
}

/// The writer, into `room` bytes, or as many as no job needs. A panic tells if
/// a byte past the job changes, or any byte where the job is refused.
pub fn write(job: &Job, room: u64) -> Answer {
    const UNTOUCHED: u8 = 0xa5;
    let mut out = vec![UNTOUCHED; room.min(NEVER_NEEDED) as usize];
    let number = written(job, &mut out);
    let len = match number.n {
        0 => stored_len(&out),
        _ => 0,
    };
    assert!(out[len..].iter().all(|&byte| byte == UNTOUCHED));
    out.truncate(len);
    Answer::Written(number, (number.n == 0).then_some(out))
}

/// A call by its stored job: written, then read, compiled and called. Not for
/// a job that has no stored form, nor where a view of the call carries another
/// layout than the job's, nor for a rule other than Add or an operand: stored
/// jobs mean updates alone, which are added.
pub fn call(call: &Call) -> Option<Answer> {
    let update_only = call.rule == Rule::Add && call.operand.is_none();
    if call.layouts.iter().any(Option::is_some) || !update_only {
        return None;
    }
    let mut bytes = vec![0; NEVER_NEEDED as usize];
    if written(&call.job, &mut bytes).n != 0 {
        return None;
    }
    let (number, dest, slid) = run(&bytes[..stored_len(&bytes)], call);
    Some(Answer::Called(number, dest, slid))
}

/// The length of the job that has been written to the front of `bytes`.
fn stored_len(bytes: &[u8]) -> usize {
    4 + u32::from_be_bytes(bytes[..4].try_into().unwrap()) as usize
}

/// The writer's number; the bytes go to the front of `out`.
fn written(job: &Job, out: &mut [u8]) -> Number {
    let element = match job.element {
        Element::I32 => 1,
        Element::F64 => 2,
    };
    let [first, second, third] = &job.views;
    number(match &job.spec {
        Spec::Gather(spec) => ffi::strided_write_gather_job(
            element,
            &first.layout.extents,
            &first.layout.strides,
            first.offset,
            &second.layout.extents,
            &second.layout.strides,
            second.offset,
            &third.layout.extents,
            &third.layout.strides,
            third.offset,
            &spec.offset_dims,
            &spec.collapsed_slice_dims,
            &spec.start_index_map,
            spec.index_vector_dim,
            &spec.slice_sizes,
            out,
        ),
        Spec::Scatter(spec) => ffi::strided_write_scatter_job(
            element,
            &first.layout.extents,
            &first.layout.strides,
            first.offset,
            &second.layout.extents,
            &second.layout.strides,
            second.offset,
            &third.layout.extents,
            &third.layout.strides,
            third.offset,
            &spec.update_window_dims,
            &spec.inserted_window_dims,
            &spec.scatter_dims_to_operand_dims,
            spec.index_vector_dim,
            out,
        ),
    })
}

/// The number, the destination as the run leaves it, and how many windows slid.
fn run(job: &[u8], call: &Call) -> (Number, Data, Option<u64>) {
    let starts = &call.index;
    match call.job.spec {
        Spec::Gather(_) => called(
            call,
            |source, dest| ffi::strided_gather_i32(job, source, starts, dest),
            |source, dest| ffi::strided_gather_f64(job, source, starts, dest),
        ),
        Spec::Scatter(_) => called(
            call,
            |source, dest| ffi::strided_scatter_i32(job, starts, source, dest),
            |source, dest| ffi::strided_scatter_f64(job, starts, source, dest),
        ),
    }
}
