//! The port, through its static library.

#![forbid(unsafe_code)]

mod lists;
mod stored;

use lines::{Answer, Call, Case, Data, Number, Operand};
use model::Model;
use strided::ffi;

fn main() -> std::io::Result<()> {
    lines::drive(answer)
}

fn answer(case: &Case) -> Answer {
    match case {
        Case::Call(call) if too_many(call) => Answer::TooMany,
        Case::Call(call) => by_lists_and_job(call),
        Case::Read(bytes) => stored::read(bytes),
        Case::Write { job, room } => stored::write(job, *room),
    }
}

/// The answer of a call by lists and, where a job can be stored for it, of the
/// same call by that job: a panic tells where the two differ.
fn by_lists_and_job(call: &Call) -> Answer {
    let answer = lists::call(call);
    if let Some(by_job) = stored::call(call) {
        assert_eq!(answer, by_job);
    }
    answer
}

/// The library would add for years: the model tells which calls those are.
fn too_many(call: &Call) -> bool {
    let model = Model::default();
    model.runs_too_long(call) && model.judge(call).answer == Answer::TooMany
}

/// The number that a function gives which moves no window: a panic tells if it
/// counts some all the same.
fn number([n, a, b, slid]: ffi::Answer) -> Number {
    assert_eq!(slid, 0);
    Number::new(n, a, b)
}

/// The number of a call, and how many windows slid where it was done.
fn number_and_slid(answer: ffi::Answer) -> (Number, Option<u64>) {
    match answer {
        [0, a, b, slid] => (Number::new(0, a, b), Some(slid)),
        refused => (number(refused), None),
    }
}

fn floats(bits: &[u64]) -> Vec<f64> {
    bits.iter().map(|&x| f64::from_bits(x)).collect()
}

/// What the function for the call's elements answers, given the operand's
/// slice as well.
fn called_on(
    call: &Call,
    operand: &Operand,
    by_i32: impl FnOnce(&[i32], &[i32], &mut [i32]) -> ffi::Answer,
    by_f64: impl FnOnce(&[f64], &[f64], &mut [f64]) -> ffi::Answer,
) -> (Number, Data, Option<u64>) {
    let (wholes, doubles) = match &operand.data {
        Data::I32(wholes) => (&wholes[..], Vec::new()),
        Data::F64(bits) => (&[][..], floats(bits)),
    };
    called(
        call,
        |source, dest| by_i32(wholes, source, dest),
        |source, dest| by_f64(&doubles, source, dest),
    )
}

/// What the function for the call's elements answers, given source and
/// destination, with the destination as it leaves it.
fn called(
    call: &Call,
    by_i32: impl FnOnce(&[i32], &mut [i32]) -> ffi::Answer,
    by_f64: impl FnOnce(&[f64], &mut [f64]) -> ffi::Answer,
) -> (Number, Data, Option<u64>) {
    let (answer, dest) = match (&call.source, &call.dest) {
        (Data::I32(source), Data::I32(dest)) => {
            let mut dest = dest.clone();
            let answer = by_i32(source, &mut dest);
            (answer, Data::I32(dest))
        }
        (Data::F64(source), Data::F64(dest)) => {
            let (source, mut dest) = (floats(source), floats(dest));
            let answer = by_f64(&source, &mut dest);
            let bits = dest.iter().map(|x| x.to_bits()).collect();
            (answer, Data::F64(bits))
        }
        _ => unreachable!("both slices are of the job's element"),
    };
    let (number, slid) = number_and_slid(answer);
    (number, dest, slid)
}
