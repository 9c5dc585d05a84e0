//! Calls of the static library beside the Rust original, in one process on
//! the same inputs. gather_plan.rs and inline.rs are compiled unchanged, by
//! path, with the differential run's stand-ins for what they name from
//! outside, and with two of `lean` in their place.

mod element;
mod job;
mod lean;
mod measure;
mod original;
mod plain;
mod stored;

// `gather_plan` and `inline`.
include!(concat!(env!("OUT_DIR"), "/original.rs"));
#[allow(dead_code)]
#[path = "../../../differential/rust/oracle/src/rules.rs"]
mod rules;
#[allow(dead_code)]
#[path = "../../../differential/rust/oracle/src/stubs.rs"]
mod stubs;

// inline.rs takes INLINE_RANK from the view crate: this crate is that one too.
extern crate self as strided_view;

use lean::{copy_plan, layout_check};
use stubs::{cost, raw_ops, threading};
use stubs::{Exec, RawStridedMut, RawStridedRef, Result, StridedError};
pub use stubs::{INLINE_RANK, RAW_FUSED_RANK_LIMIT};

use element::Element;
use job::Job;
use measure::measure;
use original::{Gather, Kind, OperandScatter, Scatter};
use rules::{Lowest, Replace};
use stored::Stored;

fn main() {
    let rounds = std::env::var("BENCH_ROUNDS")
        .ok()
        .and_then(|v| v.parse().ok())
        .unwrap_or(101);
    let some = std::env::args().nth(1).unwrap_or_default();
    println!("The library's time over each, medians of {rounds} rounds");
    println!("| call | element | cells | Rust, compile and execute | Rust, execute alone | memcpy | plain loop | Rust over memory |");
    println!("|---|---|---|---|---|---|---|---|");
    gathers(rounds, &some);
    scatters(rounds, &some);
    charts(rounds, &some);
    ruled::<Lowest<i32>, Lowest<f64>>("Lowest", rounds, &some);
    ruled::<Replace<i32>, Replace<f64>>("Replace", rounds, &some);
    for (name, job) in small() {
        stored::<Stored<Gather>>("gather", name, &job, rounds, &some);
        stored::<Stored<Scatter>>("scatter", name, &job, rounds, &some);
    }
}

/// The windows that are measured for gathers and for scatters.
fn windows() -> Vec<(&'static str, Job)> {
    let square = [1000, 1000];
    let narrow = [500, 2000];
    let rank_four = [20, 20, 20, 20];
    vec![
        ("64×64, 256 starts", Job::windows(&square, &[64, 64], 256)),
        (
            "64×64, 256 starts, batch axis first",
            Job::windows(&square, &[64, 64], 256).batch_first(),
        ),
        (
            "64×64, 16 starts, in the cache",
            Job::windows(&[200, 200], &[64, 64], 16),
        ),
        ("4×4, 65536 starts", Job::windows(&square, &[4, 4], 65536)),
        ("256×256, 16 starts", Job::windows(&square, &[256, 256], 16)),
        ("4×1024, 256 starts", Job::windows(&narrow, &[4, 1024], 256)),
        (
            "1×1, 1000000 starts",
            Job::windows(&square, &[1, 1], 1_000_000),
        ),
        (
            "1×1×1, 1000000 starts",
            Job::windows(&[100, 100, 100], &[1, 1, 1], 1_000_000),
        ),
        (
            "64 of rank one, 4096 starts, batch axis first",
            Job::windows(&[1_000_000], &[64], 4096).batch_first(),
        ),
        ("16×1, 65536 starts", Job::windows(&square, &[16, 1], 65536)),
        ("1×16, 65536 starts", Job::windows(&square, &[1, 16], 65536)),
        (
            "8×8×8×8, 256 starts, strides of 2",
            Job::windows(&rank_four, &[8, 8, 8, 8], 256).apart(2),
        ),
    ]
    .into_iter()
    .chain(small())
    .collect()
}

/// Windows of one start, where deciding takes most of the time.
fn small() -> Vec<(&'static str, Job)> {
    vec![
        ("1×1, 1 start", Job::windows(&[100, 100], &[1, 1], 1)),
        ("5×2, 1 start", Job::windows(&[100, 100], &[5, 2], 1)),
        ("10×10, 1 start", Job::windows(&[100, 100], &[10, 10], 1)),
    ]
}

fn stored<K: Kind>(kind: &str, name: &str, job: &Job, rounds: usize, some: &str) {
    let name = format!("{kind} {name}, stored job");
    if name.contains(some) {
        measure::<i32, K>(&name, job, rounds);
        measure::<f64, K>(&name, job, rounds);
    }
}

fn gathers(rounds: usize, some: &str) {
    let mut jobs = windows();
    jobs.push(("take, rank one", Job::takes(1_000_000, 1_000_000)));
    for (name, job) in jobs {
        let name = format!("gather {name}");
        if name.contains(some) {
            measure::<i32, Gather>(&name, &job, rounds);
            measure::<f64, Gather>(&name, &job, rounds);
        }
    }
}

fn scatters(rounds: usize, some: &str) {
    let mut jobs = windows();
    jobs.push(("scalars, rank one", Job::puts(1_000_000, 1_000_000)));
    for (name, job) in jobs {
        let name = format!("scatter {name}");
        if name.contains(some) {
            measure::<i32, Scatter>(&name, &job, rounds);
            measure::<f64, Scatter>(&name, &job, rounds);
        }
    }
}

/// Scatters that copy a chart first.
fn charts(rounds: usize, some: &str) {
    let windows = || Job::windows(&[1000, 1000], &[64, 64], 256);
    let one = || Job::windows(&[1000, 1000], &[1, 1], 1);
    let mut jobs: Vec<(String, [Job; 2])> = Vec::new();
    let mut add = |name: String, job: &dyn Fn() -> Job| {
        jobs.push((name, [job().on_operand(), job().on_turned_operand()]));
    };
    add("64×64, 256 starts, on a chart".to_string(), &windows);
    add("1×1, 1 start, on a chart of 1000×1000".to_string(), &one);
    // Up to 64 cells, or sixteen rows, the library copies over the axes as they are given.
    for side in [2, 4, 8, 9, 16, 64] {
        let small = || Job::windows(&[side, side], &[2, 2], 1);
        let name = format!("2×2, 1 start, on a chart of {side}×{side}");
        add(name, &small);
    }
    for (name, [straight, turned]) in jobs {
        chart(&name, &straight, rounds, some);
        chart(&format!("{name} turned round"), &turned, rounds, some);
    }
}

fn chart(name: &str, job: &Job, rounds: usize, some: &str) {
    let name = format!("scatter {name}");
    if name.contains(some) {
        measure::<i32, OperandScatter>(&name, job, rounds);
        measure::<f64, OperandScatter>(&name, job, rounds);
    }
}

/// Scatters of elements whose `+` is the rule.
fn ruled<A: Element, B: Element>(rule: &str, rounds: usize, some: &str) {
    let windows = Job::windows(&[1000, 1000], &[64, 64], 256);
    let scalars = Job::puts(1_000_000, 1_000_000);
    for (name, job) in [
        ("64×64, 256 starts", windows),
        ("scalars, rank one", scalars),
    ] {
        let name = format!("scatter {name}, {rule}");
        if name.contains(some) {
            measure::<A, Scatter>(&name, &job, rounds);
            measure::<B, Scatter>(&name, &job, rounds);
        }
    }
}
