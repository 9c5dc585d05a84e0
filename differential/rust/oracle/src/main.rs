//! The Rust original as judge. gather_plan.rs and inline.rs are compiled
//! unchanged, by path; `stubs` stands in for what they name from outside.

mod added;
mod calls;
mod rules;
mod stubs;

// `gather_plan` and `inline`.
include!(concat!(env!("OUT_DIR"), "/original.rs"));

// inline.rs takes INLINE_RANK from the view crate: this crate is that one too.
extern crate self as strided_view;

use stubs::{copy_plan, cost, layout_check, raw_ops, threading};
use stubs::{Exec, RawStridedMut, RawStridedRef, Result, StridedError};
pub use stubs::{INLINE_RANK, RAW_FUSED_RANK_LIMIT};

fn main() -> std::io::Result<()> {
    lines::drive(calls::answer)
}
