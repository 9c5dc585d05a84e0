//! strided-rs's gather and scatter as a crate of their own. gather_plan.rs and
//! inline.rs are compiled unchanged, by path; the comparison's stubs stand in
//! for what they name from outside.

#[path = "../../../../../../differential/rust/oracle/src/stubs.rs"]
#[allow(dead_code)]
mod stubs;
mod views;

// `gather_plan` and `inline`.
include!(concat!(env!("OUT_DIR"), "/original.rs"));

// inline.rs takes INLINE_RANK from the view crate: this crate is that one too.
extern crate self as strided_view;

pub use gather_plan::{GatherIndex, GatherPlan, GatherSpec, ScatterPlan, ScatterSpec};
use stubs::{copy_plan, cost, layout_check, raw_ops, threading};
pub use stubs::{Exec, RawStridedMut, RawStridedRef, Result, StridedError};
pub use stubs::{INLINE_RANK, RAW_FUSED_RANK_LIMIT};
