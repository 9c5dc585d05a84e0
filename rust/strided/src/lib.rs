//! Gather and scatter on strided grids, by a proved library.
//!
//! A gather reads windows of a grid at given starts; a scatter puts updates on
//! a grid at given starts: it adds them, or goes by another rule. Each grid is a
//! view: extents, strides and an offset, in elements, over a slice. The axis
//! lists are those of StableHLO's gather and scatter. Starts are clamped so that
//! a window lies inside its grid.
//!
//! The work is done by the C library `libstrided.a`, whose answers and elements
//! are proved equal to written definitions. This crate adds names and borrows,
//! and decides nothing by itself: every refusal, clamp, cell and sum comes from
//! the library.
//!
//! # A gather
//!
//! ```
//! use strided::{GatherPlan, GatherSpec, StridedMut, StridedRef};
//!
//! // Windows of two cells of a grid of five, shown on axis 0.
//! let spec = GatherSpec {
//!     offset_dims: vec![0],
//!     collapsed_slice_dims: vec![],
//!     start_index_map: vec![0],
//!     index_vector_dim: 1,
//!     slice_sizes: vec![2],
//! };
//! let plan = GatherPlan::compile(&[5], &[1], &[2], &[1], &[2, 2], &[1, 2], spec)?;
//!
//! let depths = [10, 20, 30, 40, 50];
//! let starts = [4, -1]; // clamped to 3 and 0
//! let mut windows = [0; 4];
//! let done = plan.execute(
//!     &mut StridedMut::new(&mut windows, &[2, 2], &[1, 2], 0),
//!     &StridedRef::new(&depths, &[5], &[1], 0),
//!     &StridedRef::new(&starts, &[2], &[1], 0),
//! )?;
//! assert_eq!(windows, [40, 50, 10, 20]);
//! assert_eq!(done.slid(), 2); // both windows were moved
//! # Ok::<(), strided::StridedError>(())
//! ```
//!
//! # A scatter
//!
//! ```
//! use strided::{ScatterPlan, ScatterSpec, StridedMut, StridedRef};
//!
//! let spec = ScatterSpec {
//!     update_window_dims: vec![],
//!     inserted_window_dims: vec![0],
//!     scatter_dims_to_operand_dims: vec![0],
//!     index_vector_dim: 1,
//! };
//! let plan = ScatterPlan::compile(&[3], &[1], &[3], &[1], &[5], &[1], spec)?;
//!
//! let starts = [0, 0, 9]; // the last is clamped to 4
//! let mut grid = [0.0; 5];
//! plan.execute(
//!     &mut StridedMut::new(&mut grid, &[5], &[1], 0),
//!     &StridedRef::new(&starts, &[3], &[1], 0),
//!     &StridedRef::new(&[3.0, 4.0, 5.0], &[3], &[1], 0),
//! )?;
//! assert_eq!(grid, [7.0, 0.0, 0.0, 0.0, 5.0]);
//! # Ok::<(), strided::StridedError>(())
//! ```
//!
//! # Windows that slide
//!
//! A call that is done gives [`Done`], and [`Done::slid`] tells how many windows
//! the clamp moved: for a mark on the screen where a window was pushed inward at
//! the grid's edge.
//!
//! # Rules
//!
//! [`ScatterPlan::execute_updates`] takes a [`Rule`], which says what an element
//! becomes of what it holds and of each update that lands on it: their sum, the
//! lower, the higher, or the update. Of `f64` there is one more, a
//! [ceiling](RuleF64::Ceiling) with its limit. [`ScatterPlan::execute`] adds.
//!
//! ```
//! # use strided::{ScatterPlan, ScatterSpec, StridedMut, StridedRef};
//! # let spec = ScatterSpec {
//! #     update_window_dims: vec![],
//! #     inserted_window_dims: vec![0],
//! #     scatter_dims_to_operand_dims: vec![0],
//! #     index_vector_dim: 1,
//! # };
//! # let plan = ScatterPlan::compile(&[3], &[1], &[3], &[1], &[5], &[1], spec)?;
//! use strided::Rule;
//!
//! // The scatter above, on a grid that holds 4 everywhere.
//! let mut grid = [4.0; 5];
//! plan.execute_updates(
//!     &mut StridedMut::new(&mut grid, &[5], &[1], 0),
//!     &StridedRef::new(&[0, 0, 9], &[3], &[1], 0),
//!     &StridedRef::new(&[3.0, 4.0, 5.0], &[3], &[1], 0),
//!     Rule::Lowest,
//! )?;
//! assert_eq!(grid, [3.0, 4.0, 4.0, 4.0, 4.0]);
//! # Ok::<(), strided::StridedError>(())
//! ```
//!
//! # A scatter with an operand
//!
//! An [`OperandScatterPlan`] copies an operand into the destination, cell by
//! cell, before the updates: a clean chart under the cuts, in a layout of its
//! own. [`OperandScatterPlan::execute`] adds, and
//! [`OperandScatterPlan::execute_by`] takes a rule.
//!
//! # A program for strided-rs
//!
//! [`strided_basic`] has the names, the order of arguments and the shapes of
//! errors of strided-rs's gather and scatter, so that a program written for
//! them needs another `use` line.
//!
//! # Stored jobs
//!
//! A [`Job`] is a gather or a scatter with its views. [`Job::to_bytes`] stores
//! it and [`Job::from_bytes`] reads it; [`gather_job`] and [`scatter_job`] run
//! the bytes as they are. A stored scatter adds.
//!
//! # Refusals
//!
//! Every function answers for all arguments. What cannot be done is refused by
//! a [`StridedError`], and then no element of a destination has changed. Nothing
//! here panics.
//!
//! # How long a call takes
//!
//! An accepted call takes as long as its plan has cells, at one to a few
//! nanoseconds each, besides some hundreds of its own; so many starts belong in
//! one call. A gather, and the copy of an operand, has at most as many cells as
//! its destination's slice has elements. A scatter whose index and updates have strides of 0 can name 2^62
//! updates in a few elements, and such a call would take more than a hundred
//! years; nothing refuses it.
//!
//! # Elements
//!
//! An element is an `i32`, whose sums wrap modulo 2^32, or an `f64`, whose sums
//! round one by one in the order of the updates. Elements are copied bit for
//! bit, those of a NaN too, by a gather, from an operand, and by a rule that
//! takes one of two; which NaN a sum gives is left open. Starts are `i64`.
//!
//! # Why the calls are sound
//!
//! The library asks its caller for true counts, for pointers that are aligned
//! and not null, and that what it writes overlaps nothing else. All three are
//! what Rust's borrows guarantee: a slice goes over as its own pointer and
//! length and stays borrowed for the call, and a destination is borrowed by
//! `&mut`. The library then reads and writes only inside the slices, whatever
//! the extents, strides, offsets and starts are; that is proved. So every
//! function here is safe; the unsafe code stands in one module, [`ffi`], and
//! does nothing but hand the slices over.
//!
//! A destination that is read in the same call is not accepted:
//!
//! ```compile_fail
//! # use strided::{Done, GatherPlan, StridedMut, StridedRef};
//! # fn within(plan: &GatherPlan) -> strided::Result<Done> {
//! let mut grid = [10, 20, 30, 40, 50];
//! plan.execute(
//!     &mut StridedMut::new(&mut grid, &[2, 2], &[1, 2], 0),
//!     &StridedRef::new(&grid, &[5], &[1], 0),
//!     &StridedRef::new(&[4, -1], &[2], &[1], 0),
//! )
//! # }
//! ```
#![deny(missing_docs)]
#![deny(unsafe_code)]

#[cfg(not(target_pointer_width = "64"))]
compile_error!("strided is for 64-bit targets: its library counts and steps in 64 bits");

mod calls;
mod done;
mod element;
mod error;
#[allow(unsafe_code)]
pub mod ffi;
mod job;
mod operand_scatter;
mod plan;
mod rule;
mod spec;
mod stored;
pub mod strided_basic;
mod view;

pub use done::Done;
pub use element::{Element, ElementType};
pub use error::{Result, StridedError};
pub use job::{check_job, gather_job, scatter_job, GatherJob, Job, ScatterJob};
pub use operand_scatter::OperandScatterPlan;
pub use plan::{GatherPlan, ScatterPlan};
pub use rule::{Rule, RuleF64};
pub use spec::{GatherSpec, ScatterSpec};
pub use view::{StridedMut, StridedRef, ViewLayout};

/// The most axes that a layout has.
pub const RANK_LIMIT: usize = 8;

/// The most entries that an axis list of a stored job has.
pub const LIST_LIMIT: usize = 16;

/// The examples of the page about this crate are run with the others.
#[cfg(doctest)]
#[doc = include_str!("../../README.md")]
struct Page;
