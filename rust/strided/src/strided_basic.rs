//! Gather and scatter by the names of strided-rs's crate `strided_basic`.
//!
//! Names, arguments and the shapes of errors are those of strided-rs
//! (`strided-basic/src/gather_plan.rs`), so that a program written for its
//! gather and scatter goes on with another `use` line:
//!
//! ```
//! // use strided_basic::{Exec, RawStridedMut, RawStridedRef, ScatterPlan, ScatterSpec};
//! use strided::strided_basic::{Exec, RawStridedMut, RawStridedRef, ScatterPlan, ScatterSpec};
//!
//! let spec = ScatterSpec {
//!     update_window_dims: vec![],
//!     inserted_window_dims: vec![0],
//!     scatter_dims_to_operand_dims: vec![0],
//!     index_vector_dim: 1,
//! };
//! // The operand is kept backwards, and copied before the updates are added.
//! let plan = ScatterPlan::compile(&[5], &[-1], &[3], &[1], &[3], &[1], &[5], &[1], spec)?;
//! let starts: [i32; 3] = [0, 0, 9];
//! let mut grid = [0.0; 5];
//! plan.execute(
//!     &mut RawStridedMut::new(&mut grid, &[5], &[1], 0)?,
//!     &RawStridedRef::new(&[5.0, 4.0, 3.0, 2.0, 1.0], &[5], &[-1], 4)?,
//!     &RawStridedRef::new(&starts, &[3], &[1], 0)?,
//!     &RawStridedRef::new(&[3.0, 4.0, 5.0], &[3], &[1], 0)?,
//!     Exec::serial(),
//! )?;
//! assert_eq!(grid, [8.0, 2.0, 3.0, 4.0, 10.0]);
//! # Ok::<(), strided::strided_basic::StridedError>(())
//! ```
//!
//! The calls are those of the crate's root, and the library decides here too;
//! only the two shapes of a [`StridedError::ShapeMismatch`], of which it tells
//! the ranks, are put together here.
//!
//! What differs:
//!
//! - Elements are `i32`, whose sums wrap, `Wrapping<i32>` and `f64`
//!   ([`Element`]); starts are `i32`, which are converted in each call, or
//!   `i64`.
//! - Layouts have at most 8 axes: [`StridedError::RankTooLarge`].
//! - A view that reaches outside its slice is a [`StridedError::BufferBounds`],
//!   and one whose extents or span do not fit is refused when it is made.
//! - [`Exec`] is serial: there are no threads.
//! - What only other parts of strided-rs give and take is missing.
//!
//! How many windows slid, other rules than adding, scatters without an operand
//! and stored jobs are at the crate's root.

mod element;
mod error;
mod exec;
mod gather;
mod index;
mod scatter;
mod view;

pub use crate::{GatherSpec, ScatterSpec};
pub use element::{Element, ViewElement};
pub use error::{Result, StridedError};
pub use exec::Exec;
pub use gather::GatherPlan;
pub use index::GatherIndex;
pub use scatter::ScatterPlan;
pub use view::{RawStridedMut, RawStridedRef};
