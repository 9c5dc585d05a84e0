//! The C interface: a function for each of `strided.h`, by its name, with a
//! slice where the header has a pointer and a count, and with the answer
//! handed back; the version's function is here without the version in its
//! name. Every use of the library from Rust goes through here.
//!
//! These are the calls as the library has them, with lists in place of specs
//! and views; the rest of the crate is easier to use. All of them are safe:
//!
//! ```
//! use strided::ffi;
//!
//! // No byte is too few for a job: refused by 10, at byte 0.
//! assert_eq!(ffi::strided_read_job(&[]), [10, 0, 0, 0]);
//! ```
//!
//! # Why the calls are sound
//!
//! The header says that every function answers for all arguments, always
//! returns, and reads and writes only inside the slices that it is lent; this
//! is proved of the library. What it asks of the caller holds here:
//!
//! - A slice goes over as the pointer and the length of one Rust slice, which
//!   is borrowed until the call returns. So the count is true, and the pointer
//!   is aligned and not null, also where the slice is empty.
//! - What a function writes is a slice that is borrowed by `&mut`, and an
//!   answer that is a variable of the caller. So it overlaps no other argument,
//!   and nobody else reads or writes it meanwhile.
//! - The elements are `i32`, `f64`, `i64`, `u64` and `u8`, of which every bit
//!   pattern is a value. The library has no data of its own that changes, so
//!   that calls may go on at the same time.
//!
//! That the declarations are the header's is tested. This is the only module
//! with unsafe code: the calls, and slices that are read as others of the same
//! size.

use core::num::Wrapping;
use core::slice;

/// The number of a refusal, or 0, then its a and b, 0 where unnamed, and last
/// how many windows slid, where a gather or a scatter was done, and otherwise 0.
pub type Answer = [u64; 4];

/// Every call overwrites it; a refusal without a name until then.
const NO_ANSWER: Answer = [u64::MAX; 4];

/// The version of the exports, as the archive has it. The build script links
/// no archive of another version than this crate is for.
pub fn strided_version() -> u64 {
    extern "C" {
        fn strided_version_4() -> u64;
    }
    // SAFETY: it takes nothing, and returns a number.
    unsafe { strided_version_4() }
}

/// Extents, axes or sizes, as the library takes them.
pub(crate) fn words(list: &[usize]) -> &[u64] {
    // SAFETY: on 64-bit targets, and the crate is for no others, `usize` and
    // `u64` have the same values by the same bits.
    unsafe { slice::from_raw_parts(list.as_ptr().cast(), list.len()) }
}

/// Strides, as the library takes them.
pub(crate) fn steps(list: &[isize]) -> &[i64] {
    // SAFETY: as in `words`.
    unsafe { slice::from_raw_parts(list.as_ptr().cast(), list.len()) }
}

/// Elements without the name that says how they are added.
pub(crate) fn unwrapped(list: &[Wrapping<i32>]) -> &[i32] {
    // SAFETY: `Wrapping` is transparent.
    unsafe { slice::from_raw_parts(list.as_ptr().cast(), list.len()) }
}

/// The same, to be written.
pub(crate) fn unwrapped_mut(list: &mut [Wrapping<i32>]) -> &mut [i32] {
    // SAFETY: as in `unwrapped`, and the list is borrowed for as long.
    unsafe { slice::from_raw_parts_mut(list.as_mut_ptr().cast(), list.len()) }
}

/// Starts as elements of their size, for a call that reads none of them.
pub(crate) fn bits(list: &[i64]) -> &[f64] {
    // SAFETY: on 64-bit targets both are aligned to their eight bytes, and
    // every bit pattern is an `f64`.
    unsafe { slice::from_raw_parts(list.as_ptr().cast(), list.len()) }
}

/// Declares each function as the header has it, a slice as a pointer and a
/// count, and calls it.
macro_rules! exports {
    ($(
        $(#[$about:meta])*
        fn $name:ident($(
            $parameter:ident: $(&[$read:ident])? $(&mut [$written:ident])? $($number:ident)?
        ),* $(,)?);
    )*) => {$(
        $(#[$about])*
        #[allow(clippy::too_many_arguments)]
        #[inline(always)]
        pub fn $name($(
            $parameter: $(&[$read])? $(&mut [$written])? $($number)?
        ),*) -> Answer {
            extern "C" {
                fn $name(
                    $(
                        $($parameter: *const $read, _: usize,)?
                        $($parameter: *mut $written, _: usize,)?
                        $($parameter: $number,)?
                    )*
                    answer: *mut Answer,
                );
            }
            let mut answer = NO_ANSWER;
            // SAFETY: the module's words on soundness.
            unsafe {
                $name(
                    $(
                        $(<[$read]>::as_ptr($parameter), $parameter.len(),)?
                        $(<[$written]>::as_mut_ptr($parameter), $parameter.len(),)?
                        $($number::from($parameter),)?
                    )*
                    &mut answer,
                );
            }
            answer
        }
    )*};
}

// In the header's order, so that the two can be laid side by side.
exports! {
    /// Whether the bytes store a job.
    fn strided_read_job(bytes: &[u8]);

    /// Writes a gather to the front of `out`. The element is 1 for `i32`, 2 for `f64`.
    fn strided_write_gather_job(
        element: u64,
        operand_extents: &[u64],
        operand_strides: &[i64],
        operand_offset: i64,
        index_extents: &[u64],
        index_strides: &[i64],
        index_offset: i64,
        dest_extents: &[u64],
        dest_strides: &[i64],
        dest_offset: i64,
        offset_dims: &[u64],
        collapsed_slice_dims: &[u64],
        start_index_map: &[u64],
        index_vector_dim: u64,
        slice_sizes: &[u64],
        out: &mut [u8],
    );

    /// Writes a scatter to the front of `out`. The element is 1 for `i32`, 2 for `f64`.
    fn strided_write_scatter_job(
        element: u64,
        index_extents: &[u64],
        index_strides: &[i64],
        index_offset: i64,
        updates_extents: &[u64],
        updates_strides: &[i64],
        updates_offset: i64,
        dest_extents: &[u64],
        dest_strides: &[i64],
        dest_offset: i64,
        update_window_dims: &[u64],
        inserted_window_dims: &[u64],
        scatter_dims_to_operand_dims: &[u64],
        index_vector_dim: u64,
        out: &mut [u8],
    );

    /// Reads a stored gather of `i32`, compiles it and calls it.
    fn strided_gather_i32(job: &[u8], operand: &[i32], starts: &[i64], destination: &mut [i32]);

    /// Reads a stored gather of `f64`, compiles it and calls it.
    fn strided_gather_f64(job: &[u8], operand: &[f64], starts: &[i64], destination: &mut [f64]);

    /// Reads a stored scatter of `i32`, compiles it and calls it. It adds.
    fn strided_scatter_i32(job: &[u8], starts: &[i64], updates: &[i32], destination: &mut [i32]);

    /// Reads a stored scatter of `f64`, compiles it and calls it. It adds.
    fn strided_scatter_f64(job: &[u8], starts: &[i64], updates: &[f64], destination: &mut [f64]);

    /// The first refusal of a gather's compile.
    fn strided_gather_refusal(
        operand_extents: &[u64],
        operand_strides: &[i64],
        index_extents: &[u64],
        index_strides: &[i64],
        dest_extents: &[u64],
        dest_strides: &[i64],
        offset_dims: &[u64],
        collapsed_slice_dims: &[u64],
        start_index_map: &[u64],
        index_vector_dim: u64,
        slice_sizes: &[u64],
    );

    /// The first refusal of a scatter's compile.
    fn strided_scatter_refusal(
        index_extents: &[u64],
        index_strides: &[i64],
        updates_extents: &[u64],
        updates_strides: &[i64],
        dest_extents: &[u64],
        dest_strides: &[i64],
        update_window_dims: &[u64],
        inserted_window_dims: &[u64],
        scatter_dims_to_operand_dims: &[u64],
        index_vector_dim: u64,
    );

    /// Compiles a gather of `i32` by the first three layouts and the lists, and calls it on
    /// the three views.
    fn strided_raw_gather_i32(
        operand_extents: &[u64],
        operand_strides: &[i64],
        index_extents: &[u64],
        index_strides: &[i64],
        dest_extents: &[u64],
        dest_strides: &[i64],
        offset_dims: &[u64],
        collapsed_slice_dims: &[u64],
        start_index_map: &[u64],
        index_vector_dim: u64,
        slice_sizes: &[u64],
        operand_view_extents: &[u64],
        operand_view_strides: &[i64],
        operand_offset: i64,
        index_view_extents: &[u64],
        index_view_strides: &[i64],
        index_offset: i64,
        dest_view_extents: &[u64],
        dest_view_strides: &[i64],
        dest_offset: i64,
        operand: &[i32],
        starts: &[i64],
        dest: &mut [i32],
    );

    /// Compiles a gather of `f64` by the first three layouts and the lists, and calls it on
    /// the three views.
    fn strided_raw_gather_f64(
        operand_extents: &[u64],
        operand_strides: &[i64],
        index_extents: &[u64],
        index_strides: &[i64],
        dest_extents: &[u64],
        dest_strides: &[i64],
        offset_dims: &[u64],
        collapsed_slice_dims: &[u64],
        start_index_map: &[u64],
        index_vector_dim: u64,
        slice_sizes: &[u64],
        operand_view_extents: &[u64],
        operand_view_strides: &[i64],
        operand_offset: i64,
        index_view_extents: &[u64],
        index_view_strides: &[i64],
        index_offset: i64,
        dest_view_extents: &[u64],
        dest_view_strides: &[i64],
        dest_offset: i64,
        operand: &[f64],
        starts: &[i64],
        dest: &mut [f64],
    );

    /// Compiles a scatter of `i32` by the first three layouts and the lists, and calls it on
    /// the three views. The rule is 1 to add, 2 for the lowest, 3 for the highest, 4 to replace;
    /// any other is refused by 18, before everything else.
    fn strided_raw_scatter_i32(
        rule: u64,
        index_extents: &[u64],
        index_strides: &[i64],
        updates_extents: &[u64],
        updates_strides: &[i64],
        dest_extents: &[u64],
        dest_strides: &[i64],
        update_window_dims: &[u64],
        inserted_window_dims: &[u64],
        scatter_dims_to_operand_dims: &[u64],
        index_vector_dim: u64,
        index_view_extents: &[u64],
        index_view_strides: &[i64],
        index_offset: i64,
        updates_view_extents: &[u64],
        updates_view_strides: &[i64],
        updates_offset: i64,
        dest_view_extents: &[u64],
        dest_view_strides: &[i64],
        dest_offset: i64,
        starts: &[i64],
        updates: &[i32],
        dest: &mut [i32],
    );

    /// Compiles a scatter of `f64` by the first three layouts and the lists, and calls it on
    /// the three views. The rule is one of those of `i32`, or 5 for a ceiling, which alone reads
    /// the limit; any other is refused by 18, before everything else.
    fn strided_raw_scatter_f64(
        rule: u64,
        limit: f64,
        index_extents: &[u64],
        index_strides: &[i64],
        updates_extents: &[u64],
        updates_strides: &[i64],
        dest_extents: &[u64],
        dest_strides: &[i64],
        update_window_dims: &[u64],
        inserted_window_dims: &[u64],
        scatter_dims_to_operand_dims: &[u64],
        index_vector_dim: u64,
        index_view_extents: &[u64],
        index_view_strides: &[i64],
        index_offset: i64,
        updates_view_extents: &[u64],
        updates_view_strides: &[i64],
        updates_offset: i64,
        dest_view_extents: &[u64],
        dest_view_strides: &[i64],
        dest_offset: i64,
        starts: &[i64],
        updates: &[f64],
        dest: &mut [f64],
    );

    /// The first refusal of the compile of a scatter that copies an operand first.
    fn strided_scatter_operand_refusal(
        operand_extents: &[u64],
        operand_strides: &[i64],
        index_extents: &[u64],
        index_strides: &[i64],
        updates_extents: &[u64],
        updates_strides: &[i64],
        dest_extents: &[u64],
        dest_strides: &[i64],
        update_window_dims: &[u64],
        inserted_window_dims: &[u64],
        scatter_dims_to_operand_dims: &[u64],
        index_vector_dim: u64,
    );

    /// Compiles a scatter of `i32` by the first four layouts and the lists, and calls it on
    /// the four views: the operand is copied to the destination, cell by cell, and then the
    /// updates go on by the rule, which is one of those of `strided_raw_scatter_i32`.
    fn strided_raw_scatter_operand_i32(
        rule: u64,
        operand_extents: &[u64],
        operand_strides: &[i64],
        index_extents: &[u64],
        index_strides: &[i64],
        updates_extents: &[u64],
        updates_strides: &[i64],
        dest_extents: &[u64],
        dest_strides: &[i64],
        update_window_dims: &[u64],
        inserted_window_dims: &[u64],
        scatter_dims_to_operand_dims: &[u64],
        index_vector_dim: u64,
        operand_view_extents: &[u64],
        operand_view_strides: &[i64],
        operand_offset: i64,
        index_view_extents: &[u64],
        index_view_strides: &[i64],
        index_offset: i64,
        updates_view_extents: &[u64],
        updates_view_strides: &[i64],
        updates_offset: i64,
        dest_view_extents: &[u64],
        dest_view_strides: &[i64],
        dest_offset: i64,
        operand: &[i32],
        starts: &[i64],
        updates: &[i32],
        dest: &mut [i32],
    );

    /// Compiles a scatter of `f64` by the first four layouts and the lists, and calls it on
    /// the four views: the operand is copied to the destination, cell by cell, and then the
    /// updates go on by the rule, which is one of those of `strided_raw_scatter_f64`.
    fn strided_raw_scatter_operand_f64(
        rule: u64,
        limit: f64,
        operand_extents: &[u64],
        operand_strides: &[i64],
        index_extents: &[u64],
        index_strides: &[i64],
        updates_extents: &[u64],
        updates_strides: &[i64],
        dest_extents: &[u64],
        dest_strides: &[i64],
        update_window_dims: &[u64],
        inserted_window_dims: &[u64],
        scatter_dims_to_operand_dims: &[u64],
        index_vector_dim: u64,
        operand_view_extents: &[u64],
        operand_view_strides: &[i64],
        operand_offset: i64,
        index_view_extents: &[u64],
        index_view_strides: &[i64],
        index_offset: i64,
        updates_view_extents: &[u64],
        updates_view_strides: &[i64],
        updates_offset: i64,
        dest_view_extents: &[u64],
        dest_view_strides: &[i64],
        dest_offset: i64,
        operand: &[f64],
        starts: &[i64],
        updates: &[f64],
        dest: &mut [f64],
    );
}
