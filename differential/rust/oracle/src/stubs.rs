//! Stand-ins for the parts of the repository that gather_plan.rs names and
//! that are not at hand. They follow document 01: views without checks (the
//! driver makes the test of 9 first), "nested" as the layout test, a serial
//! executor, and a copy over axes that the Rust's own `fuse_axes` has merged.
//! What only the dynamic slice plans use is never reached.

use std::marker::PhantomData;

/// Inline capacity of the axis lists; above it they spill to the heap.
pub const INLINE_RANK: usize = 8;
pub const RAW_FUSED_RANK_LIMIT: usize = 8;

#[derive(Clone, Debug)]
pub enum StridedError {
    OffsetOverflow,
    StrideLengthMismatch,
    NonInjectiveOutputLayout,
    RankMismatch(usize, usize),
    InvalidAxis { axis: usize, rank: usize },
    ShapeMismatch(Vec<usize>, Vec<usize>),
    PlanLayoutMismatch,
}

pub type Result<T> = std::result::Result<T, StridedError>;

/// The serial executor.
pub struct Exec<'a>(PhantomData<&'a mut ()>);

impl Exec<'_> {
    pub fn serial() -> Self {
        Exec(PhantomData)
    }

    pub fn is_serial(&self) -> bool {
        true
    }

    pub fn reborrow(&mut self) -> Exec<'_> {
        Exec(PhantomData)
    }
}

/// A view that is read.
pub struct RawStridedRef<'a, T> {
    pub data: &'a [T],
    pub dims: &'a [usize],
    pub strides: &'a [isize],
    pub offset: isize,
}

impl<T> RawStridedRef<'_, T> {
    pub fn data(&self) -> &[T] {
        self.data
    }

    pub fn dims(&self) -> &[usize] {
        self.dims
    }

    pub fn strides(&self) -> &[isize] {
        self.strides
    }

    pub fn offset(&self) -> isize {
        self.offset
    }
}

/// A view that is written.
pub struct RawStridedMut<'a, T> {
    pub data: &'a mut [T],
    pub dims: &'a [usize],
    pub strides: &'a [isize],
    pub offset: isize,
}

/// `fuse_axes` of raw_ops.rs and `total_len` of kernel.rs, as they stand there.
#[allow(clippy::all)]
pub mod fused {
    use super::{Result, StridedError, RAW_FUSED_RANK_LIMIT};

    // `FusedAxis`, `EMPTY_AXIS`, `fuse_axes`, `total_len`.
    include!(concat!(env!("OUT_DIR"), "/fused.rs"));

    /// The axes of a copy of at most eight, and how many they are: ordered by
    /// the destination's stride, and merged where both sides are contiguous.
    /// There is at least one.
    pub(crate) fn axes(
        dims: &[usize],
        dest: &[isize],
        source: &[isize],
    ) -> ([FusedAxis; RAW_FUSED_RANK_LIMIT], usize) {
        let mut axes = [EMPTY_AXIS; RAW_FUSED_RANK_LIMIT];
        let rank = fuse_axes(&mut axes, dims, dest, source);
        (axes, rank)
    }

    /// How many cells a copy has.
    pub fn cells(dims: &[usize]) -> Result<usize> {
        total_len(dims)
    }
}

pub mod copy_plan {
    use super::fused::{self, FusedAxis};
    use super::raw_ops::{FusedPairLayout, PairTiles};
    use super::{Exec, RawStridedMut, RawStridedRef, Result, RAW_FUSED_RANK_LIMIT};
    use std::mem::MaybeUninit;

    pub trait OverwriteWriter<T> {
        fn dims(&self) -> &[usize];
        fn strides(&self) -> &[isize];
        fn offset(&self) -> isize;

        /// The start of the slice.
        ///
        /// # Safety
        /// What is done with it stays inside the slice.
        unsafe fn data_ptr(&mut self) -> *mut T;

        /// # Safety
        /// `offset` is inside the slice.
        unsafe fn write_at(&mut self, offset: isize, value: T) {
            self.data_ptr().offset(offset).write(value);
        }
    }

    pub trait ReadModifyWrite<T: Copy>: OverwriteWriter<T> {
        /// # Safety
        /// `offset` is inside the slice, and the element there is set.
        unsafe fn add_at(&mut self, offset: isize, value: T, combine: impl Fn(T, T) -> T) {
            let cell = self.data_ptr().offset(offset);
            cell.write(combine(cell.read(), value));
        }
    }

    impl<T> OverwriteWriter<T> for RawStridedMut<'_, T> {
        fn dims(&self) -> &[usize] {
            self.dims
        }

        fn strides(&self) -> &[isize] {
            self.strides
        }

        fn offset(&self) -> isize {
            self.offset
        }

        unsafe fn data_ptr(&mut self) -> *mut T {
            self.data.as_mut_ptr()
        }
    }

    impl<T> OverwriteWriter<T> for RawStridedMut<'_, MaybeUninit<T>> {
        fn dims(&self) -> &[usize] {
            self.dims
        }

        fn strides(&self) -> &[isize] {
            self.strides
        }

        fn offset(&self) -> isize {
            self.offset
        }

        unsafe fn data_ptr(&mut self) -> *mut T {
            self.data.as_mut_ptr().cast()
        }
    }

    impl<T: Copy> ReadModifyWrite<T> for RawStridedMut<'_, T> {}

    /// Copies run by run, over the merged axes. Compile comes here only with
    /// a product that fits, and so nothing is refused.
    #[derive(Clone, Debug)]
    pub struct CopyPlan {
        axes: [FusedAxis; RAW_FUSED_RANK_LIMIT],
        rank: usize,
        cells: usize,
    }

    impl CopyPlan {
        pub fn compile(dims: &[usize], dest: &[isize], source: &[isize]) -> Result<Self> {
            let (axes, rank) = fused::axes(dims, dest, source);
            let cells = fused::cells(dims)?;
            Ok(CopyPlan { axes, rank, cells })
        }

        pub fn execute<T: Copy>(
            &self,
            dest: &mut RawStridedMut<'_, T>,
            source: &RawStridedRef<'_, T>,
            _exec: Exec<'_>,
        ) -> Result<()> {
            let [run, outer @ ..] = &self.axes[..self.rank] else {
                return Ok(());
            };
            if self.cells == 0 {
                return Ok(());
            }
            let mut coordinate = vec![0usize; outer.len()];
            loop {
                let from = place(source.offset, outer, |axis| axis.src, &coordinate);
                let to = place(dest.offset, outer, |axis| axis.dst, &coordinate);
                copy_run(run, source.data, from, dest.data, to);
                if !next(&mut coordinate, outer) {
                    return Ok(());
                }
            }
        }

        /// Only calls into memory that is not set yet come here: none do.
        pub fn execute_uninit_then<'a, T, R>(
            &self,
            _dest: &'a mut RawStridedMut<'a, MaybeUninit<T>>,
            _source: &RawStridedRef<'_, T>,
            _exec: Exec<'_>,
            _then: impl FnOnce(RawStridedMut<'a, T>, Exec<'_>) -> R,
        ) -> Result<R> {
            unreachable!()
        }
    }

    fn place(
        offset: isize,
        axes: &[FusedAxis],
        step: impl Fn(&FusedAxis) -> isize,
        coordinate: &[usize],
    ) -> isize {
        let axes = axes.iter().zip(coordinate);
        axes.fold(offset, |sum, (axis, &c)| {
            sum.wrapping_add(step(axis).wrapping_mul(c as isize))
        })
    }

    /// Copies one run: in one piece where both sides go by 1.
    fn copy_run<T: Copy>(run: &FusedAxis, source: &[T], from: isize, dest: &mut [T], to: isize) {
        if run.src == 1 && run.dst == 1 {
            let (from, to) = (from as usize, to as usize);
            dest[to..to + run.dim].copy_from_slice(&source[from..from + run.dim]);
            return;
        }
        for n in 0..run.dim as isize {
            let (from, to) = (from + n * run.src, to + n * run.dst);
            dest[to as usize] = source[from as usize];
        }
    }

    /// Steps to the next coordinate; false after the last one.
    fn next(coordinate: &mut [usize], axes: &[FusedAxis]) -> bool {
        for (c, axis) in coordinate.iter_mut().zip(axes) {
            *c += 1;
            if *c < axis.dim {
                return true;
            }
            *c = 0;
        }
        false
    }

    /// Only the dynamic slice plans come here.
    ///
    /// # Safety
    /// It does nothing.
    #[allow(clippy::too_many_arguments)]
    pub unsafe fn replay_fused_raw<D, S>(
        _dest: *mut D,
        _dest_base: isize,
        _source: *const S,
        _source_base: isize,
        _layout: &FusedPairLayout,
        _tiles: Option<&PairTiles>,
        _write: impl Fn(&mut D, S),
        _ns_per_element: f64,
        _exec: Exec<'_>,
    ) {
        unreachable!()
    }
}

pub mod cost {
    use super::Exec;

    #[derive(Clone, Copy)]
    pub enum KernelClass {
        Copy,
    }

    impl KernelClass {
        pub fn ns_per_element(self) -> f64 {
            1.0
        }
    }

    pub fn for_len_tree(exec: Exec<'_>, _class: KernelClass, _len: usize) -> Exec<'_> {
        exec
    }
}

pub mod layout_check {
    /// Nested, as document 01 defines it: some extent is 0; or, extents of 1
    /// left out and the rest ordered by magnitude of stride, each magnitude
    /// exceeds the sum of magnitude times (extent - 1) over those before it.
    pub fn is_injective_layout(dims: &[usize], strides: &[isize]) -> bool {
        if dims.contains(&0) {
            return true;
        }
        let mut axes: Vec<(u128, u128)> = dims
            .iter()
            .zip(strides)
            .filter(|(&dim, _)| dim != 1)
            .map(|(&dim, stride)| (stride.unsigned_abs() as u128, dim as u128 - 1))
            .collect();
        axes.sort();
        let mut reach = 0u128;
        for (magnitude, last) in axes {
            if magnitude <= reach {
                return false;
            }
            reach = reach.saturating_add(magnitude * last);
        }
        true
    }
}

/// What only the dynamic slice plans use.
pub mod raw_ops {
    #[derive(Clone, Copy, Debug)]
    pub struct FusedPairLayout;
    pub struct PairTiles;

    pub fn fuse_pair_layout(
        _dims: &[usize],
        _dest: &[isize],
        _source: &[isize],
    ) -> Option<FusedPairLayout> {
        None
    }

    // The callers name both types.
    #[allow(clippy::extra_unused_type_parameters)]
    pub fn pair_tiles<D, S>(_layout: &FusedPairLayout) -> Option<PairTiles> {
        None
    }
}

/// Threads are never used: the executor is serial.
pub mod threading {
    use super::Exec;
    use std::ops::Range;

    #[derive(Clone, Copy)]
    pub struct SendPtr<T>(pub *mut T);

    impl<T> SendPtr<T> {
        pub fn as_ptr(&self) -> *mut T {
            self.0
        }

        pub fn as_const(&self) -> *const T {
            self.0
        }
    }

    pub fn parallel_map_reduce<R>(
        range: Range<usize>,
        _exec: Exec<'_>,
        map: &impl Fn(Range<usize>) -> R,
        _reduce: &impl Fn(R, R) -> R,
    ) -> R {
        map(range)
    }

    /// # Safety
    /// Both runs of `len` elements are inside their slices, apart.
    pub unsafe fn copy_contiguous<T: Copy>(
        source: *const T,
        dest: *mut T,
        len: usize,
        _exec: Exec<'_>,
    ) {
        std::ptr::copy_nonoverlapping(source, dest, len);
    }
}
