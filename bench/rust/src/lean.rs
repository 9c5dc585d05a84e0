//! Two stand-ins other than the differential run's, so that the Rust is not
//! charged for theirs: a copy of the operand with raw pointers, which does
//! nothing where a scatter has no operand of its own, and a layout test
//! without a heap.

pub mod copy_plan {
    pub use crate::stubs::copy_plan::{replay_fused_raw, OverwriteWriter, ReadModifyWrite};
    use crate::stubs::fused::{self, FusedAxis};
    use crate::stubs::{Exec, RawStridedMut, RawStridedRef, Result, RAW_FUSED_RANK_LIMIT};
    use std::mem::MaybeUninit;

    #[derive(Clone, Debug)]
    pub enum CopyPlan {
        /// Without an operand the library adds to the destination as it
        /// stands, and so does the Rust here.
        Nothing,
        /// Over so many axes that the Rust's `fuse_axes` has merged.
        Axes([FusedAxis; RAW_FUSED_RANK_LIMIT], usize),
    }

    impl CopyPlan {
        /// A scatter without an operand lends the destination's own strides.
        pub fn compile(dims: &[usize], dest: &[isize], source: &[isize]) -> Result<Self> {
            if std::ptr::eq(dest, source) || fused::cells(dims)? == 0 {
                return Ok(CopyPlan::Nothing);
            }
            let (axes, rank) = fused::axes(dims, dest, source);
            Ok(CopyPlan::Axes(axes, rank))
        }

        pub fn execute<T: Copy>(
            &self,
            dest: &mut RawStridedMut<'_, T>,
            source: &RawStridedRef<'_, T>,
            _exec: Exec<'_>,
        ) -> Result<()> {
            if let CopyPlan::Axes(axes, rank) = self {
                let from = source.data.as_ptr().wrapping_offset(source.offset);
                let to = dest.data.as_mut_ptr().wrapping_offset(dest.offset);
                // SAFETY: both slices were made with room for their layouts.
                unsafe { copy(&axes[..*rank], from, to) };
            }
            Ok(())
        }

        /// Only calls into memory that is not set yet come here: none do.
        pub fn execute_uninit_then<'a, T, R>(
            &self,
            _dest: &'a mut RawStridedMut<'a, MaybeUninit<T>>,
            _source: &RawStridedRef<'_, T>,
            _exec: Exec<'_>,
            _then: impl FnOnce(RawStridedMut<'a, T>, Exec<'_>) -> R,
        ) -> Result<R> {
            unreachable!()
        }
    }

    /// The last axis outside, the first as a run: in one piece where both
    /// sides go by 1.
    ///
    /// # Safety
    /// Every cell lies inside its slice.
    unsafe fn copy<T: Copy>(axes: &[FusedAxis], from: *const T, to: *mut T) {
        match axes {
            [] => {}
            [run] if run.src == 1 && run.dst == 1 => {
                std::ptr::copy_nonoverlapping(from, to, run.dim);
            }
            [run] => {
                for n in 0..run.dim as isize {
                    *to.offset(n * run.dst) = *from.offset(n * run.src);
                }
            }
            [inner @ .., outer] => {
                for n in 0..outer.dim as isize {
                    copy(inner, from.offset(n * outer.src), to.offset(n * outer.dst));
                }
            }
        }
    }
}

pub mod layout_check {
    /// Nested, for at most eight axes: extents of 1 left out and the rest
    /// ordered by magnitude of stride, each magnitude exceeds the sum of
    /// magnitude times (extent - 1) over those before it.
    pub fn is_injective_layout(dims: &[usize], strides: &[isize]) -> bool {
        if dims.contains(&0) {
            return true;
        }
        let mut room = [(0usize, 0usize); 8];
        let mut count = 0;
        for (&dim, &stride) in dims.iter().zip(strides) {
            if dim != 1 {
                room[count] = (stride.unsigned_abs(), dim - 1);
                count += 1;
            }
        }
        let axes = &mut room[..count];
        axes.sort_unstable();
        let mut reach = 0usize;
        for &mut (magnitude, last) in axes {
            if magnitude <= reach {
                return false;
            }
            reach = reach.saturating_add(magnitude.saturating_mul(last));
        }
        true
    }
}
