//! The calls that there are for each type of element.

use crate::ffi::{self, steps, words};
use crate::{
    Done, Element, GatherPlan, OperandScatterPlan, Result, ScatterPlan, StridedMut, StridedRef,
};

/// The calls that there are for each type of element. A user cannot name this
/// trait, so that [`Element`](crate::Element) stays with `i32` and `f64`.
pub trait Calls: Sized {
    #[doc(hidden)]
    fn gather_job(job: &[u8], operand: &[Self], starts: &[i64], dest: &mut [Self]) -> Result<Done>;

    #[doc(hidden)]
    fn scatter_job(job: &[u8], starts: &[i64], updates: &[Self], dest: &mut [Self])
        -> Result<Done>;

    #[doc(hidden)]
    fn raw_gather(
        plan: &GatherPlan,
        dest: &mut StridedMut<'_, Self>,
        operand: &StridedRef<'_, Self>,
        starts: &StridedRef<'_, i64>,
    ) -> Result<Done>;

    #[doc(hidden)]
    fn raw_scatter(
        plan: &ScatterPlan,
        dest: &mut StridedMut<'_, Self>,
        starts: &StridedRef<'_, i64>,
        updates: &StridedRef<'_, Self>,
        rule: <Self as Element>::Rule,
    ) -> Result<Done>
    where
        Self: Element;

    #[doc(hidden)]
    fn raw_operand_scatter(
        plan: &OperandScatterPlan,
        dest: &mut StridedMut<'_, Self>,
        operand: &StridedRef<'_, Self>,
        starts: &StridedRef<'_, i64>,
        updates: &StridedRef<'_, Self>,
        rule: <Self as Element>::Rule,
    ) -> Result<Done>
    where
        Self: Element;
}

/// The calls of one type of element: the functions' names, and how the last two
/// of them take a rule.
macro_rules! calls {
    (
        $element:ty, $gather:ident, $scatter:ident, $raw_gather:ident, $raw_scatter:ident,
        $raw_operand_scatter:ident, $rule:ident => ($($of_rule:expr),+)
    ) => {
        impl Calls for $element {
            fn gather_job(
                job: &[u8],
                operand: &[Self],
                starts: &[i64],
                dest: &mut [Self],
            ) -> Result<Done> {
                Done::of(ffi::$gather(job, operand, starts, dest))
            }

            fn scatter_job(
                job: &[u8],
                starts: &[i64],
                updates: &[Self],
                dest: &mut [Self],
            ) -> Result<Done> {
                Done::of(ffi::$scatter(job, starts, updates, dest))
            }

            fn raw_gather(
                plan: &GatherPlan,
                dest: &mut StridedMut<'_, Self>,
                operand: &StridedRef<'_, Self>,
                starts: &StridedRef<'_, i64>,
            ) -> Result<Done> {
                Done::of(ffi::$raw_gather(
                    words(&plan.operand.dims),
                    steps(&plan.operand.strides),
                    words(&plan.index.dims),
                    steps(&plan.index.strides),
                    words(&plan.dest.dims),
                    steps(&plan.dest.strides),
                    words(&plan.spec.offset_dims),
                    words(&plan.spec.collapsed_slice_dims),
                    words(&plan.spec.start_index_map),
                    plan.spec.index_vector_dim as u64,
                    words(&plan.spec.slice_sizes),
                    words(operand.dims()),
                    steps(operand.strides()),
                    operand.offset() as i64,
                    words(starts.dims()),
                    steps(starts.strides()),
                    starts.offset() as i64,
                    words(dest.dims()),
                    steps(dest.strides()),
                    dest.offset() as i64,
                    operand.data(),
                    starts.data(),
                    dest.data_mut(),
                ))
            }

            fn raw_scatter(
                plan: &ScatterPlan,
                dest: &mut StridedMut<'_, Self>,
                starts: &StridedRef<'_, i64>,
                updates: &StridedRef<'_, Self>,
                $rule: <Self as Element>::Rule,
            ) -> Result<Done> {
                Done::of(ffi::$raw_scatter(
                    $($of_rule,)+
                    words(&plan.index.dims),
                    steps(&plan.index.strides),
                    words(&plan.updates.dims),
                    steps(&plan.updates.strides),
                    words(&plan.dest.dims),
                    steps(&plan.dest.strides),
                    words(&plan.spec.update_window_dims),
                    words(&plan.spec.inserted_window_dims),
                    words(&plan.spec.scatter_dims_to_operand_dims),
                    plan.spec.index_vector_dim as u64,
                    words(starts.dims()),
                    steps(starts.strides()),
                    starts.offset() as i64,
                    words(updates.dims()),
                    steps(updates.strides()),
                    updates.offset() as i64,
                    words(dest.dims()),
                    steps(dest.strides()),
                    dest.offset() as i64,
                    starts.data(),
                    updates.data(),
                    dest.data_mut(),
                ))
            }

            fn raw_operand_scatter(
                plan: &OperandScatterPlan,
                dest: &mut StridedMut<'_, Self>,
                operand: &StridedRef<'_, Self>,
                starts: &StridedRef<'_, i64>,
                updates: &StridedRef<'_, Self>,
                $rule: <Self as Element>::Rule,
            ) -> Result<Done> {
                Done::of(ffi::$raw_operand_scatter(
                    $($of_rule,)+
                    words(&plan.operand.dims),
                    steps(&plan.operand.strides),
                    words(&plan.index.dims),
                    steps(&plan.index.strides),
                    words(&plan.updates.dims),
                    steps(&plan.updates.strides),
                    words(&plan.dest.dims),
                    steps(&plan.dest.strides),
                    words(&plan.spec.update_window_dims),
                    words(&plan.spec.inserted_window_dims),
                    words(&plan.spec.scatter_dims_to_operand_dims),
                    plan.spec.index_vector_dim as u64,
                    words(operand.dims()),
                    steps(operand.strides()),
                    operand.offset() as i64,
                    words(starts.dims()),
                    steps(starts.strides()),
                    starts.offset() as i64,
                    words(updates.dims()),
                    steps(updates.strides()),
                    updates.offset() as i64,
                    words(dest.dims()),
                    steps(dest.strides()),
                    dest.offset() as i64,
                    operand.data(),
                    starts.data(),
                    updates.data(),
                    dest.data_mut(),
                ))
            }
        }
    };
}

calls!(
    i32,
    strided_gather_i32,
    strided_scatter_i32,
    strided_raw_gather_i32,
    strided_raw_scatter_i32,
    strided_raw_scatter_operand_i32,
    rule => (rule.number())
);
calls!(
    f64,
    strided_gather_f64,
    strided_scatter_f64,
    strided_raw_gather_f64,
    strided_raw_scatter_f64,
    strided_raw_scatter_operand_f64,
    rule => (rule.number(), rule.limit())
);
