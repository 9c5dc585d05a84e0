//! The types of element, as the library takes them.

use core::convert::identity;
use core::num::Wrapping;

use crate::ffi::{self, Answer};

/// What a view may hold: an [`Element`], or starts, which are `i32` or `i64`.
///
/// It is not for others to implement.
pub trait ViewElement: Copy + Tested {}

/// A type of element that can be gathered and scattered: `i32`,
/// `Wrapping<i32>` or `f64`. Sums of both types of `i32` wrap modulo 2^32.
///
/// It is not for others to implement.
///
/// ```
/// use std::num::Wrapping;
/// use strided::strided_basic::Element;
///
/// fn is_element<T: Element>(_: T) {}
/// is_element(1);
/// is_element(Wrapping(1));
/// is_element(0.5);
/// ```
pub trait Element: ViewElement + AsLibrary {}

/// The library's answer to a view, whatever it holds.
pub trait Tested: Sized {
    #[doc(hidden)]
    fn tested(data: &[Self], dims: &[usize], strides: &[isize], offset: isize) -> Answer;
}

/// A slice as the library takes it.
pub trait AsLibrary: Sized {
    #[doc(hidden)]
    type Own: crate::Element;

    #[doc(hidden)]
    fn own(data: &[Self]) -> &[Self::Own];

    #[doc(hidden)]
    fn own_mut(data: &mut [Self]) -> &mut [Self::Own];
}

/// The view as the operand of a gather that reads none of it: windows of no
/// cells at a start of no components. (Of a view without axes there is one
/// cell, which is read if it is there.)
macro_rules! tested {
    ($element:ty, $gather:ident, $one:expr, $own:path) => {
        impl Tested for $element {
            fn tested(data: &[Self], dims: &[usize], strides: &[isize], offset: isize) -> Answer {
                let rank = dims.len().min(crate::RANK_LIMIT);
                let (none, axes, at_0) = (&NONE[..rank], &AXES[..rank], &AT_0[..rank]);
                let (extents, strides) = (ffi::words(dims), ffi::steps(strides));
                let offset = offset as i64;
                ffi::$gather(
                    extents,
                    strides,
                    &[0],
                    &[0],
                    none,
                    at_0,
                    axes,
                    &[],
                    &[],
                    0,
                    none,
                    extents,
                    strides,
                    offset,
                    &[0],
                    &[0],
                    0,
                    none,
                    at_0,
                    0,
                    $own(data),
                    &[],
                    &mut [$one],
                )
            }
        }

        impl ViewElement for $element {}
    };
}

const NONE: [u64; crate::RANK_LIMIT] = [0; crate::RANK_LIMIT];
const AXES: [u64; crate::RANK_LIMIT] = [0, 1, 2, 3, 4, 5, 6, 7];
const AT_0: [i64; crate::RANK_LIMIT] = [0; crate::RANK_LIMIT];

tested!(i32, strided_raw_gather_i32, 0, identity);
tested!(Wrapping<i32>, strided_raw_gather_i32, 0, ffi::unwrapped);
tested!(f64, strided_raw_gather_f64, 0.0, identity);
tested!(i64, strided_raw_gather_f64, 0.0, ffi::bits);

macro_rules! own {
    ($element:ty, $own:ty, $read:path, $write:path) => {
        impl AsLibrary for $element {
            type Own = $own;

            fn own(data: &[Self]) -> &[$own] {
                $read(data)
            }

            fn own_mut(data: &mut [Self]) -> &mut [$own] {
                $write(data)
            }
        }

        impl Element for $element {}
    };
}

own!(i32, i32, identity, identity);
own!(Wrapping<i32>, i32, ffi::unwrapped, ffi::unwrapped_mut);
own!(f64, f64, identity, identity);
