//! The elements that the calls are made for: the library's own, and elements
//! whose `+` is a rule, by which the Rust and the plain loop go.

use crate::rules::{Lowest, Replace};
use std::ops::Add;
use std::slice;
use strided::Rule;

pub trait Element: Copy + PartialEq + Add<Output = Self> + Send + Sync + 'static {
    const NAME: &'static str;
    /// What `+` is, for the library.
    const RULE: Rule;
    /// What the library is lent.
    type Lent: strided::Element;
    /// What stands at the place `n` of a slice.
    fn of(n: usize) -> Self;
    fn lent(slice: &[Self]) -> &[Self::Lent];
    fn lent_mut(slice: &mut [Self]) -> &mut [Self::Lent];
}

macro_rules! plain {
    ($element:ident) => {
        impl Element for $element {
            const NAME: &'static str = stringify!($element);
            const RULE: Rule = Rule::Add;
            type Lent = $element;

            fn of(n: usize) -> $element {
                (n % 1000) as $element
            }

            fn lent(slice: &[$element]) -> &[$element] {
                slice
            }

            fn lent_mut(slice: &mut [$element]) -> &mut [$element] {
                slice
            }
        }
    };
}

plain!(i32);
plain!(f64);

macro_rules! ruled {
    ($rule:ident) => {
        impl<T> Element for $rule<T>
        where
            T: Element<Lent = T> + strided::Element + PartialOrd,
        {
            const NAME: &'static str = T::NAME;
            const RULE: Rule = Rule::$rule;
            type Lent = T;

            fn of(n: usize) -> Self {
                $rule(T::of(mixed(n)))
            }

            fn lent(slice: &[Self]) -> &[T] {
                // SAFETY: the type is `repr(transparent)`: each element is a `T`.
                unsafe { slice::from_raw_parts(slice.as_ptr().cast(), slice.len()) }
            }

            fn lent_mut(slice: &mut [Self]) -> &mut [T] {
                // SAFETY: as above.
                unsafe { slice::from_raw_parts_mut(slice.as_mut_ptr().cast(), slice.len()) }
            }
        }
    };
}

ruled!(Lowest);
ruled!(Replace);

/// A number without order from place to place, so that no comparison can be
/// foretold.
fn mixed(n: usize) -> usize {
    let n = (n as u64).wrapping_mul(0x9e37_79b9_7f4a_7c15);
    (n ^ n >> 29).wrapping_mul(0xbf58_476d_1ce4_e5b9) as usize >> 32
}
