//! The two types of element.

use core::fmt::Debug;

use crate::calls::Calls;
use crate::{Rule, RuleF64};

/// The type of the elements of a grid, as a stored job names it.
#[derive(Clone, Copy, Debug, Eq, Hash, PartialEq)]
pub enum ElementType {
    /// `i32`, whose sums wrap modulo 2^32.
    I32,
    /// `f64`, whose sums round one by one.
    F64,
}

impl ElementType {
    /// The number that a stored job has for it.
    pub(crate) fn number(self) -> u64 {
        match self {
            Self::I32 => 1,
            Self::F64 => 2,
        }
    }
}

/// A type of element that can be gathered and scattered: `i32` or `f64`.
///
/// It is not for others to implement.
///
/// ```
/// use strided::{Element, ElementType};
///
/// fn name<T: Element>() -> &'static str {
///     match T::TYPE {
///         ElementType::I32 => "i32",
///         ElementType::F64 => "f64",
///     }
/// }
/// assert_eq!(name::<f64>(), "f64");
/// ```
pub trait Element: Copy + Calls {
    /// Which of the two it is.
    const TYPE: ElementType;

    /// The rules by which updates of this type are put on a grid: [`Rule`] for
    /// `i32`, [`RuleF64`] for `f64`.
    type Rule: Copy + Debug + Default + PartialEq + From<Rule>;
}

impl Element for i32 {
    const TYPE: ElementType = ElementType::I32;
    type Rule = Rule;
}

impl Element for f64 {
    const TYPE: ElementType = ElementType::F64;
    type Rule = RuleF64;
}
