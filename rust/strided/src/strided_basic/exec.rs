//! Who does the work of a call.

use core::marker::PhantomData;

/// Who does the work of a call: the thread that makes it.
///
/// ```
/// use strided::strided_basic::Exec;
///
/// let mut exec = Exec::serial();
/// assert!(exec.reborrow().is_serial());
/// ```
#[derive(Debug)]
pub struct Exec<'a>(PhantomData<&'a mut ()>);

impl Exec<'_> {
    /// The calling thread.
    pub fn serial() -> Self {
        Self(PhantomData)
    }

    /// Whether the calling thread does all of it: always.
    pub fn is_serial(&self) -> bool {
        true
    }

    /// The same, for one call of several.
    pub fn reborrow(&mut self) -> Exec<'_> {
        Exec(PhantomData)
    }
}
