//! Views that are tested when they are made.

use crate::strided_basic::{Element, GatherIndex, Result, StridedError, ViewElement};
use crate::{StridedMut, StridedRef};

/// A view that is read: extents, strides and offset, in elements, over a
/// slice that holds every cell.
#[derive(Debug)]
pub struct RawStridedRef<'a, T>(StridedRef<'a, T>);

impl<T> Clone for RawStridedRef<'_, T> {
    fn clone(&self) -> Self {
        *self
    }
}

impl<T> Copy for RawStridedRef<'_, T> {}

impl<'a, T> RawStridedRef<'a, T> {
    /// A view of `data`, whose element at coordinates c is at the offset plus
    /// the sum of each coordinate times its stride.
    ///
    /// # Errors
    ///
    /// [`StrideLengthMismatch`](StridedError::StrideLengthMismatch), `RankTooLarge`,
    /// [`OffsetOverflow`](StridedError::OffsetOverflow) of the extents' product or the span, and
    /// [`BufferBounds`](StridedError::BufferBounds) where a cell lies outside the slice. A view
    /// without cells has an offset from 0 to the slice's length.
    ///
    /// ```
    /// use strided::strided_basic::{RawStridedRef, StridedError};
    ///
    /// let cells = [10, 20, 30, 40, 50];
    /// let backwards = RawStridedRef::new(&cells, &[5], &[-1], 4)?;
    /// assert_eq!((backwards.dims(), backwards.offset()), (&[5][..], 4));
    ///
    /// let refusal = RawStridedRef::new(&cells, &[5], &[-1], 3).unwrap_err();
    /// assert_eq!(refusal, StridedError::BufferBounds);
    /// # Ok::<(), StridedError>(())
    /// ```
    pub fn new(
        data: &'a [T],
        dims: &'a [usize],
        strides: &'a [isize],
        offset: isize,
    ) -> Result<Self>
    where
        T: ViewElement,
    {
        StridedError::check(T::tested(data, dims, strides, offset))?;
        Ok(Self(StridedRef::new(data, dims, strides, offset)))
    }

    /// The whole slice that the view lies in.
    pub fn data(&self) -> &'a [T] {
        self.0.data()
    }

    /// The extents.
    pub fn dims(&self) -> &'a [usize] {
        self.0.dims()
    }

    /// The strides, in elements.
    pub fn strides(&self) -> &'a [isize] {
        self.0.strides()
    }

    /// The place of the first coordinate in the slice.
    pub fn offset(&self) -> isize {
        self.0.offset()
    }

    /// The view as the library takes it.
    pub(super) fn own(&self) -> StridedRef<'_, T::Own>
    where
        T: Element,
    {
        let data = T::own(self.data());
        StridedRef::new(data, self.dims(), self.strides(), self.offset())
    }

    /// What is done with the view once its starts are the library's.
    pub(super) fn with_i64<R>(&self, call: impl FnOnce(&StridedRef<'_, i64>) -> R) -> R
    where
        T: GatherIndex,
    {
        let starts = T::all_to_i64(self.data());
        let view = StridedRef::new(&starts, self.dims(), self.strides(), self.offset());
        call(&view)
    }
}

/// A view that is written, over a slice that is lent for that alone and holds
/// every cell.
#[derive(Debug)]
pub struct RawStridedMut<'a, T>(StridedMut<'a, T>);

impl<'a, T> RawStridedMut<'a, T> {
    /// A view of `data`, with the places of [`RawStridedRef::new`].
    ///
    /// # Errors
    ///
    /// As [`RawStridedRef::new`].
    ///
    /// ```
    /// use strided::strided_basic::{RawStridedMut, StridedError};
    ///
    /// let mut cells = [0; 6];
    /// let refusal = RawStridedMut::new(&mut cells, &[2, 3], &[1, 2], 1).unwrap_err();
    /// assert_eq!(refusal, StridedError::BufferBounds);
    /// assert_eq!(RawStridedMut::new(&mut cells, &[2, 3], &[1, 2], 0)?.data().len(), 6);
    /// # Ok::<(), StridedError>(())
    /// ```
    pub fn new(
        data: &'a mut [T],
        dims: &'a [usize],
        strides: &'a [isize],
        offset: isize,
    ) -> Result<Self>
    where
        T: ViewElement,
    {
        StridedError::check(T::tested(data, dims, strides, offset))?;
        Ok(Self(StridedMut::new(data, dims, strides, offset)))
    }

    /// The whole slice that the view lies in.
    pub fn data(&self) -> &[T] {
        self.0.data()
    }

    /// The whole slice that the view lies in, to be written.
    pub fn data_mut(&mut self) -> &mut [T] {
        self.0.data_mut()
    }

    /// The extents.
    pub fn dims(&self) -> &'a [usize] {
        self.0.dims()
    }

    /// The strides, in elements.
    pub fn strides(&self) -> &'a [isize] {
        self.0.strides()
    }

    /// The place of the first coordinate in the slice.
    pub fn offset(&self) -> isize {
        self.0.offset()
    }

    /// The view as the library takes it.
    pub(super) fn own(&mut self) -> StridedMut<'_, T::Own>
    where
        T: Element,
    {
        let (dims, strides, offset) = (self.dims(), self.strides(), self.offset());
        StridedMut::new(T::own_mut(self.data_mut()), dims, strides, offset)
    }
}
