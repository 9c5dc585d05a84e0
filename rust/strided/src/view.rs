//! Views: a layout, an offset and a slice.

/// A view that is read: extents, strides and offset, in elements, over a
/// slice.
///
/// Nothing is tested when a view is made; a call refuses one that it cannot
/// take.
///
/// ```
/// use strided::StridedRef;
///
/// // The last three of five cells, backwards: 50, 40, 30.
/// let cells = [10, 20, 30, 40, 50];
/// let view = StridedRef::new(&cells, &[3], &[-1], 4);
/// assert_eq!(view.dims(), [3]);
/// assert_eq!(view.offset(), 4);
/// ```
#[derive(Debug)]
pub struct StridedRef<'a, T> {
    data: &'a [T],
    dims: &'a [usize],
    strides: &'a [isize],
    offset: isize,
}

// Derived, these would ask for elements that can be copied.
impl<T> Clone for StridedRef<'_, T> {
    fn clone(&self) -> Self {
        *self
    }
}

impl<T> Copy for StridedRef<'_, T> {}

impl<'a, T> StridedRef<'a, T> {
    /// A view of `data`, whose element at coordinates c is at the offset plus
    /// the sum of each coordinate times its stride.
    pub fn new(data: &'a [T], dims: &'a [usize], strides: &'a [isize], offset: isize) -> Self {
        Self {
            data,
            dims,
            strides,
            offset,
        }
    }

    /// The whole slice that the view lies in.
    pub fn data(&self) -> &'a [T] {
        self.data
    }

    /// The extents.
    pub fn dims(&self) -> &'a [usize] {
        self.dims
    }

    /// The strides, in elements.
    pub fn strides(&self) -> &'a [isize] {
        self.strides
    }

    /// The place of the first coordinate in the slice.
    pub fn offset(&self) -> isize {
        self.offset
    }
}

/// A view that is written, over a slice that is lent for that alone.
///
/// ```
/// use strided::StridedMut;
///
/// let mut cells = [0; 6];
/// let view = StridedMut::new(&mut cells, &[2, 3], &[1, 2], 0);
/// assert_eq!(view.strides(), [1, 2]);
/// assert_eq!(view.data().len(), 6);
/// ```
#[derive(Debug)]
pub struct StridedMut<'a, T> {
    data: &'a mut [T],
    dims: &'a [usize],
    strides: &'a [isize],
    offset: isize,
}

impl<'a, T> StridedMut<'a, T> {
    /// A view of `data`, with the places of [`StridedRef::new`].
    pub fn new(data: &'a mut [T], dims: &'a [usize], strides: &'a [isize], offset: isize) -> Self {
        Self {
            data,
            dims,
            strides,
            offset,
        }
    }

    /// The whole slice that the view lies in.
    pub fn data(&self) -> &[T] {
        self.data
    }

    /// The whole slice that the view lies in, to be written.
    pub fn data_mut(&mut self) -> &mut [T] {
        self.data
    }

    /// The extents.
    pub fn dims(&self) -> &'a [usize] {
        self.dims
    }

    /// The strides, in elements.
    pub fn strides(&self) -> &'a [isize] {
        self.strides
    }

    /// The place of the first coordinate in the slice.
    pub fn offset(&self) -> isize {
        self.offset
    }

    /// The same view, to be read.
    pub fn as_view(&self) -> StridedRef<'_, T> {
        StridedRef::new(self.data, self.dims, self.strides, self.offset)
    }
}

/// A view without its slice, as a stored job holds it.
///
/// ```
/// use strided::ViewLayout;
///
/// let grid = ViewLayout::column_major(&[4, 3]).unwrap();
/// assert_eq!(grid.strides, [1, 4]);
/// let cells = [0.0; 12];
/// assert_eq!(grid.view(&cells).dims(), [4, 3]);
/// ```
#[derive(Clone, Debug, Default, Eq, PartialEq)]
pub struct ViewLayout {
    /// The extents.
    pub dims: Vec<usize>,
    /// The strides, in elements.
    pub strides: Vec<isize>,
    /// The place of the first coordinate in the slice.
    pub offset: isize,
}

impl ViewLayout {
    /// The packed layout with the first axis fastest, the order in which cells
    /// are walked. `None` where a stride does not fit.
    ///
    /// ```
    /// use strided::ViewLayout;
    ///
    /// assert_eq!(ViewLayout::column_major(&[2, 3, 4]).unwrap().strides, [1, 2, 6]);
    /// assert_eq!(ViewLayout::column_major(&[usize::MAX, 2]), None);
    /// ```
    pub fn column_major(dims: &[usize]) -> Option<Self> {
        let strides = packed(dims.iter())?;
        Some(Self {
            dims: dims.to_vec(),
            strides,
            offset: 0,
        })
    }

    /// The packed layout with the last axis fastest. `None` where a stride
    /// does not fit.
    ///
    /// ```
    /// use strided::ViewLayout;
    ///
    /// assert_eq!(ViewLayout::row_major(&[2, 3, 4]).unwrap().strides, [12, 4, 1]);
    /// ```
    pub fn row_major(dims: &[usize]) -> Option<Self> {
        let mut strides = packed(dims.iter().rev())?;
        strides.reverse();
        Some(Self {
            dims: dims.to_vec(),
            strides,
            offset: 0,
        })
    }

    /// The view of a slice by this layout, to be read.
    pub fn view<'a, T>(&'a self, data: &'a [T]) -> StridedRef<'a, T> {
        StridedRef::new(data, &self.dims, &self.strides, self.offset)
    }

    /// The view of a slice by this layout, to be written.
    ///
    /// ```
    /// use strided::ViewLayout;
    ///
    /// // The second row of a grid of two rows.
    /// let row = ViewLayout { dims: vec![3], strides: vec![1], offset: 3 };
    /// let mut grid = [0; 6];
    /// assert_eq!(row.view_mut(&mut grid).offset(), 3);
    /// assert_eq!(row.view(&grid).data().len(), 6);
    /// ```
    pub fn view_mut<'a, T>(&'a self, data: &'a mut [T]) -> StridedMut<'a, T> {
        StridedMut::new(data, &self.dims, &self.strides, self.offset)
    }
}

/// Strides from the fastest axis on. The product of all extents is no stride,
/// and need not fit.
fn packed<'a>(dims: impl Iterator<Item = &'a usize>) -> Option<Vec<isize>> {
    let mut next = Some(1usize);
    dims.map(|&dim| {
        let stride = next?;
        next = stride.checked_mul(dim);
        isize::try_from(stride).ok()
    })
    .collect()
}
