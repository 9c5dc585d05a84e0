//! NumPy's `.npy` files: a header with element type, order and shape, then the elements in memory order.

mod header;
mod item;
mod places;
mod read;
mod write;

pub use header::{Header, Kind};
pub use item::Item;
pub use read::Opened;
pub use write::write;

/// The elements of a file in memory order, with the shape that its header names.
#[derive(Clone, Debug, PartialEq)]
pub struct Grid<T> {
    /// The extents, one for each axis.
    pub shape: Vec<usize>,
    /// First axis fastest; otherwise last axis fastest.
    pub fortran_order: bool,
    /// The elements in memory order.
    pub data: Vec<T>,
}

/// The product of the extents, if it fits.
pub fn cells(shape: &[usize]) -> Option<usize> {
    shape
        .iter()
        .try_fold(1_usize, |product, extent| product.checked_mul(*extent))
}

/// The extents in words, as `3 x 4`.
pub fn shape_in_words(shape: &[usize]) -> String {
    if shape.is_empty() {
        return "no axes".to_owned();
    }
    let extents: Vec<String> = shape.iter().map(usize::to_string).collect();
    extents.join(" x ")
}
