//! Layouts of whole files.

use strided::ViewLayout;

use crate::npy::Header;

/// In which order a layout is packed.
#[derive(Clone, Copy, Debug, Eq, PartialEq)]
pub enum Packed {
    /// First axis fastest.
    First,
    /// Last axis fastest.
    Last,
    /// Both at once, as with one axis.
    Both,
}

impl Packed {
    /// Whether a file in this order has its elements so.
    pub fn is(self, fortran_order: bool) -> bool {
        match self {
            Packed::First => fortran_order,
            Packed::Last => !fortran_order,
            Packed::Both => true,
        }
    }

    /// How a file in this order is written.
    pub fn fortran_order(self) -> bool {
        self == Packed::First
    }

    /// The order in words, where the axes have one.
    pub fn in_words(self) -> &'static str {
        match self {
            Packed::First => ", first axis fastest",
            Packed::Last => ", last axis fastest",
            Packed::Both => "",
        }
    }
}

/// The layout of a whole file; none where a stride does not fit.
pub fn layout_of(shape: &[usize], fortran_order: bool) -> Option<ViewLayout> {
    if fortran_order {
        ViewLayout::column_major(shape)
    } else {
        ViewLayout::row_major(shape)
    }
}

/// The order of a file, as a layout of its shape has it.
pub fn order_of(header: &Header) -> Option<Packed> {
    packed_order(&layout_of(&header.shape, header.fortran_order)?)
}

/// The order in which a layout is packed, from the slice's beginning and without gaps.
pub fn packed_order(layout: &ViewLayout) -> Option<Packed> {
    if layout.offset != 0 || layout.dims.len() != layout.strides.len() {
        return None;
    }
    let first = same_places(layout, ViewLayout::column_major(&layout.dims));
    let last = same_places(layout, ViewLayout::row_major(&layout.dims));
    match (first, last) {
        (true, true) => Some(Packed::Both),
        (true, false) => Some(Packed::First),
        (false, true) => Some(Packed::Last),
        (false, false) => None,
    }
}

/// Whether two layouts of the same extents name the same places: strides count along axes of more than one cell alone.
fn same_places(layout: &ViewLayout, packed: Option<ViewLayout>) -> bool {
    let Some(packed) = packed else {
        return false;
    };
    layout.dims.contains(&0)
        || layout
            .dims
            .iter()
            .zip(layout.strides.iter().zip(&packed.strides))
            .all(|(extent, (stride, other))| *extent == 1 || stride == other)
}

#[cfg(test)]
mod tests {
    use super::*;

    fn layout(dims: &[usize], strides: &[isize], offset: isize) -> ViewLayout {
        ViewLayout {
            dims: dims.to_vec(),
            strides: strides.to_vec(),
            offset,
        }
    }

    #[test]
    fn packed_layouts() {
        let order = |dims: &[usize], strides: &[isize]| packed_order(&layout(dims, strides, 0));
        assert_eq!(order(&[3, 4], &[1, 3]), Some(Packed::First));
        assert_eq!(order(&[3, 4], &[4, 1]), Some(Packed::Last));
        assert_eq!(order(&[3, 4], &[8, 2]), None);
        assert_eq!(order(&[3, 4], &[8]), None);
        assert_eq!(order(&[7], &[1]), Some(Packed::Both));
        assert_eq!(order(&[1, 7], &[99, 1]), Some(Packed::Both));
        assert_eq!(order(&[], &[]), Some(Packed::Both));
        assert_eq!(order(&[0, 7], &[5, 5]), Some(Packed::Both));
        assert_eq!(packed_order(&layout(&[3], &[1], 1)), None);
    }
}
