//! Destinations that no file gives.

use strided::ViewLayout;

use super::packed::packed_order;
use super::stored::Stored;
use crate::failure::Outcome;
use crate::npy::{cells, shape_in_words, Grid, Item};

/// A destination of zeros.
pub fn fresh<T: Item>(stored: &Stored, dest: &ViewLayout) -> Outcome<Grid<T>> {
    let order = packed_order(dest).ok_or_else(|| {
        let why = "its dest is not packed, so that there may be elements between its cells; give them with --dest";
        stored.unusable(why)
    })?;
    Ok(Grid {
        shape: dest.dims.clone(),
        fortran_order: order.fortran_order(),
        data: zeros(stored, &dest.dims)?,
    })
}

fn zeros<T: Item>(stored: &Stored, dims: &[usize]) -> Outcome<Vec<T>> {
    let mut data = Vec::new();
    let count = cells(dims).filter(|count| data.try_reserve_exact(*count).is_ok());
    match count {
        Some(count) => {
            data.resize(count, T::default());
            Ok(data)
        }
        None => Err(stored.unusable(format_args!(
            "there is no memory for its dest, {}",
            shape_in_words(dims)
        ))),
    }
}
