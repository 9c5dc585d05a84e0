//! The elements of a grid in the order in which they are printed: last axis fastest, whatever the order in memory.

use super::Grid;

impl<T: Copy> Grid<T> {
    /// The elements, last axis fastest.
    pub fn cells(&self) -> impl Iterator<Item = T> + '_ {
        (0..self.data.len()).filter_map(|number| self.data.get(self.place(number)).copied())
    }

    /// The coordinates of the cell that comes after so many others.
    pub fn coordinates(&self, number: usize) -> Vec<usize> {
        let mut left = number;
        let mut coordinates: Vec<usize> = self
            .shape
            .iter()
            .rev()
            .map(|extent| {
                let coordinate = left.checked_rem(*extent).unwrap_or(0);
                left = left.checked_div(*extent).unwrap_or(0);
                coordinate
            })
            .collect();
        coordinates.reverse();
        coordinates
    }

    /// Where in memory the cell is that comes after so many others.
    fn place(&self, number: usize) -> usize {
        if !self.fortran_order {
            return number;
        }
        let coordinates = self.coordinates(number);
        let axes = self.shape.iter().zip(&coordinates).rev();
        axes.fold(0, |place: usize, (extent, coordinate)| {
            place.saturating_mul(*extent).saturating_add(*coordinate)
        })
    }
}

#[cfg(test)]
mod tests {
    use super::*;

    fn grid(shape: &[usize], fortran_order: bool, data: &[i32]) -> Grid<i32> {
        Grid {
            shape: shape.to_vec(),
            fortran_order,
            data: data.to_vec(),
        }
    }

    #[test]
    fn both_orders_are_walked_alike() {
        let rows = grid(&[2, 3], false, &[1, 2, 3, 4, 5, 6]);
        let columns = grid(&[2, 3], true, &[1, 4, 2, 5, 3, 6]);
        assert!(rows.cells().eq(1..=6));
        assert!(columns.cells().eq(1..=6));
        assert_eq!(rows.coordinates(5), [1, 2]);
    }

    #[test]
    fn grids_of_one_cell_and_of_none() {
        assert!(grid(&[], true, &[7]).cells().eq([7]));
        assert_eq!(grid(&[2, 0], true, &[]).cells().count(), 0);
    }
}
