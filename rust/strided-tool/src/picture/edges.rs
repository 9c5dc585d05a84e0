//! The numbers of rows and columns along the edges of the cells.

use super::canvas::{text_width, Box, Canvas, TEXT_HEIGHT};
use super::colours::INK;
use super::layout::{Layout, GAP, TICK};
use super::ticks;

/// Between the numbers of two rows or columns, at least.
const APART: usize = 14;
/// From a number to its short line.
const NEAR: usize = GAP - 2;

impl Layout<'_> {
    /// Numbers rows, the first and round ones.
    pub fn number_rows(&self, canvas: &mut Canvas) {
        let apart = self.cells_apart(TEXT_HEIGHT, self.sizes.down);
        for row in ticks::of_indices(self.place.row, self.place.last_row(), apart) {
            let above = row.saturating_sub(self.place.row);
            let line = Box {
                x: self.cells.x.saturating_sub(TICK),
                y: self
                    .cells
                    .y
                    .saturating_add(self.middle(above, self.sizes.down)),
                width: TICK,
                height: 1,
            };
            canvas.fill(line, INK);
            let text = row.to_string();
            let room = text_width(&text).saturating_add(NEAR);
            let y = line.y.saturating_sub(TEXT_HEIGHT / 2);
            canvas.text(line.x.saturating_sub(room), y, &text);
        }
    }

    /// Numbers columns, the first and round ones.
    pub fn number_columns(&self, canvas: &mut Canvas) {
        let last = self.place.last_column();
        let widest = text_width(&last.to_string());
        let apart = self.cells_apart(widest, self.sizes.across);
        for column in ticks::of_indices(self.place.column, last, apart) {
            let before = column.saturating_sub(self.place.column);
            let line = Box {
                x: self
                    .cells
                    .x
                    .saturating_add(self.middle(before, self.sizes.across)),
                y: self.cells.y.saturating_sub(TICK),
                width: 1,
                height: TICK,
            };
            canvas.fill(line, INK);
            let text = column.to_string();
            let x = line.x.saturating_sub(text_width(&text) / 2);
            let y = line.y.saturating_sub(TEXT_HEIGHT.saturating_add(NEAR));
            canvas.text(x, y, &text);
        }
    }

    /// The middle of the square with the cell that comes after so many others, where a square takes so many pixels.
    fn middle(&self, cells: usize, pixels: usize) -> usize {
        self.edge(cells, pixels).saturating_add(pixels / 2)
    }

    /// How many cells lie at least from one number to the next, which takes so much room.
    fn cells_apart(&self, room: usize, pixels: usize) -> usize {
        let squares = room.saturating_add(APART).div_ceil(pixels.max(1));
        squares.saturating_mul(self.sizes.cells)
    }
}
