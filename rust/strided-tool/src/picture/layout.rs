//! Where everything stands in a picture: cells with the numbers of rows and columns, the title above, and to the right the bar.

use super::canvas::{text_width, Box, Canvas, TEXT_HEIGHT};
use super::colours::colour_of;
use super::field::{lowest, Drawn, Place};
use super::ticks::{self, Tick};
use super::{Settings, Sizes};
use crate::window::Scale;

const MARGIN: usize = 12;
/// Between a text and what it stands beside.
pub const GAP: usize = 6;
/// The length of a short line between a number and what it numbers.
pub const TICK: usize = 5;
/// The width of the bar.
pub const BAR: usize = 24;
/// The bar is at least so high, also beside a low picture.
const LOW_BAR: usize = 160;

/// A picture's parts.
pub struct Layout<'a> {
    /// What is drawn.
    pub place: Place,
    /// How large.
    pub sizes: Sizes,
    scale: Scale,
    title: &'a str,
    /// Empty where there are none.
    pub units: &'a str,
    /// The numbers beside the bar.
    pub ticks: Vec<Tick>,
    /// Where the cells stand.
    pub cells: Box,
    /// Where the bar stands.
    pub bar: Box,
    /// Where the colour of NaN stands.
    pub nan: Option<Box>,
}

impl<'a> Layout<'a> {
    /// Places everything, the colour of NaN where there is one.
    pub fn new(
        place: Place,
        sizes: Sizes,
        scale: Scale,
        nan: bool,
        settings: &'a Settings,
    ) -> Layout<'a> {
        let cells = cells(place, sizes, settings);
        let bar = Box {
            x: cells.right().saturating_add(to_the_bar(place)),
            y: cells.y,
            width: BAR,
            height: cells.height.max(LOW_BAR),
        };
        let nan = nan.then(|| Box {
            y: bar.bottom().saturating_add(MARGIN.saturating_mul(2)),
            height: BAR,
            ..bar
        });
        Layout {
            place,
            sizes,
            scale,
            title: settings.title.as_str(),
            units: settings.units.as_str(),
            ticks: ticks::of_values(scale),
            cells,
            bar,
            nan,
        }
    }

    /// A sheet with everything but the cells; none where there is no memory for it.
    pub fn sheet(&self) -> Option<Canvas> {
        let mut canvas = self.canvas()?;
        canvas.text(self.cells.x, MARGIN, self.title);
        canvas.frame(self.cells);
        self.number_rows(&mut canvas);
        self.number_columns(&mut canvas);
        self.draw_bar(&mut canvas);
        Some(canvas)
    }

    fn canvas(&self) -> Option<Canvas> {
        let beside = self.bar.right().checked_add(TICK.saturating_add(GAP))?;
        let numbers = self.ticks.iter().map(|tick| (beside, tick.text.as_str()));
        let others = [
            (beside, "NaN"),
            (self.bar.x, self.units),
            (self.cells.x, self.title),
        ];
        let right = numbers
            .chain(others)
            .map(|(x, text)| x.saturating_add(text_width(text)))
            .max()?;
        let lowest = self.nan.unwrap_or(self.bar).bottom();
        let bottom = lowest.max(self.cells.bottom());
        Canvas::new(right.checked_add(MARGIN)?, bottom.checked_add(MARGIN)?)
    }

    /// Draws the cells of a part of whole squares.
    pub fn draw_part<T: Drawn>(&self, canvas: &mut Canvas, part: Place, cells: &[T]) {
        let Sizes { across, down, .. } = self.sizes;
        let before = part.column.saturating_sub(self.place.column);
        let above = part.row.saturating_sub(self.place.row);
        let first = Box {
            x: self.cells.x.saturating_add(self.edge(before, across)),
            y: self.cells.y.saturating_add(self.edge(above, down)),
            width: across,
            height: down,
        };
        let side = self.sizes.cells;
        let rows = cells.chunks(part.columns.saturating_mul(side).max(1));
        for (row, cells) in (0_usize..).zip(rows) {
            let y = first.y.saturating_add(row.saturating_mul(down));
            let squares = lowest(cells, part.columns, side);
            self.draw_squares(canvas, Box { y, ..first }, &squares);
        }
    }

    /// Draws squares from the first to the right.
    fn draw_squares(&self, canvas: &mut Canvas, first: Box, squares: &[f64]) {
        for (column, value) in (0_usize..).zip(squares) {
            let x = first.x.saturating_add(column.saturating_mul(first.width));
            canvas.fill(Box { x, ..first }, colour_of(*value, self.scale));
        }
    }

    /// Pixels to the square with the cell that comes after so many others, where a square takes so many pixels.
    pub fn edge(&self, cells: usize, pixels: usize) -> usize {
        let square = cells.checked_div(self.sizes.cells).unwrap_or(0);
        square.saturating_mul(pixels)
    }
}

/// Where the cells stand: with room for the numbers of rows and columns, the units and the title.
fn cells(place: Place, sizes: Sizes, settings: &Settings) -> Box {
    let row = text_width(&place.last_row().to_string()).saturating_add(GAP.saturating_add(TICK));
    let half_column = text_width(&place.last_column().to_string()) / 2;
    let mut y = MARGIN.saturating_add(TEXT_HEIGHT.saturating_add(GAP).saturating_add(TICK));
    if !settings.title.as_str().is_empty() {
        y = y.saturating_add(TEXT_HEIGHT.saturating_add(MARGIN));
    }
    if !settings.units.as_str().is_empty() {
        y = y.saturating_add(GAP);
    }
    let squares = |count: usize| count.div_ceil(sizes.cells.max(1));
    Box {
        x: MARGIN.saturating_add(row.max(half_column)),
        y,
        width: squares(place.columns).saturating_mul(sizes.across),
        height: squares(place.rows).saturating_mul(sizes.down),
    }
}

/// From the cells to the bar: at least so much that no column's number stands over the bar.
fn to_the_bar(place: Place) -> usize {
    let half_column = text_width(&place.last_column().to_string()) / 2;
    half_column
        .saturating_add(GAP)
        .max(MARGIN.saturating_mul(2))
}
