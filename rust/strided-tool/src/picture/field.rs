//! The cells that are drawn.

use crate::failure::Outcome;
use crate::window::Scale;

/// So many cells are read at a time, or those of one square where these are more.
const PART: usize = 1 << 20;

/// An element that has a colour.
pub trait Drawn: Copy {
    /// Its value.
    fn value(self) -> f64;
}

impl Drawn for i32 {
    fn value(self) -> f64 {
        f64::from(self)
    }
}

impl Drawn for f64 {
    fn value(self) -> f64 {
        self
    }
}

/// A grid whose cells are read part by part.
pub trait Field {
    /// An element.
    type Cell: Drawn;

    /// Puts the cells of a part, row by row, in the place of those that were read before.
    fn read(&self, part: Place, cells: &mut Vec<Self::Cell>) -> Outcome<()>;
}

/// A part of a grid, as its rows and columns are numbered.
#[derive(Clone, Copy, Debug, Eq, PartialEq)]
pub struct Place {
    /// The first row.
    pub row: usize,
    /// How many rows, at least one.
    pub rows: usize,
    /// The first column.
    pub column: usize,
    /// How many columns, at least one.
    pub columns: usize,
}

impl Place {
    /// The last row.
    pub fn last_row(&self) -> usize {
        self.row.saturating_add(self.rows.saturating_sub(1))
    }

    /// The last column.
    pub fn last_column(&self) -> usize {
        self.column.saturating_add(self.columns.saturating_sub(1))
    }

    /// How many cells.
    pub fn cells(&self) -> usize {
        self.rows.saturating_mul(self.columns)
    }

    /// Parts that are small beside a large grid, row by row. No square of so many cells along each side is cut.
    pub fn parts(self, side: usize) -> impl Iterator<Item = Place> {
        let side = side.max(1);
        // Cells along as many squares as there is room for, where each takes so many cells.
        let along = |cells: usize| {
            let squares = PART.checked_div(cells).unwrap_or(1).max(1);
            side.saturating_mul(squares)
        };
        let height = side.min(self.rows);
        let columns = along(side.saturating_mul(height)).min(self.columns).max(1);
        let rows = along(side.saturating_mul(columns));
        let across = (self.column..=self.last_column()).step_by(columns);
        let down = (self.row..=self.last_row()).step_by(rows);
        down.flat_map(move |row| across.clone().map(move |column| (row, column)))
            .map(move |(row, column)| self.part(row, rows, column, columns))
    }

    /// The part that begins there, with at most so many rows and columns.
    fn part(&self, row: usize, rows: usize, column: usize, columns: usize) -> Place {
        let left = |first: usize, last: usize| last.saturating_sub(first).saturating_add(1);
        Place {
            row,
            rows: rows.min(left(row, self.last_row())),
            column,
            columns: columns.min(left(column, self.last_column())),
        }
    }
}

/// What is told of the cells.
#[derive(Default)]
pub struct Summary {
    /// The lowest finite value, if there is one.
    pub low: Option<f64>,
    /// The highest finite value, if there is one.
    pub high: Option<f64>,
    /// How many are NaN.
    pub nan: usize,
    /// How many are infinite.
    pub infinite: usize,
}

fn values<T: Drawn>(cells: &[T]) -> impl Iterator<Item = f64> + '_ {
    cells.iter().map(|cell| cell.value())
}

impl Summary {
    /// Takes more cells in.
    pub fn add<T: Drawn>(&mut self, cells: &[T]) {
        let finite = || values(cells).filter(|value| value.is_finite());
        let nan = values(cells).filter(|value| value.is_nan()).count();
        let infinite = values(cells).filter(|value| value.is_infinite()).count();
        self.low = finite().chain(self.low).reduce(f64::min);
        self.high = finite().chain(self.high).reduce(f64::max);
        self.nan = self.nan.saturating_add(nan);
        self.infinite = self.infinite.saturating_add(infinite);
    }
}

/// How many finite values are outside a scale.
pub fn outside<T: Drawn>(cells: &[T], scale: Scale) -> usize {
    values(cells)
        .filter(|value| value.is_finite() && !(scale.low..=scale.high).contains(value))
        .count()
}

/// The lowest value in each square of a row of squares, so many cells along each side; NaN where all are NaN.
/// The lowest, so that no shoal is lost from a picture of depths.
pub fn lowest<T: Drawn>(cells: &[T], columns: usize, side: usize) -> Vec<f64> {
    let (columns, side) = (columns.max(1), side.max(1));
    let mut squares = vec![f64::NAN; columns.div_ceil(side)];
    for row in cells.chunks(columns) {
        for (lowest, cells) in squares.iter_mut().zip(row.chunks(side)) {
            *lowest = values(cells).fold(*lowest, f64::min);
        }
    }
    squares
}

#[cfg(test)]
mod tests {
    use super::*;

    fn place(rows: usize, columns: usize) -> Place {
        Place {
            row: 7,
            rows,
            column: 18,
            columns,
        }
    }

    /// The parts of a place are whole squares that cover it once, and few of them are in memory.
    fn covered(rows: usize, columns: usize, side: usize) -> Vec<Place> {
        let whole = place(rows, columns);
        let parts: Vec<Place> = whole.parts(side).collect();
        let most = PART.max(side.saturating_mul(side));
        assert!(parts.iter().all(|part| (1..=most).contains(&part.cells())));
        let whole_squares = |before: usize| before.checked_rem(side) == Some(0);
        assert!(parts
            .iter()
            .all(|part| whole_squares(part.row.wrapping_sub(7))
                && whole_squares(part.column.wrapping_sub(18))
                && part.last_row() <= whole.last_row()
                && part.last_column() <= whole.last_column()));
        let cells: usize = parts.iter().map(Place::cells).sum();
        assert_eq!(cells, whole.cells());
        parts
    }

    #[test]
    fn parts_are_small() {
        assert_eq!(covered(12, 30, 1), [place(12, 30)]);
        assert_eq!(covered(12, 30, 7), [place(12, 30)]);
        assert_eq!(covered(5000, 5000, 2).len(), 25);
        assert_eq!(covered(100_000_000, 1, 24415).len(), 98);
        assert_eq!(covered(1, 100_000_000, 24415).len(), 98);
        assert_eq!(covered(10, 100_000_000, 24415).len(), 1024);
        assert!(covered(10_000_000, 3, 2442).len() < 40);
    }

    #[test]
    fn parts_of_the_last_numbers() {
        let last = Place {
            row: usize::MAX - 2,
            rows: 3,
            column: usize::MAX,
            columns: 1,
        };
        assert_eq!(last.parts(1).collect::<Vec<_>>(), [last]);
        let ends = (last.last_row(), last.last_column());
        assert_eq!(ends, (usize::MAX, usize::MAX));
    }

    #[test]
    fn squares_show_the_lowest() {
        let cells = [5.0, f64::NAN, 1.0, 4.0, 7.0, f64::NAN];
        assert_eq!(lowest(&cells, 3, 2), [4.0, 1.0]);
        assert_eq!(lowest(&[3, 1, 2], 3, 1), [3.0, 1.0, 2.0]);
        assert!(lowest(&[f64::NAN; 4], 2, 2).iter().all(|low| low.is_nan()));
    }

    #[test]
    fn a_summary_leaves_out_what_has_no_value() {
        let mut summary = Summary::default();
        summary.add(&[f64::NAN]);
        assert!(summary.low.is_none() && summary.high.is_none());
        summary.add(&[f64::INFINITY, 2.0]);
        summary.add(&[f64::NAN, -1.0, 1.0]);
        assert_eq!((summary.low, summary.high), (Some(-1.0), Some(2.0)));
        assert_eq!((summary.nan, summary.infinite), (2, 1));
    }

    #[test]
    fn what_is_outside_a_scale() {
        let scale = Scale {
            low: 0.0,
            high: 2.0,
        };
        assert_eq!(
            outside(&[-0.5, 0.0, 2.0, 2.5, f64::NAN, f64::INFINITY], scale),
            2
        );
    }
}
