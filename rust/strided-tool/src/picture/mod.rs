//! Pictures of a grid's cells, with a bar that shows which colour stands for which value.

mod bar;
mod canvas;
mod colours;
mod edges;
mod field;
mod font;
mod layout;
mod text;
mod ticks;

pub use field::{Drawn, Field, Place};
pub use text::Text;

use std::io::{self, Write};

use canvas::Canvas;
use field::Summary;
use layout::Layout;

use crate::failure::{Failure, Outcome};
use crate::progress::Progress;
use crate::window::Scale;

/// The longer side of a picture's cells, in pixels, where no size of a cell is asked for.
const COMFORTABLE: usize = 640;
/// The shorter side is at least about this long then.
const THIN: usize = 24;
/// The largest size of a cell that is chosen.
const LARGE_CELL: usize = 32;
/// With one pixel for each cell a picture may be as long as this; beyond it cells are put together.
const LONGEST: usize = 4096;
/// With a size that is asked for it may be as long as this.
const LONGEST_ASKED: usize = 8192;

/// What the user asks of a picture.
pub struct Settings {
    /// The values at the ends of the colours.
    pub scale: Option<Scale>,
    /// Pixels along a cell.
    pub cell: Option<usize>,
    /// What stands above the cells.
    pub title: Text,
    /// What stands above the bar.
    pub units: Text,
}

/// A picture, with what is told of it.
pub struct Picture {
    canvas: Canvas,
    place: Place,
    summary: Summary,
    sizes: Sizes,
    outside: usize,
}

/// How large cells are drawn.
#[derive(Clone, Copy, Debug, Eq, PartialEq)]
struct Sizes {
    /// Pixels from left to right of a drawn square.
    across: usize,
    /// Pixels from top to bottom of it.
    down: usize,
    /// Cells along each of its sides.
    cells: usize,
}

/// Draws a part of a field, whose cells are read twice: once for the ends of the scale, and once for the colours.
pub fn draw<F: Field>(field: &F, place: Place, settings: &Settings) -> Outcome<Picture> {
    let sizes = sizes(place, settings.cell).map_err(Failure::Unusable)?;
    let mut summary = Summary::default();
    let look = |_: Place, cells: &[F::Cell]| summary.add(cells);
    each_part(field, place, sizes, "looking at the cells", look)?;
    let scale = settings.scale.unwrap_or(Scale {
        low: summary.low.unwrap_or(0.0),
        high: summary.high.unwrap_or(0.0),
    });
    let layout = Layout::new(place, sizes, scale, summary.nan > 0, settings);
    let mut canvas = layout
        .sheet()
        .ok_or_else(|| Failure::Unusable("there is no memory for the picture".to_owned()))?;
    let mut outside = 0_usize;
    let draw = |part: Place, cells: &[F::Cell]| {
        outside = outside.saturating_add(field::outside(cells, scale));
        layout.draw_part(&mut canvas, part, cells);
    };
    each_part(field, place, sizes, "drawing", draw)?;
    Ok(Picture {
        canvas,
        place,
        summary,
        sizes,
        outside,
    })
}

/// Hands on the cells part by part, so that no second copy of a large grid is made.
fn each_part<F: Field>(
    field: &F,
    place: Place,
    sizes: Sizes,
    what: &str,
    mut take: impl FnMut(Place, &[F::Cell]),
) -> Outcome<()> {
    let in_steps = |cells: usize| u64::try_from(cells).unwrap_or(u64::MAX);
    let mut progress = Progress::new(what, in_steps(place.cells()));
    let mut cells = Vec::new();
    for part in place.parts(sizes.cells) {
        field.read(part, &mut cells)?;
        take(part, &cells);
        progress.advance(in_steps(part.cells()));
    }
    Ok(())
}

fn sizes(place: Place, asked: Option<usize>) -> Result<Sizes, String> {
    let longest = place.rows.max(place.columns);
    match asked {
        Some(0) => Err("--cell is 0; give at least 1 pixel".to_owned()),
        Some(pixels) if longest.saturating_mul(pixels) > LONGEST_ASKED => Err(format!(
            "{longest} cells of {pixels} pixels are more than {LONGEST_ASKED} pixels; give a smaller --cell or --window, or leave --cell out"
        )),
        Some(pixels) => Ok(Sizes {
            across: pixels,
            down: pixels,
            cells: 1,
        }),
        None => Ok(chosen(place, longest)),
    }
}

/// A size that suits the field; a thin one is drawn thicker than its cells are long.
fn chosen(place: Place, longest: usize) -> Sizes {
    let cells = longest.div_ceil(LONGEST).max(1);
    let pixels = COMFORTABLE
        .checked_div(longest)
        .unwrap_or(1)
        .min(LARGE_CELL);
    let along = |count: usize| {
        let thick = THIN.checked_div(count.div_ceil(cells)).unwrap_or(1);
        pixels.max(thick).max(1)
    };
    Sizes {
        across: along(place.columns),
        down: along(place.rows),
        cells,
    }
}

impl Picture {
    /// Writes the picture as PNG.
    pub fn write(&self, output: &mut dyn Write) -> io::Result<()> {
        let too_large = |_| io::Error::new(io::ErrorKind::InvalidInput, "the picture is too large");
        let width = u32::try_from(self.canvas.width()).map_err(too_large)?;
        let height = u32::try_from(self.canvas.height()).map_err(too_large)?;
        let mut encoder = png::Encoder::new(output, width, height);
        encoder.set_color(png::ColorType::Rgb);
        encoder.set_depth(png::BitDepth::Eight);
        let mut writer = encoder.write_header()?;
        let mut stream = writer.stream_writer()?;
        let mut progress = Progress::new("writing the picture", u64::from(height));
        for row in self.canvas.rows() {
            stream.write_all(row)?;
            progress.advance(1);
        }
        stream.finish()?;
        drop(writer);
        Ok(())
    }

    /// What is told of the picture, a line each.
    pub fn in_words(&self) -> Vec<String> {
        let place = self.place;
        let drawn = format!(
            "{} x {} cells, rows {} to {}, columns {} to {}",
            place.rows,
            place.columns,
            place.row,
            place.last_row(),
            place.column,
            place.last_column()
        );
        let size = match self.sizes {
            Sizes { cells: 1, across: 1, down: 1 } => "1 pixel a cell".to_owned(),
            Sizes { cells: 1, across, down } if across == down => format!("{across} pixels a cell"),
            Sizes { cells: 1, across, down } => format!("{down} x {across} pixels a cell"),
            Sizes { cells, .. } => format!(
                "too many for one pixel each: a pixel shows the lowest value of {cells} x {cells} cells"
            ),
        };
        vec![format!("{drawn}, {size}"), self.values_in_words()]
    }

    fn values_in_words(&self) -> String {
        let summary = &self.summary;
        let mut words = match (summary.low, summary.high) {
            (Some(low), Some(high)) => {
                format!("lowest {}, highest {}", exact(low), exact(high))
            }
            _ => "no cell has a finite value".to_owned(),
        };
        let counted = [
            (summary.nan, "NaN"),
            (summary.infinite, "infinite"),
            (self.outside, "outside the scale"),
        ];
        for (count, what) in counted.iter().filter(|(count, _)| *count > 0) {
            words.push_str(&format!(", {count} {what}"));
        }
        words
    }
}

/// A value so that it is read back the same; 0 has no sign.
fn exact(value: f64) -> String {
    if value == 0.0 {
        return "0".to_owned();
    }
    if value.fract() == 0.0 && value.abs() < 1e15 {
        return format!("{value}");
    }
    format!("{value:?}")
}

#[cfg(test)]
mod tests {
    use super::*;

    fn chosen(rows: usize, columns: usize) -> Sizes {
        let place = Place {
            row: 0,
            rows,
            column: 0,
            columns,
        };
        super::chosen(place, rows.max(columns))
    }

    #[test]
    fn sizes_suit_the_field() {
        let sizes = |across, down, cells| Sizes {
            across,
            down,
            cells,
        };
        assert_eq!(chosen(96, 160), sizes(4, 4, 1));
        assert_eq!(chosen(1, 1), sizes(32, 32, 1));
        assert_eq!(chosen(1, 3000), sizes(1, 24, 1));
        assert_eq!(chosen(5000, 9000), sizes(1, 1, 3));
        assert_eq!(chosen(usize::MAX, 1).cells, usize::MAX / 4096 + 1);
    }

    #[test]
    fn values_are_told_exactly() {
        let told = [-0.0, 0.0, -0.04, -3.0, 1e14, 1e300].map(exact);
        assert_eq!(told, ["0", "0", "-0.04", "-3", "100000000000000", "1e300"]);
    }
}
