//! A canvas of pixels.

use super::colours::{Colour, INK, PAPER};
use super::font;

/// Pixels along a dot of the font.
const DOT: usize = 2;
/// The height of a line of text in pixels; some letters go a little below it.
pub const TEXT_HEIGHT: usize = font::HEIGHT * DOT;
/// From one letter to the next.
const LETTER: usize = (font::WIDTH + 1) * DOT;

/// A rectangle of pixels.
#[derive(Clone, Copy, Debug, Eq, PartialEq)]
pub struct Box {
    /// The left edge.
    pub x: usize,
    /// The upper edge.
    pub y: usize,
    /// How wide.
    pub width: usize,
    /// How high.
    pub height: usize,
}

impl Box {
    /// Past the right edge.
    pub fn right(&self) -> usize {
        self.x.saturating_add(self.width)
    }

    /// Past the lower edge.
    pub fn bottom(&self) -> usize {
        self.y.saturating_add(self.height)
    }
}

/// Pixels, row by row.
pub struct Canvas {
    width: usize,
    height: usize,
    pixels: Vec<Colour>,
}

impl Canvas {
    /// A sheet of paper; none where there is no memory for it.
    pub fn new(width: usize, height: usize) -> Option<Canvas> {
        let count = width.checked_mul(height)?;
        let mut pixels = Vec::new();
        pixels.try_reserve_exact(count).ok()?;
        pixels.resize(count, PAPER);
        Some(Canvas {
            width,
            height,
            pixels,
        })
    }

    /// Pixels across.
    pub fn width(&self) -> usize {
        self.width
    }

    /// Pixels down.
    pub fn height(&self) -> usize {
        self.height
    }

    /// The bytes of each row.
    pub fn rows(&self) -> impl Iterator<Item = &[u8]> {
        self.pixels
            .chunks(self.width.max(1))
            .map(<[Colour]>::as_flattened)
    }

    /// Fills a rectangle; what is past the canvas is left out.
    pub fn fill(&mut self, place: Box, colour: Colour) {
        let rows = self
            .pixels
            .chunks_mut(self.width.max(1))
            .skip(place.y)
            .take(place.height);
        for row in rows {
            for pixel in row.iter_mut().skip(place.x).take(place.width) {
                *pixel = colour;
            }
        }
    }

    /// A line around a rectangle, just outside it.
    pub fn frame(&mut self, place: Box) {
        let (x, y) = (place.x.saturating_sub(1), place.y.saturating_sub(1));
        let (right, bottom) = (place.right(), place.bottom());
        let width = right.saturating_sub(x).saturating_add(1);
        let height = bottom.saturating_sub(y).saturating_add(1);
        let across = |y| Box {
            x,
            y,
            width,
            height: 1,
        };
        let down = |x| Box {
            x,
            y,
            width: 1,
            height,
        };
        for line in [across(y), across(bottom), down(x), down(right)] {
            self.fill(line, INK);
        }
    }

    /// Letters from a place to the right and down.
    pub fn text(&mut self, x: usize, y: usize, text: &str) {
        for (number, letter) in (0_usize..).zip(text.chars()) {
            let left = x.saturating_add(number.saturating_mul(LETTER));
            self.letter(left, y, letter);
        }
    }

    fn letter(&mut self, x: usize, y: usize, letter: char) {
        for (row, dots) in (0_usize..).zip(font::rows(letter).unwrap_or_default()) {
            for column in 0..font::WIDTH {
                let dot = font::WIDTH.saturating_sub(column).saturating_sub(1);
                if dots >> dot & 1 == 1 {
                    let x = x.saturating_add(column.saturating_mul(DOT));
                    let y = y.saturating_add(row.saturating_mul(DOT));
                    let place = Box {
                        x,
                        y,
                        width: DOT,
                        height: DOT,
                    };
                    self.fill(place, INK);
                }
            }
        }
    }
}

/// The width of a text in pixels.
pub fn text_width(text: &str) -> usize {
    let letters = text.chars().count();
    letters.saturating_mul(LETTER).saturating_sub(DOT)
}
