//! The bar that tells which colour is which value, with the units.

use super::canvas::{Box, Canvas, TEXT_HEIGHT};
use super::colours::{colour_at, INK, NOT_A_NUMBER};
use super::layout::{Layout, BAR, GAP, TICK};

impl Layout<'_> {
    /// Draws the bar with its numbers, the units above it and the colour of NaN below.
    pub fn draw_bar(&self, canvas: &mut Canvas) {
        self.draw_colours(canvas);
        self.number_bar(canvas);
        let room = TEXT_HEIGHT.saturating_add(TICK).saturating_add(GAP);
        let y = self.bar.y.saturating_sub(room.saturating_add(GAP));
        canvas.text(self.bar.x, y, self.units);
        if let Some(place) = self.nan {
            canvas.fill(place, NOT_A_NUMBER);
            canvas.frame(place);
            self.beside(canvas, place.y.saturating_add(BAR / 2), "NaN");
        }
    }

    /// From the last pixel of the bar to the first.
    fn reach(&self) -> usize {
        self.bar.height.saturating_sub(1).max(1)
    }

    /// The low end is above, as depths are read.
    fn draw_colours(&self, canvas: &mut Canvas) {
        for down in 0..self.bar.height {
            let line = Box {
                y: self.bar.y.saturating_add(down),
                height: 1,
                ..self.bar
            };
            canvas.fill(line, colour_at(down as f64 / self.reach() as f64));
        }
        canvas.frame(self.bar);
    }

    /// Numbers stand where there is room for them, the ends first.
    fn number_bar(&self, canvas: &mut Canvas) {
        let mut taken: Vec<usize> = Vec::new();
        for tick in &self.ticks {
            // A share of the bar's height.
            let down = (tick.share * self.reach() as f64).round() as usize;
            let free = |other: &usize| other.abs_diff(down) >= TEXT_HEIGHT.saturating_add(GAP);
            if taken.iter().all(free) {
                self.beside(canvas, self.bar.y.saturating_add(down), &tick.text);
                taken.push(down);
            }
        }
    }

    /// A number beside the bar, with a short line to it.
    fn beside(&self, canvas: &mut Canvas, y: usize, text: &str) {
        let line = Box {
            x: self.bar.right(),
            y,
            width: TICK,
            height: 1,
        };
        canvas.fill(line, INK);
        let x = line.right().saturating_add(GAP);
        canvas.text(x, y.saturating_sub(TEXT_HEIGHT / 2), text);
    }
}
