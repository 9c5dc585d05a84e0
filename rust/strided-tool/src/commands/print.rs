//! `strided print`.

use std::fmt::Debug;
use std::fmt::Write;

use super::print_out;
use crate::cli::PrintArgs;
use crate::failure::Outcome;
use crate::npy::{Grid, Item, Kind, Opened};

/// Lines are handed on in pieces of about this many bytes.
const PIECE: usize = 1 << 16;

pub fn run(args: &PrintArgs) -> Outcome<()> {
    let opened = Opened::open(&args.file)?;
    match opened.header().kind {
        Kind::I32 => print::<i32>(opened),
        Kind::I64 => print::<i64>(opened),
        Kind::F64 => print::<f64>(opened),
    }
}

fn print<T: Item + Debug>(opened: Opened) -> Outcome<()> {
    let grid: Grid<T> = opened.elements()?;
    let last = grid.shape.last().map_or(1, |extent| *extent);
    let mut text = String::new();
    for (number, element) in (1_usize..).zip(grid.cells()) {
        let ends = number.checked_rem(last) == Some(0);
        let end = if ends { '\n' } else { ' ' };
        // A string takes everything that is written to it. Debug prints a float so that it is read back the same.
        let _ = write!(text, "{element:?}{end}");
        if text.len() >= PIECE {
            print_out(&text)?;
            text.clear();
        }
    }
    print_out(&text)
}
