//! `strided show`.

use std::path::Path;

use strided::{Done, Element, GatherPlan, GatherSpec, StridedMut, StridedRef, ViewLayout};

use super::packed::layout_of;
use super::Report;
use crate::cli::ShowArgs;
use crate::failure::{Failure, Outcome};
use crate::npy::{shape_in_words, Grid, Header, Item, Kind, Opened};
use crate::output::{self, Output};
use crate::picture::{self, Drawn, Field, Place, Settings};
use crate::refusal::{refused, Known};
use crate::window::{Origin, Span, Window};

pub fn run(args: &ShowArgs, report: &mut Report) -> Outcome<()> {
    output::is_apart(&args.out, &[("the grid", &args.grid)])?;
    let output = Output::claim(&args.out, args.lock.patience())?;
    let opened = Opened::open(&args.grid)?;
    let place = place(args, opened.header())?;
    match opened.header().kind {
        Kind::I32 => show::<i32>(args, place, opened, output, report),
        Kind::F64 => show::<f64>(args, place, opened, output, report),
        Kind::I64 => Err(Failure::of_file(
            &args.grid,
            "it holds i64; grids of i32 and f64 are drawn",
        )),
    }
}

/// The rows and columns that are drawn, as the user numbers them.
fn place(args: &ShowArgs, header: &Header) -> Outcome<Place> {
    let [rows, columns] = header.shape.as_slice() else {
        let shape = shape_in_words(&header.shape);
        return Err(Failure::of_file(
            &args.grid,
            format_args!("its shape is {shape}; a grid of two axes is drawn"),
        ));
    };
    if *rows == 0 || *columns == 0 {
        return Err(Failure::of_file(&args.grid, "it has no cells to draw"));
    }
    let whole = Span {
        from: None,
        to: None,
    };
    let window = args.window.unwrap_or(Window {
        rows: whole,
        columns: whole,
    });
    let Origin { row, column } = args.origin;
    let within = |span: Span, first, extent, of| {
        span.within(first, extent, of)
            .map_err(|why| Failure::of_file(&args.grid, why))
    };
    let (row, rows) = within(window.rows, row, *rows, "rows")?;
    let (column, columns) = within(window.columns, column, *columns, "columns")?;
    Ok(Place {
        row,
        rows,
        column,
        columns,
    })
}

fn show<T: Element + Item + Drawn>(
    args: &ShowArgs,
    place: Place,
    opened: Opened,
    output: Output,
    report: &mut Report,
) -> Outcome<()> {
    let settings = Settings {
        scale: args.scale,
        cell: args.cell,
        title: args.title.clone().unwrap_or_default(),
        units: args.units.clone().unwrap_or_default(),
    };
    let numbered: Numbered<'_, T> = Numbered {
        path: &args.grid,
        grid: opened.elements()?,
        origin: args.origin,
    };
    let picture = picture::draw(&numbered, place, &settings)?;
    drop(numbered);
    output.write(|file| picture.write(file))?;
    for line in picture.in_words() {
        report.say(&format!("{}: {line}", args.out.display()));
    }
    Ok(())
}

/// A grid with the numbers of its first row and column.
struct Numbered<'a, T> {
    path: &'a Path,
    grid: Grid<T>,
    origin: Origin,
}

impl<T: Element + Item + Drawn> Field for Numbered<'_, T> {
    type Cell = T;

    fn read(&self, part: Place, cells: &mut Vec<T>) -> Outcome<()> {
        let whole = layout_of(&self.grid.shape, self.grid.fortran_order);
        let layouts = whole.zip(ViewLayout::row_major(&[part.rows, part.columns]));
        let more = part.cells().saturating_sub(cells.len());
        let (Some((operand, dest)), Ok(())) = (layouts, cells.try_reserve_exact(more)) else {
            let why = "there is no memory for its window";
            return Err(Failure::of_file(self.path, why));
        };
        cells.resize(part.cells(), T::default());
        self.gather(part, &operand, &dest, cells)
            .map(drop)
            .map_err(|error| refused(&self.path.display().to_string(), error, &Known::default()))
    }
}

impl<T: Element + Item> Numbered<'_, T> {
    /// The library gathers the cells of a part.
    fn gather(
        &self,
        part: Place,
        operand: &ViewLayout,
        dest: &ViewLayout,
        cells: &mut [T],
    ) -> strided::Result<Done> {
        let spec = GatherSpec {
            offset_dims: vec![0, 1],
            collapsed_slice_dims: Vec::new(),
            start_index_map: vec![0, 1],
            index_vector_dim: 0,
            slice_sizes: vec![part.rows, part.columns],
        };
        let plan = GatherPlan::compile(
            &operand.dims,
            &operand.strides,
            &[2],
            &[1],
            &dest.dims,
            &dest.strides,
            spec,
        )?;
        let row = part.row.saturating_sub(self.origin.row);
        let column = part.column.saturating_sub(self.origin.column);
        let starts = [row, column].map(|start| i64::try_from(start).unwrap_or(i64::MAX));
        plan.execute(
            &mut StridedMut::new(cells, &dest.dims, &dest.strides, 0),
            &operand.view(&self.grid.data),
            &StridedRef::new(&starts, &[2], &[1], 0),
        )
    }
}
