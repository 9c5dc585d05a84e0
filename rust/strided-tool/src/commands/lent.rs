//! Files that lend their elements to a call.

use std::fmt::Display;
use std::path::Path;

use strided::{ElementType, Job, ViewLayout};

use super::packed::{layout_of, order_of, packed_order, Packed};
use super::stored::Stored;
use crate::failure::{Failure, Outcome};
use crate::job_text::list;
use crate::npy::{shape_in_words, Grid, Header, Item, Kind, Opened};

/// A file whose header has been read.
pub struct Lent<'a> {
    path: &'a Path,
    opened: Opened,
}

impl<'a> Lent<'a> {
    /// Opens the file of a view.
    pub fn open(path: &'a Path) -> Outcome<Lent<'a>> {
        let opened = Opened::open(path)?;
        Ok(Lent { path, opened })
    }

    /// Its name, as the user gave it.
    pub fn name(&self) -> String {
        self.path.display().to_string()
    }

    /// The element of a call that has no job, where this file is its grid.
    pub fn element(&self) -> Outcome<ElementType> {
        match self.header().kind {
            Kind::I32 => Ok(ElementType::I32),
            Kind::F64 => Ok(ElementType::F64),
            Kind::I64 => Err(self.unusable("it holds i64; grids are of i32 or f64")),
        }
    }

    /// The failure where the file cannot be used, and why.
    pub fn unusable(&self, why: impl Display) -> Failure {
        Failure::of_file(self.path, why)
    }

    /// What its header says.
    pub fn header(&self) -> &Header {
        self.opened.header()
    }

    /// The layout of all its elements, by its own shape and order.
    pub fn layout(&self) -> Outcome<ViewLayout> {
        let Header {
            shape,
            fortran_order,
            ..
        } = self.header();
        layout_of(shape, *fortran_order).ok_or_else(|| {
            let shape = shape_in_words(shape);
            self.unusable(format_args!("its shape {shape} has too many elements"))
        })
    }

    /// The elements, which are of this type.
    pub fn load<T: Item>(self) -> Outcome<Grid<T>> {
        self.opened.elements()
    }

    /// Refuses elements of another type than the call's, which without a job are those of its grid.
    fn is_of(&self, wanted: Kind, name: &str, stored: &Stored, grid: &str) -> Outcome<()> {
        let found = self.header().kind;
        if found == wanted {
            return Ok(());
        }
        let asked = match wanted {
            Kind::I64 => "starts are i64".to_owned(),
            _ if stored.is_file => format!("the job's {name} is of {wanted}"),
            _ => format!("the {grid} is of {wanted}"),
        };
        let convert = format!("convert it in NumPy with .astype('{}')", wanted.descr());
        let other = match found {
            Kind::I32 | Kind::F64 if stored.is_file && wanted != Kind::I64 => {
                format!(", or make a job of {found}")
            }
            _ => String::new(),
        };
        Err(self.unusable(format_args!(
            "it holds {found}, and {asked}; {convert}{other}"
        )))
    }

    /// Refuses a file that has another shape than the view, or another order.
    fn is_view(&self, name: &str, layout: &ViewLayout) -> Outcome<()> {
        let header = self.header();
        let packed = packed_order(layout);
        let ordered = packed.is_some_and(|order| order.is(header.fortran_order));
        if ordered && header.shape == layout.dims {
            return Ok(());
        }
        let found = shape_in_words(&header.shape);
        let order = order_of(header).map_or("", Packed::in_words);
        let wanted = match packed {
            Some(order) => format!("{}{}", shape_in_words(&layout.dims), order.in_words()),
            None => format!(
                "of extents {}, strides {} and offset {}, as no whole file is",
                list(&layout.dims),
                list(&layout.strides),
                layout.offset
            ),
        };
        Err(self.unusable(format_args!(
            "its shape is {found}{order}, and the job's {name} is {wanted}; nothing was done\n--any-shape takes the file's elements in memory order by the job's layout"
        )))
    }
}

/// Refuses files of other elements than the call's, and, unless any shape will do, of another shape or order than its views. They
/// stand in the order of the views; a destination that is made has no file.
pub fn fit(stored: &Stored, files: &[Option<&Lent<'_>>], any_shape: bool) -> Outcome<()> {
    let element = match stored.job.element() {
        ElementType::I32 => Kind::I32,
        ElementType::F64 => Kind::F64,
    };
    let grid = match (&stored.job, files.last()) {
        (Job::Gather(_), _) => "operand",
        (Job::Scatter(_), Some(None)) => "chart",
        (Job::Scatter(_), _) => "grid",
    };
    for ((name, layout), file) in stored.views().into_iter().zip(files) {
        let Some(file) = file else {
            continue;
        };
        let kind = if name == "index" { Kind::I64 } else { element };
        file.is_of(kind, name, stored, grid)?;
        if !any_shape {
            file.is_view(name, layout)?;
        }
    }
    Ok(())
}
