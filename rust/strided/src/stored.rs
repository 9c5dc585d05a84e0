//! A stored job taken apart into its fields.

use crate::{ElementType, GatherJob, GatherSpec, Job, ScatterJob, ScatterSpec, ViewLayout};

/// The fields of a job that have not been taken yet. `None` stands for a field
/// that is cut off or has an unlisted value.
pub struct Fields<'a> {
    rest: &'a [u8],
}

impl<'a> Fields<'a> {
    pub fn new(bytes: &'a [u8]) -> Self {
        Self { rest: bytes }
    }

    /// How many bytes have not been taken.
    pub fn left(&self) -> usize {
        self.rest.len()
    }

    /// The whole job. The count and the version are left to the reader, which
    /// has accepted them.
    pub fn job(&mut self) -> Option<Job> {
        let _count: [u8; 4] = self.take()?;
        let _version = self.byte()?;
        let kind = self.byte()?;
        let element = match self.byte()? {
            1 => ElementType::I32,
            2 => ElementType::F64,
            _ => return None,
        };
        match kind {
            1 => self.gather(element).map(Job::Gather),
            2 => self.scatter(element).map(Job::Scatter),
            _ => None,
        }
    }

    fn gather(&mut self, element: ElementType) -> Option<GatherJob> {
        Some(GatherJob {
            element,
            operand: self.view()?,
            index: self.view()?,
            dest: self.view()?,
            spec: GatherSpec {
                offset_dims: self.list()?,
                collapsed_slice_dims: self.list()?,
                start_index_map: self.list()?,
                index_vector_dim: self.number()?,
                slice_sizes: self.list()?,
            },
        })
    }

    fn scatter(&mut self, element: ElementType) -> Option<ScatterJob> {
        Some(ScatterJob {
            element,
            index: self.view()?,
            updates: self.view()?,
            dest: self.view()?,
            spec: ScatterSpec {
                update_window_dims: self.list()?,
                inserted_window_dims: self.list()?,
                scatter_dims_to_operand_dims: self.list()?,
                index_vector_dim: self.number()?,
            },
        })
    }

    fn view(&mut self) -> Option<ViewLayout> {
        let rank = self.byte()?;
        Some(ViewLayout {
            dims: (0..rank).map(|_| self.number()).collect::<Option<_>>()?,
            strides: (0..rank).map(|_| self.step()).collect::<Option<_>>()?,
            offset: self.step()?,
        })
    }

    fn list(&mut self) -> Option<Vec<usize>> {
        let count = self.byte()?;
        (0..count).map(|_| self.number()).collect()
    }

    fn number(&mut self) -> Option<usize> {
        self.take().map(usize::from_be_bytes)
    }

    fn step(&mut self) -> Option<isize> {
        self.take().map(isize::from_be_bytes)
    }

    fn byte(&mut self) -> Option<u8> {
        self.take().map(u8::from_be_bytes)
    }

    fn take<const N: usize>(&mut self) -> Option<[u8; N]> {
        let (field, rest) = self.rest.split_first_chunk()?;
        self.rest = rest;
        Some(*field)
    }
}
