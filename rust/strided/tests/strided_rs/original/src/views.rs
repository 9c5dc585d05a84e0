//! Views as strided-rs's users make them. The file that has `new` is not at
//! hand; raw_ops.rs says that it has every reachable offset inside the slice.
//! Which error it gives is this stub's own.

use crate::{RawStridedMut, RawStridedRef, Result, StridedError};

impl<'a, T> RawStridedRef<'a, T> {
    pub fn new(
        data: &'a [T],
        dims: &'a [usize],
        strides: &'a [isize],
        offset: isize,
    ) -> Result<Self> {
        inside(data.len(), dims, strides, offset)?;
        Ok(Self {
            data,
            dims,
            strides,
            offset,
        })
    }
}

impl<'a, T> RawStridedMut<'a, T> {
    pub fn new(
        data: &'a mut [T],
        dims: &'a [usize],
        strides: &'a [isize],
        offset: isize,
    ) -> Result<Self> {
        inside(data.len(), dims, strides, offset)?;
        Ok(Self {
            data,
            dims,
            strides,
            offset,
        })
    }
}

fn inside(len: usize, dims: &[usize], strides: &[isize], offset: isize) -> Result<()> {
    if dims.len() != strides.len() {
        return Err(StridedError::StrideLengthMismatch);
    }
    let (mut low, mut high) = (offset as i128, offset as i128);
    for (&dim, &stride) in dims.iter().zip(strides) {
        let step = (dim as i128 - 1) * stride as i128;
        match step < 0 {
            true => low += step,
            false => high += step,
        }
    }
    let is_inside = dims.contains(&0) || (low >= 0 && high < len as i128);
    is_inside.then_some(()).ok_or(StridedError::OffsetOverflow)
}
