//! Writing a file: format version 1.0, little-endian.

use std::io::{self, Write};

use super::{Grid, Item};
use crate::progress::Progress;

/// The elements are written so many at a time.
const PART: usize = 1 << 17;
/// NumPy lets the elements begin at a multiple of this.
const ALIGNMENT: usize = 64;
/// Mark, version and length of the header.
const BEFORE: usize = 10;

/// Writes a grid with its header.
pub fn write<T: Item>(grid: &Grid<T>, name: &str, output: &mut dyn Write) -> io::Result<()> {
    output.write_all(&header::<T>(grid)?)?;
    let total = u64::try_from(grid.data.len()).unwrap_or(u64::MAX);
    let mut progress = Progress::new(&format!("writing {name}"), total);
    let mut bytes = Vec::new();
    for part in grid.data.chunks(PART) {
        bytes.clear();
        T::encode(part, &mut bytes);
        output.write_all(&bytes)?;
        progress.advance(u64::try_from(part.len()).unwrap_or(u64::MAX));
    }
    Ok(())
}

fn header<T: Item>(grid: &Grid<T>) -> io::Result<Vec<u8>> {
    let order = if grid.fortran_order { "True" } else { "False" };
    let extents: String = grid
        .shape
        .iter()
        .map(|extent| format!("{extent}, "))
        .collect();
    let shape = match grid.shape.as_slice() {
        [_] => extents.trim_end(),
        _ => extents.trim_end_matches(", "),
    };
    let mut text = format!(
        "{{'descr': '{}', 'fortran_order': {order}, 'shape': ({shape}), }}",
        T::KIND.descr()
    );
    let with_newline = text.len().saturating_add(BEFORE).saturating_add(1);
    let padded = with_newline.next_multiple_of(ALIGNMENT);
    text.push_str(&" ".repeat(padded.saturating_sub(with_newline)));
    text.push('\n');
    let length = u16::try_from(text.len())
        .map_err(|_| io::Error::new(io::ErrorKind::InvalidInput, "the shape is too long"))?;
    let mut bytes = b"\x93NUMPY\x01\x00".to_vec();
    bytes.extend(length.to_le_bytes());
    bytes.extend(text.bytes());
    Ok(bytes)
}

#[cfg(test)]
#[allow(
    clippy::unwrap_used,
    clippy::indexing_slicing,
    clippy::arithmetic_side_effects
)]
mod tests {
    use super::*;
    use crate::npy::Header;

    #[test]
    fn a_header_is_read_back() {
        for shape in [vec![], vec![3], vec![3, 4], vec![0, 7, usize::MAX]] {
            for fortran_order in [false, true] {
                let grid = Grid::<f64> {
                    shape: shape.clone(),
                    fortran_order,
                    data: Vec::new(),
                };
                let bytes = header::<f64>(&grid).unwrap();
                assert_eq!(bytes.len() % ALIGNMENT, 0);
                let length = usize::from(bytes[8]) + 256 * usize::from(bytes[9]);
                assert_eq!(length + BEFORE, bytes.len());
                let read = Header::parse(std::str::from_utf8(&bytes[BEFORE..]).unwrap()).unwrap();
                assert_eq!(read.shape, shape);
                assert_eq!(read.fortran_order, fortran_order);
                assert_eq!(read.kind.descr(), "<f8");
            }
        }
    }

    #[test]
    fn the_shape_is_a_tuple() {
        let text = |shape: &[usize]| {
            let grid = Grid::<i32> {
                shape: shape.to_vec(),
                fortran_order: false,
                data: vec![],
            };
            String::from_utf8_lossy(&header::<i32>(&grid).unwrap()).into_owned()
        };
        assert!(text(&[3]).contains("'shape': (3,), }"));
        assert!(text(&[]).contains("'shape': (), }"));
        assert!(text(&[3, 4]).contains("'shape': (3, 4), }"));
    }
}
