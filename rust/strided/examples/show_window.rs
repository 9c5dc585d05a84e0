//! Shows a window of a grid: a gather at one start.

use strided::{GatherPlan, GatherSpec, StridedError, ViewLayout};

fn main() -> strided::Result<()> {
    // A basin of 4 rows and 6 columns, and a window of 2 rows and 3 columns of it, each row by row.
    let basin = ViewLayout::row_major(&[4, 6]).ok_or(StridedError::OffsetOverflow)?;
    let window = ViewLayout::row_major(&[2, 3]).ok_or(StridedError::OffsetOverflow)?;
    let depths: Vec<i32> = (0..24).map(|cell| 10 * (cell / 6) + cell % 6).collect();

    // The start is a row and a column.
    let spec = GatherSpec {
        offset_dims: vec![0, 1],
        collapsed_slice_dims: vec![],
        start_index_map: vec![0, 1],
        index_vector_dim: 0,
        slice_sizes: vec![2, 3],
    };
    let start = ViewLayout::row_major(&[2]).ok_or(StridedError::OffsetOverflow)?;
    let plan = GatherPlan::compile(
        &basin.dims,
        &basin.strides,
        &start.dims,
        &start.strides,
        &window.dims,
        &window.strides,
        spec,
    )?;

    // Column 5 would leave the basin, so that the window is moved to column 3.
    let mut shown = [0; 6];
    let done = plan.execute(
        &mut window.view_mut(&mut shown),
        &basin.view(&depths),
        &start.view(&[1, 5]),
    )?;
    for row in shown.chunks(3) {
        println!("{row:?}");
    }
    if done.slid() > 0 {
        println!("moved inward at the basin's edge");
    }
    assert_eq!(shown, [13, 14, 15, 23, 24, 25]);
    assert_eq!(done.slid(), 1);
    Ok(())
}
