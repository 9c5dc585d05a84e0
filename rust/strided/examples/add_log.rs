//! Adds a log to a grid: a scatter of three cuts, in one call.

use strided::{ScatterPlan, ScatterSpec, StridedError, ViewLayout};

fn main() -> strided::Result<()> {
    // A basin of 3 rows and 5 columns; three cuts of 1 row and 2 columns, each at its row and column.
    let packed = |dims: &[usize]| ViewLayout::row_major(dims).ok_or(StridedError::OffsetOverflow);
    let (basin, cuts, starts) = (packed(&[3, 5])?, packed(&[3, 1, 2])?, packed(&[3, 2])?);
    let spec = ScatterSpec {
        update_window_dims: vec![1, 2],
        inserted_window_dims: vec![],
        scatter_dims_to_operand_dims: vec![0, 1],
        index_vector_dim: 1,
    };
    let plan = ScatterPlan::compile(
        &starts.dims,
        &starts.strides,
        &cuts.dims,
        &cuts.strides,
        &basin.dims,
        &basin.strides,
        spec,
    )?;

    // The first two cuts share a cell; the third begins off the basin and is moved to its edge.
    let mut depths = [100; 15];
    let done = plan.execute(
        &mut basin.view_mut(&mut depths),
        &starts.view(&[0, 0, 0, 1, 2, 9]),
        &cuts.view(&[3, 3, 4, 4, 5, 6]),
    )?;
    for row in depths.chunks(5) {
        println!("{row:?}");
    }
    println!("{} of 3 cuts moved inward", done.slid());
    assert_eq!(done.slid(), 1);
    assert_eq!(depths[..5], [103, 107, 104, 100, 100]);
    assert_eq!(depths[5..10], [100; 5]);
    assert_eq!(depths[10..], [100, 100, 100, 105, 106]);
    Ok(())
}
