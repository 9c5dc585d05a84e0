//! Lays the design chart under a log: a scatter with an operand, and a second
//! log on the same grid without it.

use strided::{OperandScatterPlan, Result, ScatterPlan, ScatterSpec, StridedError, ViewLayout};

fn main() -> Result<()> {
    // The office keeps the design of a basin of 3 rows and 4 columns row by row; on board the
    // grid goes column by column. A log is of two cuts of 1 row and 2 columns.
    let by_rows = |dims: &[usize]| ViewLayout::row_major(dims).ok_or(StridedError::OffsetOverflow);
    let design = by_rows(&[3, 4])?;
    let grid = ViewLayout::column_major(&[3, 4]).ok_or(StridedError::OffsetOverflow)?;
    let (cuts, starts) = (by_rows(&[2, 1, 2])?, by_rows(&[2, 2])?);

    // What the grid held is of no interest: every cell begins as the design's.
    let design_depths: Vec<i32> = (0..12).map(|cell| 100 * (cell / 4 + 1)).collect();
    let mut depths = [-1; 12];
    let done = under(&design, [&starts, &cuts, &grid])?.execute(
        &mut grid.view_mut(&mut depths),
        &design.view(&design_depths),
        &starts.view(&[0, 0, 2, 9]),
        &cuts.view(&[3, 4, 5, 6]),
    )?;
    assert_eq!(done.slid(), 1);
    assert_eq!(depths[..6], [103, 200, 300, 104, 200, 300]);
    assert_eq!(depths[6..], [100, 200, 305, 100, 200, 306]);

    // The second log goes on what the first has left: its call has no design.
    without([&starts, &cuts, &grid])?.execute(
        &mut grid.view_mut(&mut depths),
        &starts.view(&[0, 0, 1, 1]),
        &cuts.view(&[1, 1, 7, 7]),
    )?;
    for row in 0..3 {
        let row: Vec<i32> = depths[row..].iter().step_by(3).copied().collect();
        println!("{row:?}");
    }
    assert_eq!(depths[..6], [104, 200, 300, 105, 207, 300]);
    assert_eq!(depths[6..], [100, 207, 305, 100, 200, 306]);
    Ok(())
}

/// Cuts at their rows and columns.
fn spec() -> ScatterSpec {
    ScatterSpec {
        update_window_dims: vec![1, 2],
        inserted_window_dims: vec![],
        scatter_dims_to_operand_dims: vec![0, 1],
        index_vector_dim: 1,
    }
}

fn under(
    design: &ViewLayout,
    [starts, cuts, grid]: [&ViewLayout; 3],
) -> Result<OperandScatterPlan> {
    OperandScatterPlan::compile(
        &design.dims,
        &design.strides,
        &starts.dims,
        &starts.strides,
        &cuts.dims,
        &cuts.strides,
        &grid.dims,
        &grid.strides,
        spec(),
    )
}

fn without([starts, cuts, grid]: [&ViewLayout; 3]) -> Result<ScatterPlan> {
    ScatterPlan::compile(
        &starts.dims,
        &starts.strides,
        &cuts.dims,
        &cuts.strides,
        &grid.dims,
        &grid.strides,
        spec(),
    )
}
