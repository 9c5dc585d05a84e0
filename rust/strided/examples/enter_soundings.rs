//! Enters soundings on a grid: scatters by other rules than adding.

use strided::{Result, Rule, RuleF64, ScatterPlan, ScatterSpec, StridedError, ViewLayout};

fn main() -> Result<()> {
    // A basin of 2 rows and 4 columns; three soundings of a cell each, at its row and column.
    let packed = |dims: &[usize]| ViewLayout::row_major(dims).ok_or(StridedError::OffsetOverflow);
    let (basin, soundings, places) = (packed(&[2, 4])?, packed(&[3])?, packed(&[3, 2])?);
    let plan = compiled(&basin, &soundings, &places)?;
    // The first two are of one cell.
    let at = [0, 1, 0, 1, 1, 3];
    let places = places.view(&at);

    // The least depth that was found counts; in a new survey the last that was entered.
    for (rule, expected) in [
        (Rule::Lowest, [900, 870, 900, 900, 900, 900, 900, 900]),
        (Rule::Replace, [900, 880, 900, 900, 900, 900, 900, 920]),
    ] {
        let mut depths = [900; 8];
        let grid = &mut basin.view_mut(&mut depths);
        plan.execute_updates(grid, &places, &soundings.view(&[870, 880, 920]), rule)?;
        println!("{rule:?}: {:?}", depths.chunks(4).collect::<Vec<_>>());
        assert_eq!(depths, expected);
    }

    // Spoil is heaped up to 3 m and no further, at every load.
    let mut heights = [0.5; 8];
    let grid = &mut basin.view_mut(&mut heights);
    let loads = soundings.view(&[2.0, 2.0, 1.0]);
    plan.execute_updates(grid, &places, &loads, RuleF64::Ceiling(3.0))?;
    println!("Ceiling: {:?}", heights.chunks(4).collect::<Vec<_>>());
    assert_eq!(heights, [0.5, 3.0, 0.5, 0.5, 0.5, 0.5, 0.5, 1.5]);
    Ok(())
}

/// Single cells, each at the row and column of its place.
fn compiled(basin: &ViewLayout, cells: &ViewLayout, places: &ViewLayout) -> Result<ScatterPlan> {
    let spec = ScatterSpec {
        update_window_dims: vec![],
        inserted_window_dims: vec![0, 1],
        scatter_dims_to_operand_dims: vec![0, 1],
        index_vector_dim: 1,
    };
    ScatterPlan::compile(
        &places.dims,
        &places.strides,
        &cells.dims,
        &cells.strides,
        &basin.dims,
        &basin.strides,
        spec,
    )
}
