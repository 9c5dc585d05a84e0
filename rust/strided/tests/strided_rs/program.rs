//! Gathers and scatters on charts, written for strided-rs: each is printed
//! with its answer, and with the grid as the call leaves it.

use std::fmt::Debug;
use std::num::Wrapping;
use strided_basic::{
    Exec, GatherIndex, GatherPlan, GatherSpec, RawStridedMut, RawStridedRef, Result, ScatterPlan,
    ScatterSpec, StridedError,
};

fn main() -> Result<()> {
    windows()?;
    windows_apart()?;
    printed_gather()?;
    refused_gathers();
    other_layouts()?;
    cuts_on_an_operand()?;
    operand_kept_backwards()?;
    operand_of_one_element()?;
    operand_by_rows()?;
    overlapping_windows()?;
    no_updates()?;
    sums_that_wrap()?;
    many_axes()?;
    refused_scatters();
    views_of_other_layouts()?;
    views_outside()
}

fn show<T: Debug>(name: &str, answer: &Result<()>, grid: &[T]) {
    println!("{name}: {answer:?} {grid:?}");
}

fn of_windows(size: usize) -> GatherSpec {
    GatherSpec {
        offset_dims: vec![0],
        collapsed_slice_dims: vec![],
        start_index_map: vec![0],
        index_vector_dim: 1,
        slice_sizes: vec![size],
    }
}

fn of_cells() -> ScatterSpec {
    ScatterSpec {
        update_window_dims: vec![],
        inserted_window_dims: vec![0],
        scatter_dims_to_operand_dims: vec![0],
        index_vector_dim: 1,
    }
}

fn of_rectangles() -> ScatterSpec {
    ScatterSpec {
        update_window_dims: vec![0, 1],
        inserted_window_dims: vec![],
        scatter_dims_to_operand_dims: vec![0, 1],
        index_vector_dim: 0,
    }
}

fn windows() -> Result<()> {
    let plan = GatherPlan::compile(&[5], &[1], &[2], &[1], &[2, 2], &[1, 2], of_windows(2))?;
    println!("{:?} {:?}", plan.spec(), plan.dest_dims());
    let mut dest = [0; 4];
    let answer = plan.execute(
        &mut RawStridedMut::new(&mut dest, &[2, 2], &[1, 2], 0)?,
        &RawStridedRef::new(&[10, 20, 30, 40, 50], &[5], &[1], 0)?,
        &RawStridedRef::new(&[4i64, -1], &[2], &[1], 0)?,
        Exec::serial(),
    );
    show("windows of i32 at i64 starts", &answer, &dest);
    Ok(())
}

/// Windows that lie apart in the destination, of a chart that is kept backwards.
fn windows_apart() -> Result<()> {
    let plan = GatherPlan::compile(&[5], &[-2], &[3], &[0], &[2, 3], &[4, -1], of_windows(2))?;
    let operand = [5.5, 0.0, -0.0, 0.0, f64::NAN, 0.0, 2.25, 0.0, f64::INFINITY];
    let start = [i32::MAX];
    println!("{}", start[0].to_i64());
    let mut dest = [9.0; 8];
    let answer = plan.clone().execute(
        &mut RawStridedMut::new(&mut dest, &[2, 3], &[4, -1], 2)?,
        &RawStridedRef::new(&operand, &[5], &[-2], 8)?,
        &RawStridedRef::new(&start, &[3], &[0], 0)?,
        Exec::serial(),
    );
    show("windows of f64 at i32 starts", &answer, &dest);
    Ok(())
}

/// The gather that StableHLO's text prints.
fn printed_gather() -> Result<()> {
    let spec = GatherSpec {
        offset_dims: vec![2, 3],
        collapsed_slice_dims: vec![0],
        start_index_map: vec![1, 0],
        index_vector_dim: 2,
        slice_sizes: vec![1, 2, 2],
    };
    let (operand_dims, operand_strides) = ([3, 4, 2], [8, 2, 1]);
    let (index_dims, index_strides) = ([2, 3, 2], [6, 2, 1]);
    let (dest_dims, dest_strides) = ([2, 3, 2, 2], [12, 4, 2, 1]);
    let plan = GatherPlan::compile(
        &operand_dims,
        &operand_strides,
        &index_dims,
        &index_strides,
        &dest_dims,
        &dest_strides,
        spec,
    )?;
    let operand: Vec<i32> = (1..=24).collect();
    let starts: [i64; 12] = [0, 0, 1, 0, 2, 1, 0, 1, 1, 1, 0, 9];
    let mut dest = [0; 24];
    let answer = plan.execute(
        &mut RawStridedMut::new(&mut dest, &dest_dims, &dest_strides, 0)?,
        &RawStridedRef::new(&operand, &operand_dims, &operand_strides, 0)?,
        &RawStridedRef::new(&starts, &index_dims, &index_strides, 0)?,
        Exec::serial(),
    );
    show("StableHLO's gather", &answer, &dest);
    Ok(())
}

fn refused_gathers() {
    let compile = |dest_dims: &[usize], dest_strides: &[isize], spec: GatherSpec| {
        let plan = GatherPlan::compile(&[5], &[1], &[2], &[1], dest_dims, dest_strides, spec);
        println!("{:?}", plan.map(|plan| plan.dest_dims().to_vec()));
    };
    compile(&[2, 2], &[1, 2], of_windows(2));
    compile(&[2, 2], &[1], of_windows(2));
    compile(&[2, usize::MAX], &[1, 2], of_windows(2));
    compile(&[2, 2], &[1, isize::MIN], of_windows(2));
    compile(&[2, 2], &[1, 1], of_windows(2));
    compile(&[2, 3], &[1, 2], of_windows(2));
    compile(&[2], &[1], of_windows(2));
    compile(&[], &[], of_windows(3));
    compile(&[2, 2], &[1, 2], of_windows(6));
    let with = |change: fn(&mut GatherSpec)| {
        let mut spec = of_windows(2);
        change(&mut spec);
        compile(&[2, 2], &[1, 2], spec);
    };
    with(|spec| spec.slice_sizes = vec![2, 2]);
    with(|spec| spec.collapsed_slice_dims = vec![3]);
    with(|spec| spec.collapsed_slice_dims = vec![0]);
    with(|spec| spec.start_index_map = vec![0, 0]);
    with(|spec| spec.start_index_map = vec![]);
    with(|spec| spec.index_vector_dim = 7);
    with(|spec| spec.index_vector_dim = 0);
    with(|spec| spec.offset_dims = vec![]);
    with(|spec| spec.offset_dims = vec![2]);
    with(|spec| spec.offset_dims = vec![1]);
    refused_planes();
}

/// Planes of a chart of three axes; the windows stand in the other order.
fn refused_planes() {
    for (dest_dims, collapsed) in [
        (&[3, 7, 2][..], vec![1]),
        (&[2, 7, 3], vec![1]),
        (&[3, 7, 2, 1], vec![1]),
        (&[3, 7, 1], vec![0]),
        (&[3, 7, 1], vec![2, 1]),
    ] {
        let spec = GatherSpec {
            offset_dims: vec![2, 0],
            collapsed_slice_dims: collapsed,
            start_index_map: vec![2, 1],
            index_vector_dim: 0,
            slice_sizes: vec![2, 1, 3],
        };
        let strides = [1, 10, 100, 1000];
        let plan = GatherPlan::compile(
            &[4, 5, 6],
            &[1, 4, 20],
            &[2, 7],
            &[7, 1],
            dest_dims,
            &strides[..dest_dims.len()],
            spec,
        );
        println!("{:?}", plan.map(|plan| plan.dest_dims().to_vec()));
    }
}

/// A gather's views, each with other strides than the plan.
fn other_layouts() -> Result<()> {
    let plan = GatherPlan::compile(&[5], &[1], &[2], &[1], &[2, 2], &[1, 2], of_windows(2))?;
    let (cells, starts) = ([10, 20, 30, 40, 50], [4i64, -1]);
    for strides in [[1, 1, 1], [-1, 1, 1], [1, 0, 1], [1, 1, -1]] {
        let [operand, index, dest] = strides;
        let mut grid = [7; 4];
        let answer = plan.execute(
            &mut RawStridedMut::new(&mut grid, &[2, 2], &[dest, 2], (1 - dest) / 2)?,
            &RawStridedRef::new(&cells, &[5], &[operand], 2 - 2 * operand)?,
            &RawStridedRef::new(&starts, &[2], &[index], 0)?,
            Exec::serial(),
        );
        show("a gather by strides", &answer, &grid);
    }
    Ok(())
}

fn cuts_on_an_operand() -> Result<()> {
    let plan = ScatterPlan::compile(&[5], &[1], &[3], &[1], &[3], &[1], &[5], &[1], of_cells())?;
    let mut grid = [-7; 5];
    let answer = plan.execute(
        &mut RawStridedMut::new(&mut grid, &[5], &[1], 0)?,
        &RawStridedRef::new(&[10, 20, 30, 40, 50], &[5], &[1], 0)?,
        &RawStridedRef::new(&[0i64, 0, 9], &[3], &[1], 0)?,
        &RawStridedRef::new(&[3, 4, 5], &[3], &[1], 0)?,
        Exec::serial(),
    );
    show("cuts on a chart", &answer, &grid);
    Ok(())
}

/// The grid's cells lie apart, so that elements between them stay.
fn operand_kept_backwards() -> Result<()> {
    let plan = ScatterPlan::compile(&[3], &[-1], &[2], &[1], &[2], &[-1], &[3], &[2], of_cells())?;
    let mut grid = [9.5; 6];
    let answer = plan.execute(
        &mut RawStridedMut::new(&mut grid, &[3], &[2], 1)?,
        &RawStridedRef::new(&[0.1, f64::NAN, -0.0, 8.0], &[3], &[-1], 2)?,
        &RawStridedRef::new(&[i32::MIN, 2], &[2], &[1], 0)?,
        &RawStridedRef::new(&[0.2, 0.3], &[2], &[-1], 1)?,
        Exec::serial(),
    );
    show("a chart that is kept backwards", &answer, &grid);
    Ok(())
}

fn operand_of_one_element() -> Result<()> {
    let plan = ScatterPlan::compile(&[4], &[0], &[1], &[1], &[1], &[1], &[4], &[-1], of_cells())?;
    let mut grid = [0; 5];
    let answer = plan.execute(
        &mut RawStridedMut::new(&mut grid, &[4], &[-1], 3)?,
        &RawStridedRef::new(&[900], &[4], &[0], 0)?,
        &RawStridedRef::new(&[1i64], &[1], &[1], 0)?,
        &RawStridedRef::new(&[-30], &[1], &[1], 0)?,
        Exec::serial(),
    );
    show("a chart of one sounding", &answer, &grid);
    Ok(())
}

/// The chart goes row by row, the grid column by column.
fn operand_by_rows() -> Result<()> {
    let spec = of_rectangles();
    let plan = ScatterPlan::compile(
        &[2, 3],
        &[3, 1],
        &[2],
        &[1],
        &[1, 2],
        &[1, 1],
        &[2, 3],
        &[1, 2],
        spec,
    )?;
    let mut grid = [0; 6];
    let answer = plan.execute(
        &mut RawStridedMut::new(&mut grid, &[2, 3], &[1, 2], 0)?,
        &RawStridedRef::new(&[11, 12, 13, 21, 22, 23], &[2, 3], &[3, 1], 0)?,
        &RawStridedRef::new(&[5i32, 5], &[2], &[1], 0)?,
        &RawStridedRef::new(&[100, 200], &[1, 2], &[1, 1], 0)?,
        Exec::serial(),
    );
    show("a chart by rows", &answer, &grid);
    Ok(())
}

/// Sums of f64, each of which is rounded: the order shows.
fn overlapping_windows() -> Result<()> {
    let spec = ScatterSpec {
        update_window_dims: vec![0],
        inserted_window_dims: vec![],
        scatter_dims_to_operand_dims: vec![0],
        index_vector_dim: 1,
    };
    let plan = ScatterPlan::compile(&[4], &[1], &[3], &[1], &[2, 3], &[1, 2], &[4], &[1], spec)?;
    let mut grid = [0.0; 4];
    let answer = plan.execute(
        &mut RawStridedMut::new(&mut grid, &[4], &[1], 0)?,
        &RawStridedRef::new(&[1e16, 0.1, 0.1, -1e16], &[4], &[1], 0)?,
        &RawStridedRef::new(&[0i64, 0, 1], &[3], &[1], 0)?,
        &RawStridedRef::new(&[1.0, 0.2, 1.0, 0.3, 0.7, 1e-17], &[2, 3], &[1, 2], 0)?,
        Exec::serial(),
    );
    show("overlapping windows", &answer, &grid);
    Ok(())
}

/// The copy alone is left.
fn no_updates() -> Result<()> {
    let plan = ScatterPlan::compile(&[3], &[1], &[0], &[1], &[0], &[1], &[3], &[1], of_cells())?;
    let mut grid = [0.0; 3];
    let answer = plan.execute(
        &mut RawStridedMut::new(&mut grid, &[3], &[1], 0)?,
        &RawStridedRef::new(&[1.5, 2.5, 3.5], &[3], &[1], 0)?,
        &RawStridedRef::<i64>::new(&[], &[0], &[1], 0)?,
        &RawStridedRef::new(&[], &[0], &[1], 0)?,
        Exec::serial(),
    );
    show("no updates", &answer, &grid);
    Ok(())
}

fn sums_that_wrap() -> Result<()> {
    let plan = ScatterPlan::compile(&[2], &[1], &[2], &[1], &[2], &[1], &[2], &[1], of_cells())?;
    let mut grid = [Wrapping(0); 2];
    let answer = plan.execute(
        &mut RawStridedMut::new(&mut grid, &[2], &[1], 0)?,
        &RawStridedRef::new(&[Wrapping(i32::MAX), Wrapping(i32::MIN)], &[2], &[1], 0)?,
        &RawStridedRef::new(&[0i32, 1], &[2], &[1], 0)?,
        &RawStridedRef::new(&[Wrapping(1), Wrapping(-1)], &[2], &[1], 0)?,
        Exec::serial(),
    );
    show("sums that wrap", &answer, &grid);
    Ok(())
}

/// Eight axes, some of one cell and some backwards.
fn many_axes() -> Result<()> {
    let dims = [1, 2, 1, 2, 1, 2, 1, 1];
    let (operand_strides, strides) = ([0, 4, 5, -2, 0, 1, 0, 9], [3, 1, 0, 2, 7, -4, 0, 0]);
    let spec = ScatterSpec {
        update_window_dims: vec![],
        inserted_window_dims: vec![0, 1, 2, 3, 4, 5, 6, 7],
        scatter_dims_to_operand_dims: vec![5, 1],
        index_vector_dim: 0,
    };
    let plan = ScatterPlan::compile(
        &dims,
        &operand_strides,
        &[2, 2],
        &[1, 2],
        &[2],
        &[1],
        &dims,
        &strides,
        spec,
    )?;
    let operand: Vec<i32> = (10..18).collect();
    let mut grid = [0; 8];
    let answer = plan.execute(
        &mut RawStridedMut::new(&mut grid, &dims, &strides, 4)?,
        &RawStridedRef::new(&operand, &dims, &operand_strides, 2)?,
        &RawStridedRef::new(&[0i64, 1, 1, 1], &[2, 2], &[1, 2], 0)?,
        &RawStridedRef::new(&[100, 200], &[2], &[1], 0)?,
        Exec::serial(),
    );
    show("eight axes", &answer, &grid);
    Ok(())
}

/// A layout: extents and strides.
type Layout<'a> = (&'a [usize], &'a [isize]);

fn compiled(operand: Layout, index: Layout, updates: Layout, dest: Layout, spec: ScatterSpec) {
    let plan = ScatterPlan::compile(
        operand.0, operand.1, index.0, index.1, updates.0, updates.1, dest.0, dest.1, spec,
    );
    println!("{:?}", plan.map(drop));
}

fn refused_scatters() {
    let (five, three): (Layout, Layout) = ((&[5], &[1]), (&[3], &[1]));
    compiled(five, three, three, five, of_cells());
    compiled((&[5], &[]), three, three, five, of_cells());
    compiled(five, three, three, (&[5], &[1, 1]), of_cells());
    compiled((&[usize::MAX, 2], &[1, 1]), three, three, five, of_cells());
    compiled(five, three, (&[2, usize::MAX], &[1, 1]), five, of_cells());
    compiled(five, three, three, (&[4], &[1]), of_cells());
    compiled((&[5, 1], &[1, 5]), three, three, five, of_cells());
    compiled((&[], &[]), three, three, five, of_cells());
    compiled(five, three, three, (&[5], &[0]), of_cells());
    compiled(five, three, (&[4], &[1]), five, of_cells());
    compiled(five, three, (&[3, 1], &[1, 3]), five, of_cells());
    let with = |change: fn(&mut ScatterSpec)| {
        let mut spec = of_cells();
        change(&mut spec);
        compiled(five, three, three, five, spec);
    };
    with(|spec| spec.inserted_window_dims = vec![1]);
    with(|spec| spec.inserted_window_dims = vec![0, 0]);
    with(|spec| spec.inserted_window_dims = vec![]);
    with(|spec| spec.scatter_dims_to_operand_dims = vec![2]);
    with(|spec| spec.scatter_dims_to_operand_dims = vec![]);
    with(|spec| spec.index_vector_dim = 2);
    with(|spec| spec.index_vector_dim = 0);
    refused_rectangles();
}

fn refused_rectangles() {
    let (grid, index): (Layout, Layout) = ((&[2, 3], &[1, 2]), (&[2, 4], &[1, 2]));
    let with = |updates: Layout, dims: [usize; 2]| {
        let mut spec = of_rectangles();
        spec.update_window_dims = dims.to_vec();
        compiled(grid, index, updates, grid, spec);
    };
    with((&[2, 1, 4], &[1, 2, 2]), [0, 1]);
    with((&[2, 1, 5], &[1, 2, 2]), [0, 1]);
    with((&[5, 1, 2], &[1, 5, 5]), [2, 1]);
    with((&[2, 4, 4], &[1, 2, 8]), [0, 1]);
    with((&[4, 1, 4], &[1, 4, 4]), [0, 3]);
    with((&[4], &[1]), [0, 1]);
    with((&[2, 1, 4, 1], &[1, 2, 2, 8]), [0, 1]);
}

/// A scatter's views, each with other strides than the plan: nothing is copied then.
fn views_of_other_layouts() -> Result<()> {
    let plan = ScatterPlan::compile(&[3], &[1], &[2], &[1], &[2], &[1], &[3], &[1], of_cells())?;
    let (cells, starts, cuts) = ([1.0, 2.0, 3.0], [0i64, 2], [0.5, 0.25]);
    for strides in [
        [1; 4],
        [-1, 1, 1, 1],
        [1, 0, 1, 1],
        [1, 1, 0, 1],
        [1, 1, 1, -1],
    ] {
        let [operand, index, updates, dest] = strides;
        let mut grid = [7.0; 3];
        let answer = plan.execute(
            &mut RawStridedMut::new(&mut grid, &[3], &[dest], 1 - dest)?,
            &RawStridedRef::new(&cells, &[3], &[operand], 1 - operand)?,
            &RawStridedRef::new(&starts, &[2], &[index], 0)?,
            &RawStridedRef::new(&cuts, &[2], &[updates], 0)?,
            Exec::serial(),
        );
        show("a scatter by strides", &answer, &grid);
    }
    Ok(())
}

/// Which error it is, is not asked.
fn views_outside() -> Result<()> {
    let cells = [10, 20, 30, 40, 50];
    for (dims, strides, offset) in [
        ([5, 1], [1, 5], 0),
        ([5, 1], [1, 5], 1),
        ([5, 1], [-1, 5], 3),
        ([5, 1], [-1, 5], 4),
        ([2, 3], [1, 2], 0),
        ([2, 2], [1, 2], 1),
        ([1, 1], [9, -9], 4),
        ([1, 1], [9, -9], -1),
    ] {
        let view = RawStridedRef::new(&cells, &dims, &strides, offset);
        let parts = view.map(|view| (view.data().len(), view.dims().len(), view.offset()));
        println!("{:?}", parts.ok());
    }
    let lengths = RawStridedRef::new(&cells, &[5], &[], 0).err();
    println!(
        "{}",
        matches!(lengths, Some(StridedError::StrideLengthMismatch))
    );
    Ok(())
}
