//! Stores a job in a file, reads it and runs it.

use std::error::Error;
use std::{env, fs, process};
use strided::{gather_job, scatter_job, ElementType, Job, ScatterJob, ScatterSpec, ViewLayout};

fn main() -> Result<(), Box<dyn Error>> {
    let packed = |dims: &[usize]| ViewLayout::column_major(dims).unwrap_or_default();
    let job = Job::Scatter(ScatterJob {
        element: ElementType::F64,
        index: packed(&[3]),
        updates: packed(&[3]),
        dest: packed(&[5]),
        spec: ScatterSpec {
            update_window_dims: vec![],
            inserted_window_dims: vec![0],
            scatter_dims_to_operand_dims: vec![0],
            index_vector_dim: 1,
        },
    });
    let file = env::temp_dir().join(format!("strided-example-{}.job", process::id()));
    fs::write(&file, job.to_bytes()?)?;

    // Elsewhere, later: the bytes alone tell what is to be done.
    let bytes = fs::read(&file)?;
    fs::remove_file(&file)?;
    let mut grid = [0.5; 5];
    scatter_job(&bytes, &[0, 0, 9], &[3.0, 4.0, 5.0], &mut grid)?;
    println!("{} bytes: {grid:?}", bytes.len());
    assert_eq!(grid, [7.5, 0.5, 0.5, 0.5, 5.5]);

    // A job of another kind is refused, and the grid stays.
    let refusal = gather_job(&bytes, &[1.0; 5], &[0; 3], &mut grid).unwrap_err();
    println!("as a gather: {refusal}");
    assert_eq!((refusal.number(), refusal.a()), (10, 5));
    assert_eq!(grid, [7.5, 0.5, 0.5, 0.5, 5.5]);
    Ok(())
}
