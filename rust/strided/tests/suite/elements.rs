//! The harbour cases, and what is particular to each type of element.

use crate::cases::{cuts_added, window_read, Cell};
use strided::{Done, Element, ElementType, GatherJob, Result, ScatterJob};

fn read<T: Cell>(job: &GatherJob, operand: &[T], starts: &[i64], dest: &mut [T]) -> Result<Done> {
    job.compile()?.execute(
        &mut job.dest.view_mut(dest),
        &job.operand.view(operand),
        &job.index.view(starts),
    )
}

fn add<T: Cell>(job: &ScatterJob, starts: &[i64], updates: &[T], dest: &mut [T]) -> Result<Done> {
    job.compile()?.execute(
        &mut job.dest.view_mut(dest),
        &job.index.view(starts),
        &job.updates.view(updates),
    )
}

#[test]
fn types_have_names() {
    assert_eq!(i32::TYPE, ElementType::I32);
    assert_eq!(f64::TYPE, ElementType::F64);
}

#[test]
fn the_window_read() {
    let mut depths = [0; 4];
    read(&window_read(), &[10, 20, 30, 40, 50], &[4, -1], &mut depths).unwrap();
    assert_eq!(depths, [40, 50, 10, 20]);

    let mut depths = [0.0; 4];
    let operand = [10.0, 20.0, 30.0, 40.0, 50.0];
    read(&window_read(), &operand, &[4, -1], &mut depths).unwrap();
    assert_eq!(depths, [40.0, 50.0, 10.0, 20.0]);
}

#[test]
fn the_cuts_added() {
    let mut grid = [0; 5];
    add(&cuts_added(), &[0, 0, 9], &[3, 4, 5], &mut grid).unwrap();
    assert_eq!(grid, [7, 0, 0, 0, 5]);

    let mut grid = [0.0; 5];
    add(&cuts_added(), &[0, 0, 9], &[3.0, 4.0, 5.0], &mut grid).unwrap();
    assert_eq!(grid, [7.0, 0.0, 0.0, 0.0, 5.0]);
}

#[test]
fn sums_of_i32_wrap() {
    let mut grid = [2147483647, 0, 0, 0, -2147483648];
    add(&cuts_added(), &[0, 9, 9], &[1, -1, -1], &mut grid).unwrap();
    assert_eq!(grid, [-2147483648, 0, 0, 0, 2147483646]);
}

#[test]
fn sums_of_f64_round_in_order() {
    let mut grid = [1.0, 0.0, 0.0, 0.0, 0.0];
    add(&cuts_added(), &[0, 0, 0], &[1e16, 1.0, -1e16], &mut grid).unwrap();
    assert_eq!(grid[0], 1.0 + 1e16 + 1.0 - 1e16);
    assert_ne!(grid[0], 2.0);
}

#[test]
fn bits_of_every_f64_are_copied() {
    let patterns = [
        0x7ff0_0000_0000_0001, // signals
        0x7ff8_dead_beef_cafe,
        0xfff8_0000_0000_0000,
        0x8000_0000_0000_0000, // minus zero
        0x0000_0000_0000_0001, // the least above zero
    ];
    let operand = patterns.map(f64::from_bits);
    let mut dest = [0.0; 4];
    for start in 0..4 {
        read(&window_read(), &operand, &[start, start], &mut dest).unwrap();
        let at = start as usize;
        let expected = [
            patterns[at],
            patterns[at + 1],
            patterns[at],
            patterns[at + 1],
        ];
        assert_eq!(dest.map(f64::to_bits), expected);
    }
}

#[test]
fn a_nan_that_lands_makes_one() {
    let mut grid = [1.0, 2.0, f64::NAN, 4.0, f64::INFINITY];
    let updates = [f64::NAN, 1.0, f64::NEG_INFINITY];
    add(&cuts_added(), &[0, 2, 4], &updates, &mut grid).unwrap();
    let nan = grid.map(f64::is_nan);
    assert_eq!(nan, [true, false, true, false, true]);
    assert_eq!((grid[1], grid[3]), (2.0, 4.0));
}

#[test]
fn minus_zero_stays_where_nothing_lands() {
    let mut grid = [-0.0; 5];
    add(&cuts_added(), &[0, 1, 1], &[-0.0, 0.0, -0.0], &mut grid).unwrap();
    let negative = grid.map(f64::is_sign_negative);
    assert_eq!(negative, [true, false, true, true, true]);
}
