//! A plan that is executed allocates nothing.

use std::alloc::{GlobalAlloc, Layout, System};
use std::cell::Cell;
use strided::strided_basic::{self, Exec, RawStridedMut, RawStridedRef};
use strided::{
    GatherPlan, GatherSpec, OperandScatterPlan, RuleF64, ScatterPlan, ScatterSpec, StridedMut,
    StridedRef,
};

thread_local! {
    static COUNT: Cell<usize> = const { Cell::new(0) };
}

struct Counting;

// SAFETY: the system's allocator does the work.
unsafe impl GlobalAlloc for Counting {
    unsafe fn alloc(&self, layout: Layout) -> *mut u8 {
        COUNT.with(|count| count.set(count.get() + 1));
        System.alloc(layout)
    }

    unsafe fn dealloc(&self, memory: *mut u8, layout: Layout) {
        System.dealloc(memory, layout);
    }
}

#[global_allocator]
static COUNTING: Counting = Counting;

fn allocations(work: impl FnOnce()) -> usize {
    let before = COUNT.with(Cell::get);
    work();
    COUNT.with(Cell::get) - before
}

#[test]
fn gather() {
    let spec = GatherSpec {
        offset_dims: vec![0],
        collapsed_slice_dims: vec![],
        start_index_map: vec![0],
        index_vector_dim: 1,
        slice_sizes: vec![2],
    };
    let plan = GatherPlan::compile(&[5], &[1], &[2], &[1], &[2, 2], &[1, 2], spec).unwrap();
    let mut dest = [0; 4];
    let count = allocations(|| {
        plan.execute(
            &mut StridedMut::new(&mut dest, &[2, 2], &[1, 2], 0),
            &StridedRef::new(&[10, 20, 30, 40, 50], &[5], &[1], 0),
            &StridedRef::new(&[4, -1], &[2], &[1], 0),
        )
        .unwrap();
    });
    assert_eq!((dest, count), ([40, 50, 10, 20], 0));
    assert_ne!(allocations(|| drop(plan.clone())), 0);
}

#[test]
fn scatter() {
    let spec = ScatterSpec {
        update_window_dims: vec![],
        inserted_window_dims: vec![0],
        scatter_dims_to_operand_dims: vec![0],
        index_vector_dim: 1,
    };
    let plan = ScatterPlan::compile(&[3], &[1], &[3], &[1], &[5], &[1], spec).unwrap();
    let mut grid = [0.0; 5];
    let count = allocations(|| {
        plan.execute(
            &mut StridedMut::new(&mut grid, &[5], &[1], 0),
            &StridedRef::new(&[0, 0, 9], &[3], &[1], 0),
            &StridedRef::new(&[3.0, 4.0, 5.0], &[3], &[1], 0),
        )
        .unwrap();
    });
    assert_eq!((grid, count), ([7.0, 0.0, 0.0, 0.0, 5.0], 0));
    let count = allocations(|| {
        plan.execute_updates(
            &mut StridedMut::new(&mut grid, &[5], &[1], 0),
            &StridedRef::new(&[0, 1, 9], &[3], &[1], 0),
            &StridedRef::new(&[3.0, 4.0, 5.0], &[3], &[1], 0),
            RuleF64::Ceiling(8.0),
        )
        .unwrap();
    });
    assert_eq!((grid, count), ([8.0, 4.0, 0.0, 0.0, 8.0], 0));
}

#[test]
fn scatter_with_an_operand() {
    let spec = ScatterSpec {
        update_window_dims: vec![],
        inserted_window_dims: vec![0],
        scatter_dims_to_operand_dims: vec![0],
        index_vector_dim: 1,
    };
    let plan =
        OperandScatterPlan::compile(&[5], &[0], &[3], &[1], &[3], &[1], &[5], &[1], spec).unwrap();
    let mut grid = [0.0; 5];
    let count = allocations(|| {
        plan.execute_by(
            &mut StridedMut::new(&mut grid, &[5], &[1], 0),
            &StridedRef::new(&[1.0], &[5], &[0], 0),
            &StridedRef::new(&[0, 0, 9], &[3], &[1], 0),
            &StridedRef::new(&[3.0, 4.0, 5.0], &[3], &[1], 0),
            RuleF64::Ceiling(7.0),
        )
        .unwrap();
    });
    assert_eq!((grid, count), ([7.0, 1.0, 1.0, 1.0, 6.0], 0));
}

/// By strided-rs's names too, where the starts are `i64`; others are converted.
#[test]
fn by_other_names() {
    let spec = ScatterSpec {
        update_window_dims: vec![],
        inserted_window_dims: vec![0],
        scatter_dims_to_operand_dims: vec![0],
        index_vector_dim: 1,
    };
    let plan =
        strided_basic::ScatterPlan::compile(&[5], &[1], &[1], &[1], &[1], &[1], &[5], &[1], spec)
            .unwrap();
    let mut grid = [0; 5];
    let mut count_with = |starts: &RawStridedRef<'_, i64>| {
        allocations(|| {
            plan.execute(
                &mut RawStridedMut::new(&mut grid, &[5], &[1], 0).unwrap(),
                &RawStridedRef::new(&[1, 2, 3, 4, 5], &[5], &[1], 0).unwrap(),
                starts,
                &RawStridedRef::new(&[10], &[1], &[1], 0).unwrap(),
                Exec::serial(),
            )
            .unwrap();
        })
    };
    let count = count_with(&RawStridedRef::new(&[2], &[1], &[1], 0).unwrap());
    assert_eq!((grid, count), ([1, 2, 13, 4, 5], 0));
}
