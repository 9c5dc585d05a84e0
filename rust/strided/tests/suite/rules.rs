//! Scatters by each rule: beside plain loops, with NaN and zeros of both signs,
//! and rules that are not listed.

use crate::cases::{bits, cells, cuts_added, packed, summed, view, Cell, ScatterCase, RULES};
use crate::header::number_of;
use crate::random::Random;
use crate::reference::{landings, plain_scatter};
use strided::ffi::{self, Answer};
use strided::{Done, Element, Result, Rule, RuleF64, ScatterJob, ViewLayout};

const CASES: usize = 4000;
const INFINITY: f64 = f64::INFINITY;

/// NaNs with bits of their own; the first signals.
const NANS: [u64; 3] = [
    0x7ff0_0000_0000_0001,
    0x7ff8_dead_beef_cafe,
    0xfff8_0000_0000_0000,
];

/// The rules that take one of two, and add nothing.
const CHOOSING: [RuleF64; 3] = [RuleF64::Lowest, RuleF64::Highest, RuleF64::Replace];

fn put<T: Cell>(
    job: &ScatterJob,
    starts: &[i64],
    updates: &[T],
    dest: &mut [T],
    rule: impl Into<T::Rule>,
) -> Result<Done> {
    job.compile()?.execute_updates(
        &mut job.dest.view_mut(dest),
        &job.index.view(starts),
        &job.updates.view(updates),
        rule,
    )
}

/// One element after these updates.
fn after<T: Cell>(held: T, updates: &[T], rule: impl Into<T::Rule>) -> T {
    let mut job = cuts_added();
    job.index = packed(&[updates.len()]);
    job.updates = packed(&[updates.len()]);
    job.dest = packed(&[1]);
    let mut grid = [held];
    put(&job, &vec![0; updates.len()], updates, &mut grid, rule).unwrap();
    grid[0]
}

#[test]
fn names() {
    assert_eq!(Rule::default(), Rule::Add);
    assert_eq!(RuleF64::default(), RuleF64::Add);
    let named = [
        RuleF64::Add,
        RuleF64::Lowest,
        RuleF64::Highest,
        RuleF64::Replace,
    ];
    assert_eq!(RULES.map(RuleF64::from), named);
    assert_eq!(<i32 as Element>::Rule::from(Rule::Lowest), Rule::Lowest);
}

#[test]
fn rules_of_i32() {
    let one = |rule, expected: [i32; 5]| {
        let mut grid = [10, 20, 30, 40, 50];
        put(&cuts_added(), &[0, 0, 9], &[12, 7, 60], &mut grid, rule).unwrap();
        assert_eq!(grid, expected, "{rule:?}");
    };
    one(Rule::Add, [29, 20, 30, 40, 110]);
    one(Rule::Lowest, [7, 20, 30, 40, 50]);
    one(Rule::Highest, [12, 20, 30, 40, 60]);
    one(Rule::Replace, [7, 20, 30, 40, 60]);
    assert_eq!(after(i32::MAX, &[1], Rule::Add), i32::MIN);
    assert_eq!(after(i32::MAX, &[i32::MIN], Rule::Lowest), i32::MIN);
    assert_eq!(after(i32::MAX, &[i32::MIN], Rule::Highest), i32::MAX);
    assert_eq!(after(-1, &[0], Rule::Lowest), -1);
    assert_eq!(after(-1, &[0], Rule::Highest), 0);
}

#[test]
fn rules_of_f64() {
    let one = |rule, expected: [f64; 5]| {
        let mut grid = [10.0, 20.0, 30.0, 40.0, 50.0];
        let updates = [12.5, 7.0, 60.0];
        put(&cuts_added(), &[0, 0, 9], &updates, &mut grid, rule).unwrap();
        assert_eq!(grid, expected, "{rule:?}");
    };
    one(RuleF64::Add, [29.5, 20.0, 30.0, 40.0, 110.0]);
    one(RuleF64::Lowest, [7.0, 20.0, 30.0, 40.0, 50.0]);
    one(RuleF64::Highest, [12.5, 20.0, 30.0, 40.0, 60.0]);
    one(RuleF64::Replace, [7.0, 20.0, 30.0, 40.0, 60.0]);
    one(RuleF64::Ceiling(29.0), [29.0, 20.0, 30.0, 40.0, 29.0]);
    assert_eq!(after(1.0, &[-INFINITY], Rule::Lowest), -INFINITY);
    assert_eq!(after(1.0, &[-INFINITY], Rule::Highest), 1.0);
}

#[test]
fn a_ceiling_holds_at_every_update() {
    assert_eq!(after(1.0, &[9.0, -2.0], RuleF64::Ceiling(5.0)), 3.0);
    assert_eq!(after(1.0, &[-2.0, 9.0], RuleF64::Ceiling(5.0)), 5.0);
    // Sums round before they are compared.
    assert_eq!(after(1e16, &[1.0, 1.0], RuleF64::Ceiling(1e16)), 1e16);
    assert_eq!(after(1.0, &[-0.5], RuleF64::Ceiling(-INFINITY)), -INFINITY);
    assert_eq!(
        after(1.0, &[INFINITY], RuleF64::Ceiling(INFINITY)),
        INFINITY
    );
    // What is held above the limit stays where nothing lands.
    let mut grid = [9.0; 5];
    let rule = RuleF64::Ceiling(5.0);
    put(
        &cuts_added(),
        &[0, 0, 0],
        &[-5.0, 0.5, 0.5],
        &mut grid,
        rule,
    )
    .unwrap();
    assert_eq!(grid, [5.0, 9.0, 9.0, 9.0, 9.0]);
}

#[test]
fn a_comparison_with_nan_is_false() {
    for nan in NANS {
        for number in [3.0, 0.0, INFINITY, -INFINITY] {
            let one = |held: u64, update: u64, rule, expected: u64| {
                let left = after(f64::from_bits(held), &[f64::from_bits(update)], rule);
                assert_eq!(left.to_bits(), expected, "{held:x} {update:x} {rule:?}");
            };
            let number = f64::to_bits(number);
            for rule in [RuleF64::Lowest, RuleF64::Highest] {
                one(nan, number, rule, nan);
                one(number, nan, rule, number);
                one(nan, NANS[1], rule, nan);
            }
            one(nan, number, RuleF64::Replace, number);
            one(number, nan, RuleF64::Replace, nan);
        }
        let nan = f64::from_bits(nan);
        assert_eq!(after(1.0, &[9.0, -2.0], RuleF64::Ceiling(nan)), 8.0);
        assert!(after(1.0, &[nan], RuleF64::Ceiling(5.0)).is_nan());
        assert!(after(nan, &[1.0], RuleF64::Ceiling(-INFINITY)).is_nan());
        let opposite = after(INFINITY, &[-INFINITY], RuleF64::Ceiling(5.0));
        assert!(opposite.is_nan());
    }
}

#[test]
fn zeros_are_not_in_order() {
    let zeros = [0.0, -0.0];
    for (held, update) in [(0.0, -0.0), (-0.0, 0.0)] {
        for rule in [RuleF64::Lowest, RuleF64::Highest] {
            let left: f64 = after(held, &[update], rule);
            assert_eq!(
                left.to_bits(),
                f64::to_bits(held),
                "{held} {update} {rule:?}"
            );
        }
        let left = after(held, &[update], Rule::Replace);
        assert_eq!(left.to_bits(), f64::to_bits(update));
        // The sum is neither greater than the limit.
        let left = after(held, &[held], RuleF64::Ceiling(update));
        assert_eq!(left.to_bits(), f64::to_bits(held));
    }
    for limit in zeros {
        let left = after(1.0, &[1.0], RuleF64::Ceiling(limit));
        assert_eq!(left.to_bits(), f64::to_bits(limit));
    }
}

#[test]
fn what_nothing_lands_on_keeps_its_bits() {
    let before = [NANS[0], NANS[1], NANS[2], 1 << 63, 1].map(f64::from_bits);
    let rules = CHOOSING.into_iter();
    for rule in rules.chain([RuleF64::Add, RuleF64::Ceiling(0.0)]) {
        let mut grid = before;
        put(&cuts_added(), &[2, 2, 2], &[1.0, 2.0, 3.0], &mut grid, rule).unwrap();
        grid[2] = before[2];
        assert_eq!(bits(&grid), bits(&before), "{rule:?}");
    }
}

#[test]
fn rules_of_i32_beside_plain_loops() {
    beside_plain_loops::<i32>(41);
}

#[test]
fn rules_of_f64_beside_plain_loops() {
    beside_plain_loops::<f64>(42);
}

fn beside_plain_loops<T: Cell>(seed: u64) {
    let mut random = Random::new(seed);
    for case in 0..CASES {
        let call = ScatterCase::random(&mut random, T::TYPE);
        let updates = cells::<T>(&mut random, call.updates_len);
        let before = cells::<T>(&mut random, call.dest_len);
        let rule = T::rule(&mut random);

        let mut expected = before.clone();
        plain_scatter(&call.job, &call.starts, &updates, &mut expected, rule);
        let mut dest = before.clone();
        put(&call.job, &call.starts, &updates, &mut dest, rule).expect("a valid scatter");

        let what = format!("case {case} by {rule:?}: {:?}", call.job);
        assert_eq!(summed(&dest), summed(&expected), "{what}");
        if T::adds(rule) {
            // A sum may be any NaN; where nothing lands the bits stay.
            for (_, landed) in landings(&call.job, &call.starts) {
                dest[landed] = before[landed];
                expected[landed] = before[landed];
            }
        }
        assert_eq!(bits(&dest), bits(&expected), "{what}");
    }
}

/// A layout as the functions of `ffi` take it.
fn lists(view: &ViewLayout) -> (Vec<u64>, Vec<i64>) {
    let extents = view.dims.iter().map(|&extent| extent as u64);
    let strides = view.strides.iter().map(|&stride| stride as i64);
    (extents.collect(), strides.collect())
}

fn axes(list: &[usize]) -> Vec<u64> {
    list.iter().map(|&axis| axis as u64).collect()
}

/// A scatter by `ffi`: compiled by `job`, called on the views of `views`.
macro_rules! raw {
    ($name:ident, $function:ident, $element:ty, $($rule:ident: $kind:ty),+) => {
        fn $name(
            $($rule: $kind,)+
            job: &ScatterJob,
            views: &ScatterJob,
            updates: &[$element],
            dest: &mut [$element],
        ) -> Answer {
            let spec = &job.spec;
            let [index, given, grid] = [&job.index, &job.updates, &job.dest].map(lists);
            let [index_view, given_view, grid_view] =
                [&views.index, &views.updates, &views.dest].map(lists);
            ffi::$function(
                $($rule,)+
                &index.0, &index.1, &given.0, &given.1, &grid.0, &grid.1,
                &axes(&spec.update_window_dims),
                &axes(&spec.inserted_window_dims),
                &axes(&spec.scatter_dims_to_operand_dims),
                spec.index_vector_dim as u64,
                &index_view.0, &index_view.1, views.index.offset as i64,
                &given_view.0, &given_view.1, views.updates.offset as i64,
                &grid_view.0, &grid_view.1, views.dest.offset as i64,
                &STARTS, updates, dest,
            )
        }
    };
}

const STARTS: [i64; 3] = [0, 0, 9];

raw!(raw_i32, strided_raw_scatter_i32, i32, rule: u64);
raw!(raw_f64, strided_raw_scatter_f64, f64, rule: u64, limit: f64);

#[test]
fn rules_have_the_numbers_of_the_header() {
    let job = cuts_added();
    let names = ["ADD", "LOWEST", "HIGHEST", "REPLACE"].map(number_of);
    for (number, rule) in names.into_iter().zip(RULES) {
        let (before, updates) = ([10, 20, 30, 40, 50], [12, 7, 60]);
        let (mut by_number, mut by_name) = (before, before);
        let answer = raw_i32(number, &job, &job, &updates, &mut by_number);
        put(&job, &STARTS, &updates, &mut by_name, rule).unwrap();
        assert_eq!((answer, by_number), ([0, 0, 0, 1], by_name), "{rule:?}");

        let (before, updates) = (before.map(f64::from), updates.map(f64::from));
        let (mut by_number, mut by_name) = (before, before);
        // The limit is not read.
        let answer = raw_f64(number, -1.0, &job, &job, &updates, &mut by_number);
        put(&job, &STARTS, &updates, &mut by_name, rule).unwrap();
        assert_eq!((answer, by_number), ([0, 0, 0, 1], by_name), "{rule:?}");
    }
    let mut grid = [10.0; 5];
    let ceiling = number_of("CEILING");
    let answer = raw_f64(ceiling, 11.0, &job, &job, &[12.0, 7.0, 0.5], &mut grid);
    assert_eq!(answer, [0, 0, 0, 1]);
    assert_eq!(grid, [11.0, 10.0, 10.0, 10.0, 10.5]);
}

/// The cuts added, and one after the other what each refusal is given for,
/// with its number, as the job and the views of a call.
fn refused_calls() -> Vec<(u64, ScatterJob, ScatterJob)> {
    let changed = |number, change: &dyn Fn(&mut ScatterJob)| {
        let mut job = cuts_added();
        change(&mut job);
        (number, job.clone(), job)
    };
    let mut other = cuts_added();
    other.index = packed(&[2]);
    vec![
        (0, cuts_added(), cuts_added()),
        changed(1, &|job| job.dest.strides = vec![]),
        changed(2, &|job| job.dest = packed(&[1; 9])),
        changed(3, &|job| job.index = view(&[usize::MAX, 2], &[0, 0], 0)),
        changed(4, &|job| job.dest.strides = vec![0]),
        changed(5, &|job| job.spec.index_vector_dim = 0),
        changed(6, &|job| job.spec.inserted_window_dims = vec![1]),
        changed(7, &|job| job.updates = packed(&[4])),
        (8, cuts_added(), other),
        changed(9, &|job| job.dest.offset = -1),
    ]
}

#[test]
fn a_rule_that_is_not_listed_is_refused_first() {
    for (number, job, views) in refused_calls() {
        for rule in [0, 5, 6, 18, 1 << 32 | 1, u64::MAX] {
            let mut grid = [7; 5];
            let answer = raw_i32(rule, &job, &views, &[3, 4, 5], &mut grid);
            let refused = [18, rule, 0, 0];
            assert_eq!((answer, grid), (refused, [7; 5]), "beside {number}");
        }
        for rule in [0, 6, 18, 1 << 32 | 1, u64::MAX] {
            for limit in [0.0, f64::NAN] {
                let mut grid = [7.0; 5];
                let answer = raw_f64(rule, limit, &job, &views, &[3.0, 4.0, 5.0], &mut grid);
                let refused = [18, rule, 0, 0];
                assert_eq!((answer, grid), (refused, [7.0; 5]), "beside {number}");
            }
        }
    }
}

#[test]
fn a_listed_rule_is_refused_for_the_rest_alone() {
    for (number, job, views) in refused_calls() {
        for rule in 1..=4 {
            let mut grid = [7; 5];
            let answer = raw_i32(rule, &job, &views, &[3, 4, 5], &mut grid);
            assert_eq!(answer[0], number, "{rule}");
            assert!(number == 0 || grid == [7; 5]);
        }
        for rule in 1..=5 {
            let mut grid = [7.0; 5];
            let answer = raw_f64(rule, f64::NAN, &job, &views, &[3.0, 4.0, 5.0], &mut grid);
            assert_eq!(answer[0], number, "{rule}");
            assert!(number == 0 || grid == [7.0; 5]);
        }
    }
}

#[test]
fn slices_without_elements_and_a_rule_that_is_not_listed() {
    let job = cuts_added();
    assert_eq!(raw_i32(0, &job, &job, &[], &mut []), [18, 0, 0, 0]);
    assert_eq!(raw_f64(9, 1.0, &job, &job, &[], &mut []), [18, 9, 0, 0]);
}
