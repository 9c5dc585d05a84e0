//! Scatters that copy an operand first: beside plain loops, the refusals in
//! their order, and what the copy leaves alone.

use crate::arguments::{change_scatter, change_view, wild_scatter, wild_starts, wild_view};
use crate::arguments::{CASES as WILD_CASES, MOST_UPDATES};
use crate::cases::{
    bits, cells, cuts_added, nested_of, operand_of, packed, summed, view, Cell, ScatterCase,
};
use crate::random::Random;
use crate::reference::{coordinates, landings, place, plain_scatter, slid_in_scatter};
use strided::ffi::{self, Answer};
use strided::{
    Done, Element, OperandScatterPlan, Result, Rule, RuleF64, ScatterJob, StridedError, ViewLayout,
};

const CASES: usize = 4000;

pub fn compiled(operand: &ViewLayout, job: &ScatterJob) -> Result<OperandScatterPlan> {
    OperandScatterPlan::compile(
        &operand.dims,
        &operand.strides,
        &job.index.dims,
        &job.index.strides,
        &job.updates.dims,
        &job.updates.strides,
        &job.dest.dims,
        &job.dest.strides,
        job.spec.clone(),
    )
}

/// A scatter with the view of its operand.
type Views<'a> = (&'a ViewLayout, &'a ScatterJob);

/// The elements of a call but the destination's.
type Slices<'a, T> = (&'a [T], &'a [i64], &'a [T]);

fn put<T: Element>(
    plan: &OperandScatterPlan,
    (operand, views): Views,
    (operand_cells, starts, updates): Slices<T>,
    dest: &mut [T],
    rule: impl Into<T::Rule>,
) -> Result<Done> {
    plan.execute_by(
        &mut views.dest.view_mut(dest),
        &operand.view(operand_cells),
        &views.index.view(starts),
        &views.updates.view(updates),
        rule,
    )
}

/// Copies cell by cell.
fn plain_copy<T: Copy>(
    operand: &ViewLayout,
    operand_cells: &[T],
    job: &ScatterJob,
    dest: &mut [T],
) {
    for cell in coordinates(&job.dest.dims) {
        dest[place(&job.dest, &cell)] = operand_cells[place(operand, &cell)];
    }
}

#[test]
fn scatters_of_i32() {
    scatters::<i32>(81);
}

#[test]
fn scatters_of_f64() {
    scatters::<f64>(82);
}

/// By any rule, beside the plain loops, and beside the update-only call on a
/// grid that the loops have copied the operand to.
fn scatters<T: Cell>(seed: u64) {
    let mut random = Random::new(seed);
    for case in 0..CASES {
        let call = ScatterCase::random(&mut random, T::TYPE);
        let (operand, operand_len) = operand_of(&mut random, &call.job.dest.dims);
        let operand_cells = cells::<T>(&mut random, operand_len);
        let updates = cells::<T>(&mut random, call.updates_len);
        let before = cells::<T>(&mut random, call.dest_len);
        let rule = T::rule(&mut random);

        let mut copied = before.clone();
        plain_copy(&operand, &operand_cells, &call.job, &mut copied);
        let mut expected = copied.clone();
        plain_scatter(&call.job, &call.starts, &updates, &mut expected, rule);

        let plan = compiled(&operand, &call.job).expect("a valid scatter");
        let slices = (&operand_cells[..], &call.starts[..], &updates[..]);
        let mut dest = before.clone();
        let done = put(&plan, (&operand, &call.job), slices, &mut dest, rule);
        let slid = slid_in_scatter(&call.job, &call.starts);
        assert_eq!(done.map(Done::slid), Ok(slid), "case {case}");
        assert_eq!(summed(&dest), summed(&expected), "case {case}, {rule:?}");
        keeps_bits(&call, &copied, &dest);

        let update_only = call.job.compile().expect("a valid scatter");
        let done_after = update_only.execute_updates(
            &mut call.job.dest.view_mut(&mut copied),
            &call.job.index.view(&call.starts),
            &call.job.updates.view(&updates),
            rule,
        );
        assert_eq!(done_after, done, "case {case}");
        assert_eq!(summed(&copied), summed(&dest), "case {case}, {rule:?}");
    }
}

/// Where no update lands, a cell has the operand's bits and any other element
/// its own.
fn keeps_bits<T: Cell>(call: &ScatterCase, copied: &[T], dest: &[T]) {
    let landed = landings(&call.job, &call.starts);
    for (element, held) in bits(copied).into_iter().enumerate() {
        if !landed.iter().any(|&(_, place)| place == element) {
            assert_eq!(dest[element].bits(), held);
        }
    }
}

/// The cuts added, and a chart of five cells for them.
fn five_cells() -> ViewLayout {
    packed(&[5])
}

/// A call with something wrong in it.
struct Fault {
    name: &'static str,
    made: fn(&mut ViewLayout, &mut ScatterJob),
    answer: [u64; 3],
}

const OVERFLOW: [u64; 3] = [3, 0, 0];

fn fault(
    name: &'static str,
    answer: [u64; 3],
    made: fn(&mut ViewLayout, &mut ScatterJob),
) -> Fault {
    Fault { name, made, answer }
}

/// More cells than can be counted; that a later extent is 0 is no excuse.
fn too_many() -> ViewLayout {
    view(&[usize::MAX, 2, 0], &[0, 0, 0], 0)
}

/// What is looked at before the lists, in the order in which it counts.
fn faults_of_layouts() -> Vec<Fault> {
    vec![
        fault("1 operand", [1, 0, 0], |operand, _| operand.strides.push(1)),
        fault("1 index", [1, 0, 0], |_, job| job.index.strides.clear()),
        fault("1 updates", [1, 0, 0], |_, job| job.updates.strides.push(1)),
        fault("1 destination", [1, 0, 0], |_, job| job.dest.dims.push(1)),
        fault("2 operand", [2, 9, 8], |operand, _| {
            *operand = packed(&[1; 9])
        }),
        fault("2 index", [2, 10, 8], |_, job| job.index = packed(&[1; 10])),
        fault("2 updates", [2, 11, 8], |_, job| {
            job.updates = packed(&[1; 11])
        }),
        fault("2 destination", [2, 12, 8], |_, job| {
            job.dest = packed(&[1; 12])
        }),
        fault("product of the operand", OVERFLOW, |operand, _| {
            *operand = too_many()
        }),
        fault("product of the index", OVERFLOW, |_, job| {
            job.index = too_many()
        }),
        fault("product of the updates", OVERFLOW, |_, job| {
            job.updates = too_many()
        }),
        fault("shapes", [7, 1, 2], |operand, job| {
            *operand = packed(&[5, 1]);
            job.dest.dims = vec![5];
            job.dest.strides.truncate(1);
        }),
        fault("span of the destination", OVERFLOW, |_, job| {
            job.dest.strides = vec![isize::MAX]
        }),
        fault("span of the operand", OVERFLOW, |operand, _| {
            operand.strides = vec![isize::MIN]
        }),
        fault("4", [4, 0, 0], |_, job| job.dest.strides = vec![0]),
    ]
}

/// What is looked at after them, as in the update-only scatter.
fn faults_of_lists() -> Vec<Fault> {
    vec![
        fault("inserted axes", [6, 9, 1], |_, job| {
            job.spec.inserted_window_dims = vec![9]
        }),
        fault("scatter map", [6, 8, 1], |_, job| {
            job.spec.scatter_dims_to_operand_dims = vec![8]
        }),
        fault("vector axis", [6, 7, 2], |_, job| {
            job.spec.index_vector_dim = 7
        }),
        fault("window axes", [5, 1, 0], |_, job| {
            job.spec.update_window_dims = vec![0]
        }),
        fault("batch rank", [5, 2, 1], |_, job| {
            job.updates = packed(&[3, 1])
        }),
        fault("batch extents", [7, 1, 1], |_, job| {
            job.updates = packed(&[4])
        }),
    ]
}

fn answer_with(faults: &[&Fault]) -> Result<()> {
    let (mut operand, mut job) = (five_cells(), cuts_added());
    // The first one is made last, so that it stands as it is.
    for fault in faults.iter().rev() {
        (fault.made)(&mut operand, &mut job);
    }
    compiled(&operand, &job).map(drop)
}

#[test]
fn the_first_refusal_counts() {
    assert_eq!(answer_with(&[]), Ok(()));
    let faults = [faults_of_layouts(), faults_of_lists()].into_iter();
    let faults: Vec<Fault> = faults.flatten().collect();
    for (place, first) in faults.iter().enumerate() {
        let answer = |second: Option<&Fault>| {
            let made: Vec<&Fault> = [first].into_iter().chain(second).collect();
            let refusal = answer_with(&made).expect_err(first.name);
            let numbers = [refusal.number(), refusal.a(), refusal.b()];
            let second = second.map_or("alone", |second| second.name);
            assert_eq!(numbers, first.answer, "{}, {second}", first.name);
        };
        answer(None);
        for second in &faults[place + 1..] {
            answer(Some(second));
        }
    }
}

#[test]
fn a_shape_that_is_not_the_operands() {
    let refusal = |operand: ViewLayout| compiled(&operand, &cuts_added()).unwrap_err();
    for (dims, rank) in [(&[4][..], 1), (&[5, 1], 2), (&[1, 5], 2), (&[], 0)] {
        let named = StridedError::ShapeMismatch {
            given: 1,
            expected: rank,
        };
        assert_eq!(refusal(packed(dims)), named);
    }
}

/// The cuts added to a chart, compiled as they are, with other views.
fn put_with(operand: &ViewLayout, views: &ScatterJob) -> Result<Done> {
    let plan = compiled(&five_cells(), &cuts_added())?;
    let mut dest = [7; 5];
    let answer = plan.execute(
        &mut views.dest.view_mut(&mut dest),
        &operand.view(&[10, 20, 30, 40, 50]),
        &views.index.view(&[0, 0, 9]),
        &views.updates.view(&[3, 4, 5]),
    );
    match answer {
        Ok(_) => assert_eq!(dest, [17, 20, 30, 40, 55]),
        Err(_) => assert_eq!(dest, [7; 5]),
    }
    answer
}

/// The view of each number of a call.
fn views_of<'a>(
    operand: &'a mut ViewLayout,
    job: &'a mut ScatterJob,
) -> [(u64, &'a mut ViewLayout); 4] {
    let views = [operand, &mut job.index, &mut job.updates, &mut job.dest];
    let mut number = 0;
    views.map(|view| {
        number += 1;
        (number, view)
    })
}

#[test]
fn a_view_of_another_layout() {
    let layouts = [
        view(&[4], &[1], 0),
        view(&[5], &[2], 0),
        view(&[3], &[-1], 2),
        packed(&[]),
    ];
    assert_eq!(
        put_with(&five_cells(), &cuts_added()).map(Done::slid),
        Ok(1),
        "unchanged it is done"
    );
    for changed in 1..=4 {
        for layout in &layouts {
            let (mut operand, mut job) = (five_cells(), cuts_added());
            for (number, view) in views_of(&mut operand, &mut job) {
                match number == changed {
                    true => *view = layout.clone(),
                    // 8 is given before the bounds of any view are looked at.
                    false => view.offset = -1,
                }
            }
            let refusal = put_with(&operand, &job).unwrap_err();
            assert_eq!(refusal, StridedError::PlanLayoutMismatch, "view {changed}");
        }
    }
}

#[test]
fn views_outside_their_slices_in_turn() {
    for first in 1..=4 {
        for offset in [-1, 1, isize::MIN, isize::MAX] {
            let (mut operand, mut job) = (five_cells(), cuts_added());
            for (number, view) in views_of(&mut operand, &mut job) {
                if number >= first {
                    view.offset = offset;
                }
            }
            let bytes_needed = 0;
            let view = first;
            let named = StridedError::BufferBounds { view, bytes_needed };
            assert_eq!(put_with(&operand, &job), Err(named));
        }
    }
}

/// What the destination held is gone: a rule goes by the chart's cell.
#[test]
fn rules_go_by_the_operand() {
    let after = |rule: Rule| {
        let plan = compiled(&five_cells(), &cuts_added()).unwrap();
        let slices = (&[10, 20, 30, 40, 50][..], &[0, 0, 9][..], &[12, 7, 60][..]);
        [i32::MIN, i32::MAX].map(|held| {
            let mut dest = [held; 5];
            put(
                &plan,
                (&five_cells(), &cuts_added()),
                slices,
                &mut dest,
                rule,
            )
            .unwrap();
            dest
        })
    };
    assert_eq!(after(Rule::Add), [[29, 20, 30, 40, 110]; 2]);
    assert_eq!(after(Rule::Lowest), [[7, 20, 30, 40, 50]; 2]);
    assert_eq!(after(Rule::Highest), [[12, 20, 30, 40, 60]; 2]);
    assert_eq!(after(Rule::Replace), [[7, 20, 30, 40, 60]; 2]);
}

#[test]
fn a_ceiling_over_the_operand() {
    let plan = compiled(&five_cells(), &cuts_added()).unwrap();
    let mut dest = [0.0; 5];
    let operand_cells = [4.5, 9.0, 1.0, 1.0, f64::NAN];
    let slices = (&operand_cells[..], &[0, 0, 2][..], &[2.0, -1.0, 1.0][..]);
    let views = (&five_cells(), &cuts_added());
    put(&plan, views, slices, &mut dest, RuleF64::Ceiling(5.0)).unwrap();
    // What is above the limit stays where nothing lands.
    assert_eq!(dest[..4], [4.0, 9.0, 2.0, 1.0]);
    assert!(dest[4].is_nan());
}

#[test]
fn bits_of_the_operand_are_copied() {
    let nans = [0x7ff0_0000_0000_0001, 0x7ff8_dead_beef_cafe, 0xfff8 << 48].map(f64::from_bits);
    let operand_cells = [nans[0], nans[1], nans[2], -0.0, 1.5];
    for rule in [RuleF64::Lowest, RuleF64::Highest] {
        let plan = compiled(&five_cells(), &cuts_added()).unwrap();
        let mut dest = [3.0; 5];
        let slices = (&operand_cells[..], &[0, 1, 3][..], &[2.0, 2.0, 0.0][..]);
        put(
            &plan,
            (&five_cells(), &cuts_added()),
            slices,
            &mut dest,
            rule,
        )
        .unwrap();
        assert_eq!(bits(&dest), bits(&operand_cells), "{rule:?}");
    }
}

#[test]
fn elements_between_the_cells_stay() {
    let mut job = cuts_added();
    job.dest = view(&[5], &[-2], 9);
    let one_sounding = view(&[5], &[0], 1);
    let plan = compiled(&one_sounding, &job).unwrap();
    let mut dest: [i32; 11] = core::array::from_fn(|place| place as i32);
    let slices = (&[0, 900][..], &[0, 0, 9][..], &[3, 4, 5][..]);
    let done = put(&plan, (&one_sounding, &job), slices, &mut dest, Rule::Add);
    assert_eq!(done.map(Done::slid), Ok(1));
    assert_eq!(dest, [0, 905, 2, 900, 4, 900, 6, 900, 8, 907, 10]);
}

/// The copy alone is left where there are no updates; and a grid without cells
/// has nothing copied, though its views must lie in their slices.
#[test]
fn no_updates_and_no_cells() {
    let mut job = cuts_added();
    job.index = packed(&[0]);
    job.updates = packed(&[0]);
    let backwards = view(&[5], &[-1], 4);
    let plan = compiled(&backwards, &job).unwrap();
    let mut dest = [0; 5];
    let slices = (&[1, 2, 3, 4, 5][..], &[][..], &[][..]);
    let done = put(&plan, (&backwards, &job), slices, &mut dest, Rule::Add);
    assert_eq!((done.map(Done::slid), dest), (Ok(0), [5, 4, 3, 2, 1]));

    job.dest = view(&[0], &[1], 0);
    job.spec.inserted_window_dims = vec![];
    job.spec.update_window_dims = vec![0];
    job.index = packed(&[3]);
    job.updates = packed(&[0, 3]);
    let none = view(&[0], &[7], 2);
    let plan = compiled(&none, &job).unwrap();
    let put_none = |operand: &ViewLayout| {
        let slices = (&[8, 9][..], &[1, 2, 3][..], &[][..]);
        let mut dest = [4; 2];
        let done = put(&plan, (operand, &job), slices, &mut dest, Rule::Add);
        assert_eq!(dest, [4; 2]);
        done.map(Done::slid).map_err(|refusal| refusal.a())
    };
    assert_eq!(put_none(&none), Ok(0));
    assert_eq!(put_none(&view(&[0], &[7], 3)), Err(1));
}

/// The copy alone, over eight axes, some of which lie behind each other in both
/// layouts, in one, or in none.
#[test]
fn copies_of_eight_axes() {
    let mut random = Random::new(85);
    for case in 0..CASES / 4 {
        let dims = random.list(8, |random| random.pick(&[1, 1, 1, 2, 2, 3]));
        let mut job = cuts_added();
        let (dest, dest_len) = nested_of(&mut random, &dims);
        job.dest = dest;
        job.index = packed(&[0]);
        job.updates = packed(&[0]);
        job.spec.inserted_window_dims = (0..8).collect();
        let (operand, operand_len) = match random.below(3) {
            0 => operand_of(&mut random, &dims),
            1 => nested_of(&mut random, &dims),
            // The destination's own layout: one run of it all.
            _ => (job.dest.clone(), dest_len),
        };
        let operand_cells = cells::<i32>(&mut random, operand_len);
        let mut dest = cells::<i32>(&mut random, dest_len);
        let mut expected = dest.clone();
        plain_copy(&operand, &operand_cells, &job, &mut expected);
        let plan = compiled(&operand, &job).expect("a valid scatter");
        let slices = (&operand_cells[..], &[][..], &[][..]);
        let done = put(&plan, (&operand, &job), slices, &mut dest, Rule::Add);
        assert_eq!(done.map(Done::slid), Ok(0), "case {case}");
        assert_eq!(dest, expected, "case {case}: {operand:?} to {:?}", job.dest);
    }
}

/// The cuts added to a chart by the library itself, with a number for the rule
/// and a vector axis, of which all but 1 are refused.
fn by_number(rule: u64, vector: u64, dest: &mut [i32]) -> Answer {
    let (five, three, one) = ([5], [3], [1]);
    ffi::strided_raw_scatter_operand_i32(
        rule,
        &five,
        &one,
        &three,
        &one,
        &three,
        &one,
        &five,
        &one,
        &[],
        &[0],
        &[0],
        vector,
        &five,
        &one,
        0,
        &three,
        &one,
        0,
        &three,
        &one,
        0,
        &five,
        &one,
        0,
        &[10, 20, 30, 40, 50],
        &[0, 0, 9],
        &[3, 4, 5],
        dest,
    )
}

#[test]
fn a_rule_that_is_not_listed_copies_nothing() {
    let mut dest = [7; 5];
    for rule in [0, 5, 6, u64::MAX] {
        for vector in [1, 9] {
            assert_eq!(by_number(rule, vector, &mut dest), [18, rule, 0, 0]);
        }
    }
    assert_eq!(by_number(1, 9, &mut dest), [6, 9, 2, 0]);
    assert_eq!(dest, [7; 5]);
    assert_eq!(by_number(1, 1, &mut dest), [0, 0, 0, 1]);
    assert_eq!(dest, [17, 20, 30, 40, 55]);
}

/// Compiles and executes; no answer where there are too many updates. Where it
/// is refused the destination stays.
fn answered<T: Cell>(
    random: &mut Random,
    (operand, job): Views,
    (operand_view, views): Views,
    starts: &[i64],
    [operand_len, updates_len, dest_len]: [usize; 3],
) -> Result<Option<Done>> {
    let plan = compiled(operand, job)?;
    if job.updates.dims.iter().product::<usize>() > MOST_UPDATES {
        return Ok(None);
    }
    let operand_cells = cells::<T>(random, operand_len);
    let updates = cells::<T>(random, updates_len);
    let before = cells::<T>(random, dest_len);
    let mut dest = before.clone();
    let slices = (&operand_cells[..], starts, &updates[..]);
    let rule = T::rule(random);
    let answer = put(&plan, (operand_view, views), slices, &mut dest, rule);
    assert!(answer.is_ok() || bits(&dest) == bits(&before), "{job:?}");
    answer.map(Some)
}

#[test]
fn wild_scatters() {
    let mut random = Random::new(83);
    for _ in 0..WILD_CASES {
        let mut job = wild_scatter(&mut random);
        let operand = wild_view(&mut random);
        if random.one_in(2) {
            job.dest.dims = operand.dims.clone();
        }
        let starts = wild_starts(&mut random);
        let lens = [0; 3].map(|_: usize| random.below(12));
        let call = (&operand, &job);
        let _ = answered::<i32>(&mut random, call, call, &starts, lens);
        let _ = answered::<f64>(&mut random, call, call, &starts, lens);
    }
}

#[test]
fn scatters_with_something_changed() {
    let mut random = Random::new(84);
    let mut seen = [0; 11];
    for _ in 0..WILD_CASES {
        let case = ScatterCase::random(&mut random, f64::TYPE);
        let (mut operand, operand_len) = operand_of(&mut random, &case.job.dest.dims);
        let mut job = case.job;
        let change =
            |random: &mut Random, operand: &mut ViewLayout, job: &mut ScatterJob| match random
                .one_in(3)
            {
                true => change_view(random, operand),
                false => change_scatter(random, job),
            };
        if random.one_in(2) {
            change(&mut random, &mut operand, &mut job);
        }
        let (mut operand_view, mut views) = (operand.clone(), job.clone());
        if random.one_in(3) {
            change(&mut random, &mut operand_view, &mut views);
        }
        let lens = [operand_len, case.updates_len, case.dest_len];
        let (call, views) = ((&operand, &job), (&operand_view, &views));
        let answer = answered::<f64>(&mut random, call, views, &case.starts, lens);
        seen[answer.err().map_or(0, |refusal| refusal.number()) as usize] += 1;
    }
    let unseen: Vec<usize> = (0..10).filter(|&number| seen[number] == 0).collect();
    assert!(unseen.is_empty(), "no case was answered by {unseen:?}");
}
