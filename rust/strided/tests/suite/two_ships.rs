//! Two ships on one grid, in both orders. They may be swapped where both add,
//! both take the lowest or both take the highest, and otherwise where no
//! element gets an update from both. A chart is copied once, by whichever ship
//! comes first.

use crate::cases::{cells, cuts_added, operand_of, packed, Cell, GatherCase, ScatterCase, RULES};
use crate::random::Random;
use crate::reference::{coordinates, landings, place, slid_in_gather, slid_in_scatter};
use std::collections::BTreeSet;
use strided::{
    Done, ElementType, OperandScatterPlan, Result, Rule, RuleF64, ScatterJob, ViewLayout,
};

const CASES: usize = 2000;

/// The rules by which two ships may be swapped wherever they land.
const ALIKE: [Rule; 3] = [Rule::Add, Rule::Lowest, Rule::Highest];

struct Ship {
    job: ScatterJob,
    starts: Vec<i64>,
    updates: Vec<i32>,
    rule: Rule,
    grid_len: usize,
}

impl Ship {
    /// A scatter that no check refuses, with a grid's layout of its own.
    fn random(random: &mut Random, rule: Rule) -> Self {
        let case = ScatterCase::random(random, ElementType::I32);
        Self::of(random, case, rule)
    }

    /// Two scatters that no check refuses, with one layout of the grid.
    fn pair(random: &mut Random, rules: [Rule; 2]) -> [Self; 2] {
        let north = ScatterCase::random(random, ElementType::I32);
        let south = north.beside(random);
        let [of_north, of_south] = rules;
        [
            Self::of(random, north, of_north),
            Self::of(random, south, of_south),
        ]
    }

    fn of(random: &mut Random, case: ScatterCase, rule: Rule) -> Self {
        Self {
            job: case.job,
            starts: case.starts,
            updates: cells(random, case.updates_len),
            rule,
            grid_len: case.dest_len,
        }
    }

    /// The same ship, on elements that lie further on in the grid.
    fn moved_by(mut self, len: usize) -> Self {
        self.job.dest.offset += len as isize;
        self.grid_len += len;
        self
    }

    /// What lands on each element of a grid, in order.
    fn landing(&self, len: usize) -> Vec<Vec<i32>> {
        let mut found = vec![vec![]; len];
        for (taken, landed) in landings(&self.job, &self.starts) {
            found[landed].push(self.updates[taken]);
        }
        found
    }

    fn put_on(&self, grid: &mut [i32]) -> Result<Done> {
        self.job.compile()?.execute_updates(
            &mut self.job.dest.view_mut(grid),
            &self.job.index.view(&self.starts),
            &self.job.updates.view(&self.updates),
            self.rule,
        )
    }

    /// Copies a chart to the grid, and goes on by its updates.
    fn put_with_operand(&self, operand: &Operand, grid: &mut [i32]) -> Result<Done> {
        let job = &self.job;
        let plan = OperandScatterPlan::compile(
            &operand.view.dims,
            &operand.view.strides,
            &job.index.dims,
            &job.index.strides,
            &job.updates.dims,
            &job.updates.strides,
            &job.dest.dims,
            &job.dest.strides,
            job.spec.clone(),
        )?;
        plan.execute_by(
            &mut job.dest.view_mut(grid),
            &operand.view.view(&operand.cells),
            &job.index.view(&self.starts),
            &job.updates.view(&self.updates),
            self.rule,
        )
    }
}

/// A chart in a layout of its own.
struct Operand {
    view: ViewLayout,
    cells: Vec<i32>,
}

impl Operand {
    fn random(random: &mut Random, dims: &[usize]) -> Self {
        let (view, len) = operand_of(random, dims);
        let cells = cells(random, len);
        Self { view, cells }
    }

    /// The elements of a grid after the copy alone.
    fn copied_to(&self, dest: &ViewLayout, grid: &[i32]) -> Vec<i32> {
        let mut copied = grid.to_vec();
        for cell in coordinates(&dest.dims) {
            copied[place(dest, &cell)] = self.cells[place(&self.view, &cell)];
        }
        copied
    }
}

/// As [`in_both_orders`], with a chart that the first of the two copies. It is
/// copied through the same destination in both orders.
fn with_an_operand(ships: [&Ship; 2], operand: &Operand, before: &[i32]) -> [Vec<i32>; 2] {
    let [north, south] = ships;
    assert_eq!(north.job.dest, south.job.dest);
    [[north, south], [south, north]].map(|[first, second]| {
        let mut grid = before.to_vec();
        let slid = [
            first.put_with_operand(operand, &mut grid),
            second.put_on(&mut grid),
        ];
        for (ship, slid) in [first, second].into_iter().zip(slid) {
            let expected = slid_in_scatter(&ship.job, &ship.starts);
            assert_eq!(slid.map(Done::slid), Ok(expected));
        }
        grid
    })
}

/// What each element holds is what the chart, or the grid, and all updates of
/// both make it.
#[test]
fn ships_with_an_operand_may_be_swapped() {
    for (seed, rule) in ALIKE.into_iter().enumerate() {
        let mut random = Random::new(41 + seed as u64);
        let mut shared = 0;
        for case in 0..CASES {
            let [north, south] = Ship::pair(&mut random, [rule, rule]);
            let operand = Operand::random(&mut random, &north.job.dest.dims);
            let before = grid_for(&mut random, [&north, &south]);
            let [one, other] = with_an_operand([&north, &south], &operand, &before);
            assert_eq!(one, other, "case {case}, {rule:?}");
            let [by_north, by_south] = [&north, &south].map(|ship| ship.landing(before.len()));
            let copied = operand.copied_to(&north.job.dest, &before);
            for (element, &held) in copied.iter().enumerate() {
                let [first, second] = [&by_north, &by_south].map(|landing| &landing[element]);
                shared += usize::from(!first.is_empty() && !second.is_empty());
                let all = first.iter().chain(second);
                let expected = all.fold(held, |held, &update| held.combined(update, rule));
                assert_eq!(one[element], expected, "case {case}, {rule:?}");
            }
        }
        assert!(shared > CASES / 10, "{rule:?}: {shared} elements from both");
    }
}

/// A chart that the second ship copies again takes the first one's cuts away.
#[test]
fn an_operand_that_is_copied_twice() {
    let operand = Operand {
        view: packed(&[3]),
        cells: vec![900; 3],
    };
    let ships = [single(Rule::Add, -30), single(Rule::Add, -40)];
    let [one, other] = with_an_operand([&ships[0], &ships[1]], &operand, &[0; 3]);
    assert_eq!([one, other], [[900, 830, 900]; 2]);
    let mut grid = [0; 3];
    for ship in &ships {
        ship.put_with_operand(&operand, &mut grid).unwrap();
    }
    assert_eq!(grid, [900, 860, 900]);
}

/// The grid after both ships, in either order. Both are accepted in both, and
/// as many of a ship's windows slide whatever the other has done.
fn in_both_orders(ships: [&Ship; 2], before: &[i32]) -> [Vec<i32>; 2] {
    let [north, south] = ships;
    [[north, south], [south, north]].map(|order| {
        let mut grid = before.to_vec();
        for ship in order {
            let slid = ship.put_on(&mut grid).map(Done::slid);
            assert_eq!(slid, Ok(slid_in_scatter(&ship.job, &ship.starts)));
        }
        grid
    })
}

fn grid_for(random: &mut Random, ships: [&Ship; 2]) -> Vec<i32> {
    let [north, south] = ships;
    cells(random, north.grid_len.max(south.grid_len))
}

#[test]
fn ships_of_like_rules_may_be_swapped() {
    for (seed, rule) in ALIKE.into_iter().enumerate() {
        let mut random = Random::new(51 + seed as u64);
        let mut shared = 0;
        for case in 0..CASES {
            let [north, south] = [0, 0].map(|_| Ship::random(&mut random, rule));
            let before = grid_for(&mut random, [&north, &south]);
            let [one, other] = in_both_orders([&north, &south], &before);
            assert_eq!(one, other, "case {case}, {rule:?}");
            let [by_north, by_south] = [&north, &south].map(|ship| ship.landing(before.len()));
            for (element, &held) in before.iter().enumerate() {
                let [first, second] = [&by_north, &by_south].map(|landing| &landing[element]);
                shared += usize::from(!first.is_empty() && !second.is_empty());
                let all = first.iter().chain(second);
                let expected = all.fold(held, |held, &update| held.combined(update, rule));
                assert_eq!(one[element], expected, "case {case}, {rule:?}");
            }
        }
        assert!(shared > CASES / 10, "{rule:?}: {shared} elements from both");
    }
}

/// Whether no element gets an update from both.
fn apart(ships: [&Ship; 2]) -> bool {
    let [north, south] = ships.map(|ship| landings(&ship.job, &ship.starts));
    let by_north: BTreeSet<usize> = north.into_iter().map(|(_, landed)| landed).collect();
    !south.iter().any(|(_, landed)| by_north.contains(landed))
}

/// A pair of ships that land on elements apart: one beyond the other, or as
/// they happen to be.
fn ships_apart(random: &mut Random, rules: [Rule; 2]) -> [Ship; 2] {
    loop {
        let [north, south] = rules.map(|rule| Ship::random(random, rule));
        let south = match random.one_in(2) {
            true => south.moved_by(north.grid_len),
            false => south,
        };
        if apart([&north, &south]) {
            return [north, south];
        }
    }
}

#[test]
fn ships_apart_may_be_swapped_whatever_their_rules() {
    let mut random = Random::new(61);
    for rules in RULES
        .map(|north| RULES.map(|south| [north, south]))
        .concat()
    {
        let mut landed = [0, 0];
        for case in 0..CASES / 16 {
            let [north, south] = ships_apart(&mut random, rules);
            let before = grid_for(&mut random, [&north, &south]);
            let [one, other] = in_both_orders([&north, &south], &before);
            assert_eq!(one, other, "case {case}, {rules:?}");
            let mut alone = [before.clone(), before.clone()];
            assert!(north.put_on(&mut alone[0]).is_ok());
            assert!(south.put_on(&mut alone[1]).is_ok());
            let landing = [&north, &south].map(|ship| ship.landing(before.len()));
            for (element, held) in before.into_iter().enumerate() {
                let lands = [0, 1].map(|ship: usize| !landing[ship][element].is_empty());
                let expected = match lands {
                    [true, _] => alone[0][element],
                    [_, true] => alone[1][element],
                    _ => held,
                };
                assert_eq!(one[element], expected, "case {case}, {rules:?}");
                landed[0] += usize::from(lands[0]);
                landed[1] += usize::from(lands[1]);
            }
        }
        assert!(landed.iter().all(|&count| count > CASES / 16), "{rules:?}");
    }
}

/// A window that is read before and after a ship has been there slides as
/// often, whatever the ship has put on it.
#[test]
fn a_gather_beside_a_ship_slides_as_often() {
    let mut random = Random::new(71);
    let mut slid = [0, 0];
    for case in 0..CASES {
        let rule = random.pick(&RULES);
        let ship = Ship::random(&mut random, rule);
        let GatherCase {
            job,
            operand_len,
            starts,
            dest_len,
        } = GatherCase::random(&mut random, ElementType::I32);
        let plan = job.compile().unwrap();
        let mut grid = cells(&mut random, ship.grid_len.max(operand_len));
        let mut window = vec![0; dest_len];
        let mut read = |grid: &[i32]| {
            let dest = &mut job.dest.view_mut(&mut window);
            plan.execute(dest, &job.operand.view(grid), &job.index.view(&starts))
        };
        let before = read(&grid).unwrap();
        let of_ship = ship.put_on(&mut grid).unwrap();
        assert_eq!(read(&grid), Ok(before), "case {case}");
        assert_eq!(before.slid(), slid_in_gather(&job, &starts), "case {case}");
        slid[0] += usize::from(before.slid() > 0);
        slid[1] += usize::from(of_ship.slid() > 0);
    }
    assert!(slid.iter().all(|&count| count > CASES / 4), "{slid:?}");
}

/// A ship with one update, for the middle one of three cells.
fn single(rule: Rule, update: i32) -> Ship {
    let mut job = cuts_added();
    job.index = packed(&[1]);
    job.updates = packed(&[1]);
    job.dest = packed(&[3]);
    Ship {
        job,
        starts: vec![1],
        updates: vec![update],
        rule,
        grid_len: 3,
    }
}

/// The cell that both ships land on, in either order.
fn on_one_cell(held: i32, north: (Rule, i32), south: (Rule, i32)) -> [i32; 2] {
    let [north, south] = [north, south].map(|(rule, update)| single(rule, update));
    let before = [held; 3];
    in_both_orders([&north, &south], &before).map(|grid| {
        assert_eq!((grid[0], grid[2]), (held, held));
        grid[1]
    })
}

#[test]
fn on_one_cell_the_order_shows() {
    let [replace, add, lowest] = [Rule::Replace, Rule::Add, Rule::Lowest];
    assert_eq!(on_one_cell(5, (replace, 4), (replace, 6)), [6, 4]);
    assert_eq!(on_one_cell(5, (add, 3), (lowest, 4)), [4, 7]);
    // So it does for every other pair of rules.
    let numbers = [1, 5, 9];
    for [north, south] in RULES
        .map(|north| RULES.map(|south| [north, south]))
        .concat()
    {
        let differs = numbers.map(|held| {
            numbers.map(|first| {
                numbers.map(|second| {
                    let [one, other] = on_one_cell(held, (north, first), (south, second));
                    one != other
                })
            })
        });
        let found = differs.concat().concat().contains(&true);
        let alike = north == south && ALIKE.contains(&north);
        assert_eq!(found, !alike, "{north:?} and {south:?}");
    }
}

/// On `f64` grids two ships that take the lowest may not be swapped: of two
/// zeros the first stays.
#[test]
fn zeros_of_f64_show_the_order() {
    let after = |updates: [f64; 2]| {
        let mut job = cuts_added();
        job.index = packed(&[1]);
        job.updates = packed(&[1]);
        let mut grid = [1.0; 5];
        for update in updates {
            let plan = job.compile().unwrap();
            plan.execute_updates(
                &mut job.dest.view_mut(&mut grid),
                &job.index.view(&[2]),
                &job.updates.view(&[update]),
                RuleF64::Lowest,
            )
            .unwrap();
        }
        grid[2].to_bits()
    };
    assert_eq!(after([0.0, -0.0]), 0.0f64.to_bits());
    assert_eq!(after([-0.0, 0.0]), (-0.0f64).to_bits());
}
