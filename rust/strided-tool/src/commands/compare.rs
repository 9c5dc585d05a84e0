//! `strided compare`.

use std::fmt::Display;
use std::path::Path;
use std::process::ExitCode;

use super::print_out;
use crate::cli::CompareArgs;
use crate::failure::{Failure, Outcome};
use crate::job_text::list;
use crate::npy::{shape_in_words, Grid, Header, Item, Kind, Opened};
use crate::progress;

/// The exit status where elements differ, as `cmp` has it.
const DIFFERENT: u8 = 1;

pub fn run(args: &CompareArgs) -> Outcome<ExitCode> {
    let before = Opened::open(&args.before)?;
    let after = Opened::open(&args.after)?;
    comparable(&args.before, before.header(), &args.after, after.header())?;
    match before.header().kind {
        Kind::I32 => compare::<i32>(before, after),
        Kind::F64 => compare::<f64>(before, after),
        Kind::I64 => Err(Failure::of_file(
            &args.before,
            "it holds i64; grids of i32 and f64 are compared",
        )),
    }
}

fn comparable(one: &Path, first: &Header, other: &Path, second: &Header) -> Outcome<()> {
    let in_words =
        |header: &Header| format!("{} of {}", shape_in_words(&header.shape), header.kind);
    if first.kind == second.kind && first.shape == second.shape {
        return Ok(());
    }
    Err(Failure::Unusable(format!(
        "{} is {} and {} is {}; compare grids of one shape and element",
        one.display(),
        in_words(first),
        other.display(),
        in_words(second)
    )))
}

/// An element whose changes are counted.
trait Changing: Item {
    /// A change, and a sum of changes.
    type Change: Copy + Default + PartialOrd + Display;

    /// Whether the two are the same; a NaN is the same as a NaN.
    fn same(before: Self, after: Self) -> bool;
    /// What was added; none where either is a NaN.
    fn change(before: Self, after: Self) -> Option<Self::Change>;
    /// The sum with one change more.
    fn sum(sum: Self::Change, change: Self::Change) -> Self::Change;
}

impl Changing for i32 {
    type Change = i128;

    fn same(before: i32, after: i32) -> bool {
        before == after
    }

    fn change(before: i32, after: i32) -> Option<i128> {
        i128::from(after).checked_sub(i128::from(before))
    }

    fn sum(sum: i128, change: i128) -> i128 {
        sum.saturating_add(change)
    }
}

impl Changing for f64 {
    type Change = f64;

    fn same(before: f64, after: f64) -> bool {
        before == after || (before.is_nan() && after.is_nan())
    }

    fn change(before: f64, after: f64) -> Option<f64> {
        Some(after - before).filter(|change| !change.is_nan())
    }

    fn sum(sum: f64, change: f64) -> f64 {
        sum + change
    }
}

/// What differs between two grids.
struct Changes<C> {
    count: usize,
    without: usize,
    sum: C,
    lowest: Option<(C, Vec<usize>)>,
    highest: Option<(C, Vec<usize>)>,
    corners: Option<(Vec<usize>, Vec<usize>)>,
}

fn compare<T: Changing>(before: Opened, after: Opened) -> Outcome<ExitCode> {
    let before: Grid<T> = before.elements()?;
    let after: Grid<T> = after.elements()?;
    let changes = progress::timed("comparing", || changes(&before, &after));
    print_out(&changes.in_words(before.data.len()))?;
    Ok(match changes.count {
        0 => ExitCode::SUCCESS,
        _ => ExitCode::from(DIFFERENT),
    })
}

fn changes<T: Changing>(before: &Grid<T>, after: &Grid<T>) -> Changes<T::Change> {
    let mut changes = Changes {
        count: 0,
        without: 0,
        sum: T::Change::default(),
        lowest: None,
        highest: None,
        corners: None,
    };
    for (number, (old, new)) in (0_usize..).zip(before.cells().zip(after.cells())) {
        if !T::same(old, new) {
            changes.take::<T>(before.coordinates(number), T::change(old, new));
        }
    }
    changes
}

impl<C: Copy + PartialOrd + Display> Changes<C> {
    fn take<T: Changing<Change = C>>(&mut self, at: Vec<usize>, change: Option<C>) {
        self.count = self.count.saturating_add(1);
        self.reach(&at);
        let Some(change) = change else {
            self.without = self.without.saturating_add(1);
            return;
        };
        self.sum = T::sum(self.sum, change);
        if self
            .lowest
            .as_ref()
            .is_none_or(|(lowest, _)| change < *lowest)
        {
            self.lowest = Some((change, at.clone()));
        }
        if self
            .highest
            .as_ref()
            .is_none_or(|(highest, _)| change > *highest)
        {
            self.highest = Some((change, at));
        }
    }

    /// The corners of the part in which all changes lie.
    fn reach(&mut self, at: &[usize]) {
        match &mut self.corners {
            None => self.corners = Some((at.to_vec(), at.to_vec())),
            Some((low, high)) => {
                for ((low, high), here) in low.iter_mut().zip(high).zip(at) {
                    *low = (*low).min(*here);
                    *high = (*high).max(*here);
                }
            }
        }
    }

    fn in_words(&self, total: usize) -> String {
        let mut lines = vec![format!("{} of {total} elements differ", self.count)];
        if let Some((low, high)) = &self.corners {
            lines.push(format!("they lie from {} to {}", list(low), list(high)));
        }
        if let (Some((low, low_at)), Some((high, high_at))) = (&self.lowest, &self.highest) {
            lines.push(format!("sum of changes {}", self.sum));
            lines.push(format!("lowest change {low} at {}", list(low_at)));
            lines.push(format!("highest change {high} at {}", list(high_at)));
        }
        if self.without > 0 {
            lines.push(format!(
                "{} of them are from or to NaN, or between infinities, and have no change that could be added",
                self.without
            ));
        }
        lines.push(String::new());
        lines.join("\n")
    }
}
