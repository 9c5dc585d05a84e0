//! Operands for scatters: base charts in layouts of their own, of the same
//! extents as the destination, with strides that merge with the destination's
//! and others; and faults in them, alone and beside those of the call.

use crate::contents::elements;
use crate::edges::STRIDES;
use crate::faults;
use crate::random::Random;
use crate::valid::{any_strides, placed};
use lines::{Call, Data, Element, Layout, Operand, Spec, View};

/// No slice that is made here is longer.
const MOST_ELEMENTS: i128 = 20_000;

/// Calls of which so many scatters in a hundred have been given an operand.
pub struct WithOperands<C> {
    calls: C,
    random: Random,
    percent: u64,
}

impl<C> WithOperands<C> {
    pub fn new(calls: C, seed: u64, percent: u64) -> Self {
        WithOperands {
            calls,
            random: Random::new(seed.rotate_left(16) ^ 0x6f_70_65_72),
            percent,
        }
    }
}

impl<C: Iterator<Item = Call>> Iterator for WithOperands<C> {
    type Item = Call;

    fn next(&mut self) -> Option<Call> {
        let mut call = self.calls.next()?;
        let scatter = matches!(call.job.spec, Spec::Scatter(_));
        if scatter && self.random.percent(self.percent) {
            give_operand(&mut self.random, &mut call);
        }
        Some(call)
    }
}

fn give_operand(random: &mut Random, call: &mut Call) {
    let dest = &call.job.dest().layout;
    let strides = strides(random, dest);
    let (view, len) = view(random, dest.extents.clone(), strides);
    let data = match random.percent(20) {
        true => any_bits(random, call.job.element, len),
        false => elements(random, call.job.element, len),
    };
    let mut operand = Operand {
        view,
        data,
        layout: None,
    };
    for _ in 0..random.pick(&[0, 0, 0, 0, 0, 0, 1, 1, 1, 2]) {
        fault(random, &mut operand, &mut call.job.views[2].layout);
    }
    call.operand = Some(operand);
}

fn any_bits(random: &mut Random, element: Element, len: usize) -> Data {
    match element {
        Element::I32 => Data::I32((0..len).map(|_| random.next() as i32).collect()),
        Element::F64 => Data::F64((0..len).map(|_| random.next()).collect()),
    }
}

/// Strides beside the destination's: its own, turned round or in another
/// measure, so that the same axes merge; its own in another order; packed;
/// 0; or any.
fn strides(random: &mut Random, dest: &Layout) -> Vec<i64> {
    let same = dest.strides.len() == dest.extents.len();
    let own = || dest.strides.clone();
    match random.below(10) {
        0 if same => own(),
        1 | 2 if same => {
            let measure = random.pick(&[-3, -2, -1, -1, 2, 3]);
            own().iter().map(|s| s.saturating_mul(measure)).collect()
        }
        3 if same => {
            let mut strides = own();
            random.shuffle(&mut strides);
            strides
        }
        4 => packed(&dest.extents, 0),
        5 => packed(&dest.extents, random.between(1, 2)),
        6 => vec![0; dest.extents.len()],
        _ if is_small(&dest.extents) => any_strides(random, &dest.extents),
        _ => dest.extents.iter().map(|_| random.pick(&STRIDES)).collect(),
    }
}

/// First axis fastest; with a gap the last axis does not merge.
fn packed(extents: &[u64], gap: i64) -> Vec<i64> {
    let mut next = 1i64;
    let stride = |(axis, &extent): (usize, &u64)| {
        let stride = next;
        next = next.saturating_mul(i64::try_from(extent.max(1)).unwrap_or(i64::MAX));
        match axis + 1 == extents.len() {
            true => stride.saturating_add(gap),
            false => stride,
        }
    };
    extents.iter().enumerate().map(stride).collect()
}

fn is_small(extents: &[u64]) -> bool {
    let cells = extents
        .iter()
        .try_fold(1u64, |n, &e| n.checked_mul(e.max(1)));
    cells.is_some_and(|cells| i128::from(cells) <= MOST_ELEMENTS)
}

/// A view with its slice; where no slice can hold it, a short one.
fn view(random: &mut Random, extents: Vec<u64>, strides: Vec<i64>) -> (View, usize) {
    let axes = extents.iter().zip(&strides);
    let reach = axes.map(|(&e, &s)| i128::from(e.saturating_sub(1)) * i128::from(s).abs());
    if reach.fold(0, i128::saturating_add) <= MOST_ELEMENTS {
        return placed(random, extents, strides);
    }
    let layout = Layout { extents, strides };
    let offset = random.between(0, 2);
    (View { layout, offset }, 3)
}

/// A fault in the operand, or in the destination beside it.
fn fault(random: &mut Random, operand: &mut Operand, dest: &mut Layout) {
    let layout = &mut operand.view.layout;
    match random.below(16) {
        0 => {
            faults::unequal_lengths(layout, random);
        }
        1 => faults::more_axes(layout, random),
        2 | 3 => {
            faults::long_product(layout, random);
            follow(random, 40, dest, layout);
        }
        4..=6 => {
            faults::other_extents(layout, random);
        }
        7 | 8 => {
            faults::far_span(layout, random);
            follow(random, 80, dest, layout);
        }
        9 => {
            faults::far_span(dest, random);
            follow(random, 80, layout, dest);
        }
        10 => without_cells(random, layout, dest),
        11 | 12 => {
            let mut other = layout.clone();
            faults::change_layout(&mut other, random);
            operand.layout = Some(other);
        }
        13 => {
            let cut = random.below(operand.data.len() as u64 + 1) as usize;
            faults::cut_data(&mut operand.data, cut);
        }
        _ => faults::move_out(&mut operand.view, operand.data.len(), random),
    }
}

/// Mostly gives a layout the extents of another.
fn follow(random: &mut Random, percent: u64, layout: &mut Layout, other: &Layout) {
    if random.percent(percent) {
        layout.extents.clone_from(&other.extents);
        layout.strides.resize(other.extents.len(), 0);
    }
}

/// Both without cells, one of them with a stride that reaches far.
fn without_cells(random: &mut Random, operand: &mut Layout, dest: &mut Layout) {
    let far = match random.percent(50) {
        true => &mut *operand,
        false => &mut *dest,
    };
    faults::far_span(far, random);
    let extents = far.extents.clone();
    for layout in [operand, dest] {
        layout.extents.clone_from(&extents);
        layout.extents.push(0);
        layout.strides.resize(extents.len() + 1, 1);
    }
}
