//! The operand of a scatter: document 02's base chart, copied into the
//! destination cell by cell before the updates go on.

use crate::meaning::{read, unravel, words, write};
use crate::{arithmetic, Model, Slip};
use lines::{Call, Element, Layout, Operand, View};

/// How many cells are copied.
pub fn cells(call: &Call) -> u128 {
    match call.operand {
        Some(_) => arithmetic::cells(&call.job.dest().layout.extents),
        None => 0,
    }
}

impl Model {
    /// What the destination slice holds when the updates begin: in each cell
    /// that the destination names the operand's element, if there is an
    /// operand, and elsewhere what it held.
    pub(crate) fn before_updates(&self, call: &Call) -> Vec<u64> {
        let mut held = words(&call.dest);
        match &call.operand {
            Some(operand) if !self.leaves_operand(call) => self.copy(call, operand, &mut held),
            _ => {}
        }
        held
    }

    /// First axis fastest.
    fn copy(&self, call: &Call, operand: &Operand, held: &mut [u64]) {
        let source = words(&operand.data);
        let (from, to) = self.slip_sides(&operand.view, call.job.dest());
        let cells = match arithmetic::cells(&to.layout.extents) {
            n if self.slips(Slip::OperandLastCellLeftOut) => n.saturating_sub(1),
            n => n,
        };
        let old = held.to_vec();
        if self.slips(Slip::OperandClearsSlice) {
            held.fill(0);
        }
        for k in 0..cells {
            let coordinate = unravel(&to.layout.extents, k);
            let place = self.place(&to, &coordinate);
            let word = read(&source, self.place(&from, &coordinate));
            let word = self.slip_operand(call, read(&old, place), word);
            write(held, place, word);
        }
    }
}

/// Slips in the copy.
impl Model {
    fn leaves_operand(&self, call: &Call) -> bool {
        match self.twist.slip {
            Some(Slip::OperandNotCopied | Slip::OperandCopiedLast) => true,
            Some(Slip::OperandNeedsUpdates) => call.job.source().layout.extents.contains(&0),
            _ => false,
        }
    }

    /// The slip that copies after the last update.
    pub(crate) fn slip_operand_last(&self, cells: &mut [u64], call: &Call) {
        if let (Some(operand), true) = (&call.operand, self.slips(Slip::OperandCopiedLast)) {
            self.copy(call, operand, cells);
        }
    }

    /// The views that are read and written, of the destination's extents.
    fn slip_sides(&self, operand: &View, dest: &View) -> (View, View) {
        let (mut from, mut to) = (operand.clone(), dest.clone());
        from.layout.extents.clone_from(&to.layout.extents);
        match self.twist.slip {
            Some(Slip::OperandByDestStrides) => from.layout.strides.clone_from(&to.layout.strides),
            Some(Slip::OperandByOwnStrides) => to.layout.strides.clone_from(&from.layout.strides),
            Some(Slip::OperandAsOneRun) => {
                to.layout = one_run(&to.layout.extents);
                from.layout = to.layout.clone();
            }
            Some(Slip::OperandMergesByDest) => merge(&mut to.layout, &mut from.layout),
            Some(Slip::OperandMergesByOwn) => merge(&mut from.layout, &mut to.layout),
            _ => {}
        }
        (from, to)
    }

    fn slip_operand(&self, call: &Call, held: u64, word: u64) -> u64 {
        let float = f64::from_bits(word);
        match (self.twist.slip, call.job.element) {
            (Some(Slip::OperandCombined), _) => self.combined(call, held, word),
            (Some(Slip::OperandQuietsNan), Element::F64) if float.is_nan() => word | 1 << 51,
            (Some(Slip::OperandLosesZeroSign), Element::F64) if float == 0.0 => 0,
            _ => word,
        }
    }
}

/// As many elements in a row as there are cells.
fn one_run(extents: &[u64]) -> Layout {
    let cells = arithmetic::cells(extents).min(u64::MAX.into()) as u64;
    Layout {
        extents: vec![cells],
        strides: vec![1],
    }
}

/// Merges each axis into the one before where the first layout alone is
/// contiguous there.
fn merge(first: &mut Layout, second: &mut Layout) {
    let axes = first
        .extents
        .iter()
        .zip(&first.strides)
        .zip(&second.strides);
    let mut merged: Vec<(u64, i64, i64)> = Vec::new();
    for ((&extent, &stride), &other) in axes {
        match merged.last_mut() {
            Some((before, step, _)) if step.checked_mul(*before as i64) == Some(stride) => {
                *before = before.saturating_mul(extent);
            }
            _ => merged.push((extent, stride, other)),
        }
    }
    first.extents = merged.iter().map(|axis| axis.0).collect();
    first.strides = merged.iter().map(|axis| axis.1).collect();
    second.extents.clone_from(&first.extents);
    second.strides = merged.iter().map(|axis| axis.2).collect();
}
