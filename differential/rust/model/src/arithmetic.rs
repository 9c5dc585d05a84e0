//! Products, spans, resets, nested, walks and axis lists, as document 01
//! names them. Numbers are exact; "fits" is said where it is tested.

use crate::{Model, Slip};

pub fn fits(z: i128) -> bool {
    i64::try_from(z).is_ok()
}

/// How many coordinates there are, with no thought of u64.
pub fn cells(extents: &[u64]) -> u128 {
    if extents.contains(&0) {
        return 0;
    }
    extents
        .iter()
        .fold(1, |n: u128, &e| n.saturating_mul(e.into()))
}

/// The entry, or 0 past the end: only a twisted model goes there.
pub fn at<T: Copy + Default>(list: &[T], place: u64) -> T {
    let place = usize::try_from(place).unwrap_or(usize::MAX);
    list.get(place).copied().unwrap_or_default()
}

/// An axis of a walk, or several merged into one.
#[derive(Clone, Copy)]
struct WalkAxis {
    extent: u64,
    source: i128,
    dest: i128,
}

impl WalkAxis {
    /// The steps that a following axis needs if it is to merge.
    fn next_steps(&self) -> (i128, i128) {
        let extent = i128::from(self.extent);
        (self.source * extent, self.dest * extent)
    }
}

impl Model {
    /// Left to right in u64, each step must fit; no extents give 1.
    pub fn product(&self, extents: &[u64]) -> Option<u64> {
        if self.slips(Slip::ProductOfNoneIsZero) && extents.is_empty() {
            return Some(0);
        }
        if self.slips(Slip::ProductZeroExcuses) && extents.contains(&0) {
            return Some(0);
        }
        let multiply = |n: u64, &e: &u64| n.checked_mul(e);
        let product = if self.slips(Slip::ProductFromTheRight) {
            extents.iter().rev().try_fold(1, multiply)
        } else {
            extents.iter().try_fold(1, multiply)
        }?;
        let too_large = self.slips(Slip::ProductInI64) && !fits(product.into());
        (!too_large).then_some(product)
    }

    /// Extent - 1 (at least 0) must fit i64 even at stride 0, as must its
    /// product with the stride and the running sums of the negative and of
    /// the other products.
    pub fn span_fits(&self, extents: &[u64], strides: &[i64]) -> bool {
        if self.slips(Slip::SpanSkipsNoCells) && extents.contains(&0) {
            return true;
        }
        let (mut low, mut high) = (0i128, 0i128);
        for (&extent, &stride) in extents.iter().zip(strides) {
            if self.slips(Slip::SpanSkipsStrideZero) && stride == 0 {
                continue;
            }
            let last = match extent {
                e if self.slips(Slip::SpanOfWholeExtent) => i128::from(e),
                e => i128::from(e.saturating_sub(1)),
            };
            let reach = last * i128::from(stride);
            if !fits(last) || !fits(reach) {
                return false;
            }
            if self.slips(Slip::SpanOneSum) {
                high += reach;
            } else if self.slips(Slip::SpanOfMagnitudes) {
                high += reach.abs();
            } else if reach < 0 {
                low += reach;
            } else {
                high += reach;
            }
            if !fits(low) || !fits(high) {
                return false;
            }
        }
        true
    }

    /// Extent - 1, its product with the stride and that negated must fit; 0
    /// at extent 0.
    pub fn reset_fits(&self, extent: u64, stride: i128) -> bool {
        if extent == 0 && !self.slips(Slip::ResetStepsAtNoCells) {
            return true;
        }
        let last = i128::from(extent) - 1;
        let reach = last * stride;
        fits(last) && fits(reach) && (fits(-reach) || self.slips(Slip::ResetNotNegated))
    }

    /// Some extent is 0; or, extents of 1 left out and the rest ordered by
    /// magnitude of stride, each magnitude exceeds the sum of magnitude times
    /// (extent - 1) over those before it.
    pub fn nested(&self, extents: &[u64], strides: &[i64]) -> bool {
        if extents.contains(&0) && !self.slips(Slip::NestedForgetsNoCells) {
            return true;
        }
        if self.slips(Slip::NestedIsInjective) {
            return injective(extents, strides);
        }
        let magnitude = |stride: i64| match stride {
            s if self.slips(Slip::NestedMagnitudeWraps) => i128::from(s.wrapping_abs()),
            s => i128::from(s).abs(),
        };
        let mut axes: Vec<(i128, i128)> = extents
            .iter()
            .zip(strides)
            .filter(|(&extent, _)| extent != 1 || self.slips(Slip::NestedKeepsUnits))
            .map(|(&extent, &stride)| (magnitude(stride), i128::from(extent)))
            .collect();
        if !self.slips(Slip::NestedInAxisOrder) {
            axes.sort();
        }
        let mut sum = 0i128;
        for (magnitude, extent) in axes {
            let exceeds = magnitude > sum || (magnitude == sum && self.slips(Slip::NestedAtLeast));
            if !exceeds {
                return false;
            }
            let times = match extent {
                e if self.slips(Slip::NestedWholeExtent) => e,
                e => e - 1,
            };
            sum = sum.saturating_add(magnitude.saturating_mul(times));
        }
        true
    }

    /// The first entry that is out of range or repeated.
    pub fn bad_axis(&self, list: &[u64], rank: u64) -> Option<u64> {
        let beyond = |axis: u64| {
            let weak = self.slips(Slip::AxesOnlyUnrepeated)
                || (self.slips(Slip::AxesOneMore) && axis == rank);
            axis >= rank && !weak
        };
        let repeats = |place: usize| {
            let before = match place {
                p if self.slips(Slip::AxesNeighboursOnly) => &list[p.saturating_sub(1)..p],
                p => &list[..p],
            };
            before.contains(&list[place]) && !self.slips(Slip::AxesOnlyInRange)
        };
        let bad = |&place: &usize| beyond(list[place]) || repeats(place);
        let range_first = self.slips(Slip::AxesRangeFirst);
        let far = list.iter().copied().find(|&axis| beyond(axis));
        if range_first && far.is_some() {
            return far;
        }
        (0..list.len()).find(bad).map(|place| list[place])
    }

    /// The tests of a walk over two sides: spans, and for each later axis the
    /// preceding merged axis's extent and both its steps times that extent,
    /// in i64, whether or not the two merge; merged extents in u64; resets.
    pub fn walk_fits(&self, shape: &[u64], source: &[i64], dest: &[i64]) -> bool {
        let spans = self.span_fits(shape, source) && self.span_fits(shape, dest);
        if !spans && !self.slips(Slip::WalkWithoutSpans) {
            return false;
        }
        if self.slips(Slip::WalkSkipsNoCells) && shape.contains(&0) {
            return true;
        }
        let mut open: Option<WalkAxis> = None;
        for (place, &extent) in shape.iter().enumerate() {
            let axis = WalkAxis {
                extent,
                source: at(source, place as u64).into(),
                dest: at(dest, place as u64).into(),
            };
            open = match self.joined(open, axis) {
                Some(joined) => Some(joined),
                None => return false,
            };
        }
        let last = open.filter(|_| self.slips(Slip::WalkTestsLast));
        last.is_none_or(|axis| self.may_be_followed(axis))
    }

    /// The walk's open axis after `axis` is taken in; `None` where a test fails.
    fn joined(&self, open: Option<WalkAxis>, axis: WalkAxis) -> Option<WalkAxis> {
        let Some(before) = open else {
            return self.with_resets(axis);
        };
        let merges = before.next_steps() == (axis.source, axis.dest);
        let excused = (self.slips(Slip::WalkTestsMergesOnly) && !merges)
            || (self.slips(Slip::WalkSkipsUnits) && axis.extent == 1);
        if !excused && !self.may_be_followed(before) {
            return None;
        }
        if !merges {
            return self.with_resets(axis);
        }
        let exact = i128::from(before.extent) * i128::from(axis.extent);
        let merged = WalkAxis {
            extent: match u64::try_from(exact) {
                Ok(extent) => extent,
                Err(_) if self.slips(Slip::WalkExtentWraps) => exact as u64,
                Err(_) => return None,
            },
            ..before
        };
        if self.slips(Slip::WalkMergedInI64) && !fits(merged.extent.into()) {
            return None;
        }
        let merged = self.with_resets(merged)?;
        let keep = self.slips(Slip::WalkUnmergedBefore);
        Some(if keep { axis } else { merged })
    }

    /// Extent and steps times extent fit.
    fn may_be_followed(&self, axis: WalkAxis) -> bool {
        let (source, dest) = axis.next_steps();
        fits(axis.extent.into())
            && (fits(source) || self.slips(Slip::WalkDestOnly))
            && (fits(dest) || self.slips(Slip::WalkSourceOnly))
    }

    fn with_resets(&self, axis: WalkAxis) -> Option<WalkAxis> {
        let good =
            self.reset_fits(axis.extent, axis.source) && self.reset_fits(axis.extent, axis.dest);
        (good || self.slips(Slip::WalkWithoutResets)).then_some(axis)
    }
}

/// No two coordinates share an offset: decided by listing them, where they
/// are few.
fn injective(extents: &[u64], strides: &[i64]) -> bool {
    let count = cells(extents);
    if count > 1 << 12 {
        return false;
    }
    let mut seen = std::collections::HashSet::new();
    (0..count).all(|k| {
        let coordinate = crate::meaning::unravel(extents, k);
        seen.insert(crate::meaning::dot(strides, &coordinate))
    })
}
