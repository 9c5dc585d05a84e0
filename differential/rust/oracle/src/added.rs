//! The refusals that the documents mark as added, which the Rust does not
//! know: 2, the spans of a scatter's destination and of its operand, and the
//! test of 9.

use lines::{Call, Layout, Number, Spec, View};

const MOST_AXES: usize = 8;

/// 2, or the 3 of a scatter's spans. Both come after 1, so a layout of unequal
/// lengths is left to the Rust. The spans' 3 may stand before the products:
/// theirs is the same answer. It may not stand before the 7 of an operand that
/// has other extents than the destination, which is left to the Rust too.
pub fn before_compile(call: &Call) -> Option<Number> {
    let views = views(call);
    let unequal = |(v, _): &(&View, usize)| v.layout.extents.len() != v.layout.strides.len();
    if views.iter().any(unequal) {
        return None;
    }
    let mut ranks = views.iter().map(|(v, _)| v.layout.extents.len());
    if let Some(rank) = ranks.find(|&rank| rank > MOST_AXES) {
        return Some(Number::new(2, rank as u64, MOST_AXES as u64));
    }
    let (dest, operand) = (call.job.dest(), call.operand.as_ref().map(|o| &o.view));
    let seven = operand.is_some_and(|v| v.layout.extents != dest.layout.extents);
    let scatter = matches!(call.job.spec, Spec::Scatter(_));
    if !scatter || seven {
        return None;
    }
    let fit = span_fits(&dest.layout) && operand.is_none_or(|v| span_fits(&v.layout));
    (!fit).then_some(Number::new(3, 0, 0))
}

/// The views in view order, each with the length of its slice.
fn views(call: &Call) -> Vec<(&View, usize)> {
    let operand = call.operand.iter().map(|o| (&o.view, o.data.len()));
    let views = call.job.views.iter().enumerate();
    operand
        .chain(views.map(|(place, view)| (view, call.slice_len(place))))
        .collect()
}

/// Extent - 1 (at least 0), its product with the stride, and the running sums
/// of the negative and of the other products fit i64.
fn span_fits(layout: &Layout) -> bool {
    let (mut low, mut high) = (0i64, 0i64);
    for (&extent, &stride) in layout.extents.iter().zip(&layout.strides) {
        let last = i64::try_from(extent.saturating_sub(1)).ok();
        let Some(reach) = last.and_then(|last| stride.checked_mul(last)) else {
            return false;
        };
        let sum = if reach < 0 { &mut low } else { &mut high };
        match sum.checked_add(reach) {
            Some(new) => *sum = new,
            None => return false,
        }
    }
    true
}

/// The test of 9: the first view that is not inside its slice. It is made
/// only where the call's layouts are the plan's.
pub fn out_of_bounds(call: &Call) -> Option<Number> {
    let outside = |&(view, len): &(&View, usize)| !inside(view, len);
    let place = views(call).iter().position(outside)?;
    Some(Number::new(9, place as u64 + 1, 0))
}

/// All cells of the view are in a slice of this length; a view without cells
/// has its offset from 0 to the length.
fn inside(view: &View, len: usize) -> bool {
    let (mut low, mut high) = (i128::from(view.offset), i128::from(view.offset));
    let len = len as i128;
    if view.layout.extents.contains(&0) {
        return 0 <= low && low <= len;
    }
    for (&extent, &stride) in view.layout.extents.iter().zip(&view.layout.strides) {
        let reach = (i128::from(extent) - 1) * i128::from(stride);
        low += reach.min(0);
        high += reach.max(0);
    }
    0 <= low && high < len
}
