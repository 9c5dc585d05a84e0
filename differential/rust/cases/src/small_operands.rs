//! Small scatters with charts, all of them: every pair of layouts on a small
//! grid, every pair of small extents, every operand near the ends of its
//! slice, every pair of far strides, every rule on one cell of a chart.

use crate::small::{counted, each, packed, scattered, Arranged, Size, FLOATS};
use lines::{Call, Data, Element, Layout, Operand, Rule, View};

pub fn all(size: Size, take: &mut dyn FnMut(Call)) {
    copies(size, take);
    extents(take);
    bounds(take);
    spans(size, take);
    rules(size, take);
}

/// One update on a grid, or as many as it has cells, without starts.
fn on_grid(extents: &[u64], windows: &[u64]) -> Call {
    let shown: Vec<u64> = (0..extents.len() as u64).collect();
    let a = Arranged {
        extents,
        windows,
        hidden: &[],
        map: &[],
        index_extents: vec![0],
        vector: 0,
        shown: &shown,
        shape: windows.to_vec(),
    };
    scattered(&a, 0)
}

/// A view with all its cells in a slice that has one element more at each end.
fn placed(extents: &[u64], strides: &[i64]) -> (View, usize) {
    let reaches = extents.iter().zip(strides);
    let reaches: Vec<i64> = reaches.map(|(&e, s)| s * (e as i64 - 1).max(0)).collect();
    let low: i64 = reaches.iter().map(|&reach| reach.min(0)).sum();
    let high: i64 = reaches.iter().map(|&reach| reach.max(0)).sum();
    let layout = Layout {
        extents: extents.to_vec(),
        strides: strides.to_vec(),
    };
    let offset = 1 - low;
    (View { layout, offset }, (high - low + 3) as usize)
}

fn operand(view: View, len: usize) -> Operand {
    Operand {
        view,
        data: counted(len, 1),
        layout: None,
    }
}

/// Every chart of a small grid by every strides, into destinations packed in
/// both orders, turned round and with gaps, with one update.
fn copies(size: Size, take: &mut dyn FnMut(Call)) {
    let (extents, strides) = match size {
        Size::Short => (vec![1, 2, 3], vec![-3, -1, 0, 1, 2, 3]),
        Size::Long => (vec![0, 1, 2, 3, 4], (-6..=6).collect()),
    };
    for rank in 0..=2 {
        each(&vec![extents.clone(); rank], &mut |extents| {
            each(&vec![strides.clone(); rank], &mut |strides| {
                copied(extents, strides, take);
            });
        });
    }
    each(&vec![vec![-1, 0, 1, 2, 4]; 3], &mut |strides| {
        copied(&[2, 2, 2], strides, take);
    });
}

fn copied(extents: &[u64], strides: &[i64], take: &mut dyn FnMut(Call)) {
    let windows: Vec<u64> = extents.iter().map(|&extent| extent.min(1)).collect();
    let (first, _) = packed(extents);
    let reversed: Vec<u64> = extents.iter().rev().copied().collect();
    let mut last = packed(&reversed).0.layout.strides;
    last.reverse();
    let first = first.layout.strides;
    let turned = first.iter().map(|stride| -stride).collect();
    let apart = first.iter().map(|stride| 2 * stride).collect();
    for dest_strides in [first, last, turned, apart] {
        let mut call = on_grid(extents, &windows);
        let (dest, len) = placed(extents, &dest_strides);
        call.job.views[2] = dest;
        call.dest = counted(len, 100);
        let (view, len) = placed(extents, strides);
        call.operand = Some(operand(view, len));
        take(call);
    }
}

/// Every two lists of up to two small extents, of chart and destination.
fn extents(take: &mut dyn FnMut(Call)) {
    let mut lists = Vec::new();
    for rank in 0..=2 {
        each(&vec![vec![0, 1, 2]; rank], &mut |list| {
            lists.push(list.to_vec())
        });
    }
    for dest in &lists {
        for chart in &lists {
            let mut call = on_grid(dest, dest);
            let (view, len) = packed(chart);
            call.operand = Some(operand(view, len));
            take(call);
        }
    }
}

/// Every chart of one axis near the ends of its slice, and every other view
/// too far on beside it.
fn bounds(take: &mut dyn FnMut(Call)) {
    for extent in 0..=3 {
        for stride in -2..=2 {
            for offset in -2..=7 {
                for len in 0..=6 {
                    let mut call = on_grid(&[extent], &[extent]);
                    let layout = Layout {
                        extents: vec![extent],
                        strides: vec![stride],
                    };
                    call.operand = Some(operand(View { layout, offset }, len));
                    let place = len % 4;
                    if let (0..=1, Some(view)) = (offset, call.job.views.get_mut(place)) {
                        view.offset = 9;
                    }
                    take(call);
                }
            }
        }
    }
}

/// Every two axes of a chart from a list of edges, beside a third without
/// cells, so that the destination is nested.
fn spans(size: Size, take: &mut dyn FnMut(Call)) {
    let extents = [1, 2, 3, 1 << 63, (1 << 63) + 1, 1 << 62, u64::MAX];
    let extents = match size {
        Size::Short => &extents[..4],
        Size::Long => &extents[..],
    };
    let strides = [0, 1, 1 << 62, -(1 << 62), i64::MAX, i64::MIN];
    let axes: Vec<(u64, i64)> = extents
        .iter()
        .flat_map(|&extent| strides.iter().map(move |&stride| (extent, stride)))
        .collect();
    each(&[axes.clone(), axes], &mut |axes| {
        for far_dest in [false, true] {
            take(spanned(axes, far_dest));
        }
    });
}

fn spanned(axes: &[(u64, i64)], far_dest: bool) -> Call {
    let mut call = on_grid(&[0, 1, 1], &[0, 1, 1]);
    let extents = vec![0, axes[0].0, axes[1].0];
    let far = Layout {
        extents: extents.clone(),
        strides: vec![1, axes[0].1, axes[1].1],
    };
    let near = Layout {
        extents,
        strides: vec![1, 0, 0],
    };
    let (chart, dest) = if far_dest { (near, far) } else { (far, near) };
    call.job.views[2].layout = dest;
    let view = View {
        layout: chart,
        offset: 0,
    };
    call.operand = Some(operand(view, 0));
    call
}

/// Every rule on one update of one cell: of the chart's value, not of what the
/// destination held.
fn rules(size: Size, take: &mut dyn FnMut(Call)) {
    const RULES: [Rule; 4] = [Rule::Add, Rule::Lowest, Rule::Highest, Rule::Replace];
    let floats = match size {
        Size::Short => &FLOATS[..8],
        Size::Long => &FLOATS[..],
    };
    let ceilings = floats.iter().map(|&limit| Rule::Ceiling(limit));
    let float_rules: Vec<Rule> = RULES.into_iter().chain(ceilings).collect();
    each(
        &vec![vec![i32::MIN, i32::MAX, -1, 0, 1]; 2],
        &mut |values| {
            for rule in RULES {
                let [chart, update] = [0, 1].map(|place| Data::I32(vec![values[place]]));
                take(ruled(rule, chart, update, Data::I32(vec![5])));
            }
        },
    );
    each(&vec![floats.to_vec(); 2], &mut |values| {
        for &rule in &float_rules {
            let [chart, update] = [0, 1].map(|place| Data::F64(vec![values[place]]));
            take(ruled(rule, chart, update, Data::F64(vec![5f64.to_bits()])));
        }
    });
}

fn ruled(rule: Rule, chart: Data, update: Data, dest: Data) -> Call {
    let mut call = on_grid(&[1], &[1]);
    if let Data::F64(_) = chart {
        call.job.element = Element::F64;
    }
    call.operand = Some(Operand {
        view: packed(&[1]).0,
        data: chart,
        layout: None,
    });
    Call {
        source: update,
        dest,
        rule,
        ..call
    }
}
