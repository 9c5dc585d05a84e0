//! The refusals of document 01, and those that document 02's operand of a
//! scatter adds to them, each by its place in the order.

use crate::arithmetic::{at, fits};
use crate::meaning::dot;
use crate::shape::{batch_axes, others, pick};
use crate::{arithmetic, Model, Slip};
use lines::{Call, GatherSpec, Job, Layout, Number, Operand, ScatterSpec, Spec, View};

pub const MOST_AXES: usize = 8;

/// What is called: each kind has an order of its own.
#[derive(Clone, Copy, Debug, PartialEq, Eq, Hash, PartialOrd, Ord)]
pub enum Kind {
    Gather,
    /// Updates alone.
    Scatter,
    /// A scatter with an operand of its own.
    OperandScatter,
}

impl Kind {
    pub const ALL: [Kind; 3] = [Kind::Gather, Kind::Scatter, Kind::OperandScatter];

    pub fn of(call: &Call) -> Kind {
        match (&call.job.spec, &call.operand) {
            (Spec::Gather(_), _) => Kind::Gather,
            (Spec::Scatter(_), None) => Kind::Scatter,
            (Spec::Scatter(_), Some(_)) => Kind::OperandScatter,
        }
    }

    pub fn name(self) -> &'static str {
        match self {
            Kind::Gather => "gather",
            Kind::Scatter => "scatter",
            Kind::OperandScatter => "operand-scatter",
        }
    }
}

/// A line of the order. A number is the place of a view among the job's; the
/// operand of a scatter, which comes ahead of them, has lines of its own.
#[derive(Clone, Copy, Debug, PartialEq, Eq, Hash, PartialOrd, Ord)]
pub enum Check {
    Lengths,
    Ranks,
    OperandProduct,
    Product(usize),
    OperandExtents,
    Span(usize),
    OperandSpan,
    Nested,
    SliceSizes,
    CollapsedAxes,
    InsertedAxes,
    Map,
    VectorAxis,
    WindowSizes,
    CollapsedWindows,
    Components,
    WindowCount,
    WindowCountInRank,
    BatchRank,
    WindowAxes,
    Shape,
    DestResets,
    WindowResets,
    BatchResets,
    BatchProduct,
    WindowProduct,
    BatchWalk,
    WindowWalk,
    ComponentOffsets,
    CallLayouts,
    OperandBounds,
    Bounds(usize),
}

const GATHER: [Check; 26] = [
    Check::Lengths,
    Check::Ranks,
    Check::Product(0),
    Check::Product(1),
    Check::Product(2),
    Check::Span(0),
    Check::Span(1),
    Check::Span(2),
    Check::Nested,
    Check::SliceSizes,
    Check::CollapsedAxes,
    Check::Map,
    Check::VectorAxis,
    Check::WindowSizes,
    Check::CollapsedWindows,
    Check::Components,
    Check::WindowCount,
    Check::WindowAxes,
    Check::Shape,
    Check::DestResets,
    Check::WindowResets,
    Check::BatchResets,
    Check::CallLayouts,
    Check::Bounds(0),
    Check::Bounds(1),
    Check::Bounds(2),
];

const SCATTER: [Check; 26] = [
    Check::Lengths,
    Check::Ranks,
    Check::Product(2),
    Check::Product(0),
    Check::Product(1),
    Check::Span(2),
    Check::Nested,
    Check::InsertedAxes,
    Check::Map,
    Check::VectorAxis,
    Check::Components,
    Check::WindowCount,
    Check::WindowCountInRank,
    Check::BatchRank,
    Check::WindowAxes,
    Check::Shape,
    Check::WindowSizes,
    Check::BatchProduct,
    Check::WindowProduct,
    Check::BatchWalk,
    Check::WindowWalk,
    Check::ComponentOffsets,
    Check::CallLayouts,
    Check::Bounds(0),
    Check::Bounds(1),
    Check::Bounds(2),
];

const OPERAND_SCATTER: [Check; 29] = [
    Check::Lengths,
    Check::Ranks,
    Check::OperandProduct,
    Check::Product(0),
    Check::Product(1),
    Check::OperandExtents,
    Check::Span(2),
    Check::OperandSpan,
    Check::Nested,
    Check::InsertedAxes,
    Check::Map,
    Check::VectorAxis,
    Check::Components,
    Check::WindowCount,
    Check::WindowCountInRank,
    Check::BatchRank,
    Check::WindowAxes,
    Check::Shape,
    Check::WindowSizes,
    Check::BatchProduct,
    Check::WindowProduct,
    Check::BatchWalk,
    Check::WindowWalk,
    Check::ComponentOffsets,
    Check::CallLayouts,
    Check::OperandBounds,
    Check::Bounds(0),
    Check::Bounds(1),
    Check::Bounds(2),
];

/// The order in which the first hit counts, compile's and then the call's.
pub fn order(kind: Kind) -> &'static [Check] {
    match kind {
        Kind::Gather => &GATHER,
        Kind::Scatter => &SCATTER,
        Kind::OperandScatter => &OPERAND_SCATTER,
    }
}

impl Check {
    pub fn name(self, kind: Kind) -> String {
        let view = |place| view_name(kind, place);
        let name = match self {
            Check::Product(place) => return format!("{}-product", view(place)),
            Check::Span(place) => return format!("{}-span", view(place)),
            Check::Bounds(place) => return format!("{}-bounds", view(place)),
            Check::OperandProduct => "operand-product",
            Check::OperandExtents => "operand-extents",
            Check::OperandSpan => "operand-span",
            Check::OperandBounds => "operand-bounds",
            Check::Lengths => "lengths",
            Check::Ranks => "ranks",
            Check::Nested => "nested",
            Check::SliceSizes => "slice-sizes-count",
            Check::CollapsedAxes => "collapsed-axes",
            Check::InsertedAxes => "inserted-axes",
            Check::Map => "map-axes",
            Check::VectorAxis => "vector-axis",
            Check::WindowSizes => "window-above-extent",
            Check::CollapsedWindows => "collapsed-window",
            Check::Components => "component-count",
            Check::WindowCount => "window-axis-count",
            Check::WindowCountInRank => "window-axis-count-above-rank",
            Check::BatchRank => "batch-rank",
            Check::WindowAxes => "window-axes",
            Check::Shape if kind == Kind::Gather => "shape",
            Check::Shape => "batch-extents",
            Check::DestResets => "destination-resets",
            Check::WindowResets => "window-resets",
            Check::BatchResets => "batch-resets",
            Check::BatchProduct => "batch-product",
            Check::WindowProduct => "window-product",
            Check::BatchWalk => "batch-walk",
            Check::WindowWalk => "window-walk",
            Check::ComponentOffsets => "component-offsets",
            Check::CallLayouts => "call-layouts",
        };
        name.to_string()
    }
}

/// The name of the view at this place of the job's.
fn view_name(kind: Kind, place: usize) -> &'static str {
    let names = match kind {
        Kind::Gather => ["operand", "index", "destination"],
        Kind::Scatter | Kind::OperandScatter => ["index", "updates", "destination"],
    };
    names[place]
}

fn count(list: &[u64]) -> u64 {
    list.len() as u64
}

fn rank(layout: &Layout) -> u64 {
    count(&layout.extents)
}

/// 3, where the test fails.
fn overflow(passed: bool) -> Option<Number> {
    (!passed).then_some(Number::new(3, 0, 0))
}

/// 5, where two counts differ.
fn mismatch(a: u64, b: u64) -> Option<Number> {
    (a != b).then_some(Number::new(5, a, b))
}

fn unequal(layout: &Layout) -> bool {
    layout.extents.len() != layout.strides.len()
}

/// The plan's layouts in view order.
fn layouts(call: &Call) -> Vec<&Layout> {
    let operand = call.operand.iter().map(|operand| &operand.view);
    let views = operand.chain(&call.job.views);
    views.map(|view| &view.layout).collect()
}

impl Model {
    /// What this check answers if it refuses, whatever the others do.
    pub(crate) fn refusal(&self, check: Check, call: &Call) -> Option<Number> {
        let number = self.untwisted_refusal(check, call)?;
        self.twist.answer_of(check, Kind::of(call), number)
    }

    fn untwisted_refusal(&self, check: Check, call: &Call) -> Option<Number> {
        let job = &call.job;
        match check {
            Check::Lengths => self.lengths(call),
            Check::Ranks => self.ranks(call),
            Check::Product(place) => {
                overflow(self.product(&job.views[place].layout.extents).is_some())
            }
            Check::Span(place) => overflow(self.layout_span_fits(&job.views[place].layout)),
            Check::Nested => self.not_nested(&job.dest().layout),
            Check::CallLayouts => self.call_layouts(call),
            Check::Bounds(place) => self.out_of_bounds(call, place),
            Check::OperandProduct
            | Check::OperandExtents
            | Check::OperandSpan
            | Check::OperandBounds => self.operand_refusal(check, call, call.operand.as_ref()?),
            _ => match &job.spec {
                Spec::Gather(spec) => self.gather_refusal(check, job, spec),
                Spec::Scatter(spec) => self.scatter_refusal(check, job, spec),
            },
        }
    }

    fn lengths(&self, call: &Call) -> Option<Number> {
        let layouts = layouts(call);
        if self.slips(Slip::LengthsAndRanksByView) {
            return lengths_and_ranks_by_view(&layouts);
        }
        let tested = match self.twist.slip {
            Some(Slip::LengthsOfFirstView) => &layouts[..1],
            Some(Slip::LengthsOfOperandUntested) => &layouts[layouts.len() - 3..],
            _ => &layouts[..],
        };
        let any = tested.iter().any(|layout| unequal(layout));
        any.then_some(Number::new(1, 0, 0))
    }

    fn ranks(&self, call: &Call) -> Option<Number> {
        let most = match self.slips(Slip::RanksToNine) {
            true => 9,
            false => MOST_AXES as u64,
        };
        let mut ranks: Vec<u64> = layouts(call).into_iter().map(rank).collect();
        match self.twist.slip {
            Some(Slip::RanksDestinationFirst) => ranks.rotate_right(1),
            Some(Slip::RanksOperandLast) if call.operand.is_some() => ranks.rotate_left(1),
            Some(Slip::RankOfOperandUntested) => drop(ranks.drain(..ranks.len() - 3)),
            _ => {}
        }
        let above = |rank: &u64| *rank > most;
        let named = match self.slips(Slip::RanksLargest) {
            true => ranks.into_iter().filter(above).max(),
            false => ranks.into_iter().find(above),
        };
        named.map(|rank| Number::new(2, rank, most))
    }

    /// What the operand of a scatter adds to the order, 1, 2 and 8 apart.
    fn operand_refusal(&self, check: Check, call: &Call, operand: &Operand) -> Option<Number> {
        let (layout, dest) = (&operand.view.layout, &call.job.dest().layout);
        match check {
            Check::OperandProduct => {
                let extents = match self.slips(Slip::OperandProductOfDestination) {
                    true => &dest.extents,
                    false => &layout.extents,
                };
                overflow(self.product(extents).is_some())
            }
            Check::OperandExtents => self.operand_extents(&layout.extents, &dest.extents),
            Check::OperandSpan => overflow(self.layout_span_fits(layout)),
            _ => self.operand_out_of_bounds(call, operand),
        }
    }

    /// 7 where the destination's extents are not the operand's.
    fn operand_extents(&self, expected: &[u64], given: &[u64]) -> Option<Number> {
        let same = match self.twist.slip {
            Some(Slip::OperandExtentsByRank) => given.len() == expected.len(),
            Some(Slip::OperandExtentsByCells) => {
                arithmetic::cells(given) == arithmetic::cells(expected)
            }
            Some(Slip::OperandExtentsAnyOrder) => sorted(given) == sorted(expected),
            _ => given == expected,
        };
        (!same).then_some(Number::new(7, count(given), count(expected)))
    }

    fn layout_span_fits(&self, layout: &Layout) -> bool {
        self.span_fits(&layout.extents, &layout.strides)
    }

    fn not_nested(&self, dest: &Layout) -> Option<Number> {
        let nested = self.nested(&dest.extents, &dest.strides);
        (!nested).then_some(Number::new(4, 0, 0))
    }

    /// 6 for an axis list: the first entry out of range or repeated.
    fn axis_list(&self, list: &[u64], rank: u64) -> Option<Number> {
        let axis = self.bad_axis(list, rank)?;
        Some(Number::new(6, axis, rank))
    }

    fn vector_axis(&self, index: &Layout, vector: u64) -> Option<Number> {
        let highest = match rank(index) {
            r if self.slips(Slip::VectorBelowRank) => i128::from(r) - 1,
            r if self.slips(Slip::VectorOneMore) => i128::from(r) + 1,
            r => i128::from(r),
        };
        let b = match rank(index) {
            r if self.slips(Slip::VectorNamesRank) => r,
            r => r + 1,
        };
        (i128::from(vector) > highest).then_some(Number::new(6, vector, b))
    }

    fn component_count(&self, index: &Layout, vector: u64, map: &[u64]) -> Option<Number> {
        let components = match self.components(index, vector) {
            n if self.slips(Slip::ComponentsInI64) => n.min(i64::MAX as u64),
            n if self.slips(Slip::ComponentsInU32) => u64::from(n as u32),
            n => n,
        };
        mismatch(components, count(map))
    }

    /// 6 for the first window above its extent.
    fn window_sizes(&self, windows: &[u64], extents: &[u64]) -> Option<Number> {
        let above = |place: &usize| match windows[*place] {
            w if self.slips(Slip::WindowBelowExtent) => w >= extents[*place],
            w if self.slips(Slip::WindowOneMore) => w > extents[*place].saturating_add(1),
            w => w > extents[*place],
        };
        let mut places = 0..windows.len().min(extents.len());
        let axis = match self.slips(Slip::WindowNamesLast) {
            true => places.rfind(above),
            false => places.find(above),
        };
        axis.map(|axis| Number::new(6, axis as u64, count(extents)))
    }

    fn gather_refusal(&self, check: Check, job: &Job, spec: &GatherSpec) -> Option<Number> {
        let [operand, index, dest] = [0, 1, 2].map(|place| &job.views[place].layout);
        let operand_rank = rank(operand);
        let kept = others(operand.extents.len(), &spec.collapsed_slice_dims);
        let batch = batch_axes(index, spec.index_vector_dim);
        match check {
            Check::SliceSizes => mismatch(count(&spec.slice_sizes), operand_rank),
            Check::CollapsedAxes => self.axis_list(&spec.collapsed_slice_dims, operand_rank),
            Check::Map => self.axis_list(&spec.start_index_map, operand_rank),
            Check::VectorAxis => self.vector_axis(index, spec.index_vector_dim),
            Check::WindowSizes => self.window_sizes(&spec.slice_sizes, &operand.extents),
            Check::CollapsedWindows => self.collapsed_window(spec, operand_rank),
            Check::Components => {
                self.component_count(index, spec.index_vector_dim, &spec.start_index_map)
            }
            Check::WindowCount => mismatch(count(&spec.offset_dims), count(&kept)),
            Check::WindowAxes => self.offset_axes(spec, count(&batch) + count(&kept)),
            Check::Shape => self.shape(spec, operand, index, dest),
            Check::DestResets => overflow(
                dest.extents
                    .iter()
                    .zip(&dest.strides)
                    .all(|(&extent, &stride)| self.reset_fits(extent, stride.into())),
            ),
            Check::WindowResets => {
                let over = match self.slips(Slip::ResetOverOperand) {
                    true => &operand.extents,
                    false => &spec.slice_sizes,
                };
                overflow(self.resets_fit(over, &operand.strides, &kept))
            }
            Check::BatchResets => overflow(self.resets_fit(&index.extents, &index.strides, &batch)),
            _ => None,
        }
    }

    fn resets_fit(&self, extents: &[u64], strides: &[i64], axes: &[u64]) -> bool {
        let extents = pick(extents, axes);
        let strides = pick(strides, axes);
        extents
            .iter()
            .zip(strides)
            .all(|(&extent, stride)| self.reset_fits(extent, stride.into()))
    }

    /// 6 for the first collapsed axis, in list order, with window not 1.
    fn collapsed_window(&self, spec: &GatherSpec, operand_rank: u64) -> Option<Number> {
        let mut list = spec.collapsed_slice_dims.clone();
        if self.slips(Slip::CollapsedInAxisOrder) {
            list.sort();
        }
        let wrong = |axis: &u64| match at(&spec.slice_sizes, *axis) {
            0 => !self.slips(Slip::CollapsedTakesZero),
            window => window != 1,
        };
        let axis = list.into_iter().find(wrong)?;
        Some(Number::new(6, axis, operand_rank))
    }

    fn offset_axes(&self, spec: &GatherSpec, out_rank: u64) -> Option<Number> {
        let out_rank = match self.slips(Slip::OutRankToEight) {
            true => out_rank.min(8),
            false => out_rank,
        };
        self.axis_list(&spec.offset_dims, out_rank)
    }

    fn shape(
        &self,
        spec: &GatherSpec,
        operand: &Layout,
        index: &Layout,
        dest: &Layout,
    ) -> Option<Number> {
        let mut expected = self.gathered_shape(spec, operand, index);
        if self.slips(Slip::OutRankToEight) {
            expected.truncate(8);
        }
        let given = &dest.extents;
        let same = if self.slips(Slip::ShapeRanksOnly) {
            given.len() == expected.len()
        } else if self.slips(Slip::ShapeCellsOnly) {
            arithmetic::cells(given) == arithmetic::cells(&expected)
        } else if self.slips(Slip::ShapeAnyOrder) {
            sorted(given) == sorted(&expected)
        } else {
            *given == expected
        };
        (!same).then_some(Number::new(7, count(given), count(&expected)))
    }

    fn scatter_refusal(&self, check: Check, job: &Job, spec: &ScatterSpec) -> Option<Number> {
        let [index, updates, dest] = [0, 1, 2].map(|place| &job.views[place].layout);
        let kept = others(dest.extents.len(), &spec.inserted_window_dims);
        let (given, update_rank) = (count(&spec.update_window_dims), rank(updates));
        let batch = batch_axes(index, spec.index_vector_dim);
        let batch_shape = pick(&index.extents, &batch);
        let window_shape = pick(&updates.extents, &spec.update_window_dims);
        match check {
            Check::InsertedAxes => self.axis_list(&spec.inserted_window_dims, rank(dest)),
            Check::Map => self.axis_list(&spec.scatter_dims_to_operand_dims, rank(dest)),
            Check::VectorAxis => self.vector_axis(index, spec.index_vector_dim),
            Check::Components => self.component_count(
                index,
                spec.index_vector_dim,
                &spec.scatter_dims_to_operand_dims,
            ),
            Check::WindowCount => mismatch(given, count(&kept)),
            Check::WindowCountInRank => {
                let one_more = u64::from(self.slips(Slip::CountOneAboveRank));
                (given > update_rank + one_more).then_some(Number::new(5, given, update_rank))
            }
            Check::BatchRank => mismatch(update_rank.wrapping_sub(given), count(&batch)),
            Check::WindowAxes => self.axis_list(&spec.update_window_dims, update_rank),
            Check::Shape => self.batch_extents(spec, updates, &batch_shape),
            Check::WindowSizes => self.scatter_window_sizes(spec, dest, updates),
            Check::BatchProduct => overflow(self.product(&batch_shape).is_some()),
            Check::WindowProduct => overflow(self.product(&window_shape).is_some()),
            Check::BatchWalk => {
                let updated = others(updates.extents.len(), &spec.update_window_dims);
                overflow(self.walk_fits(
                    &batch_shape,
                    &pick(&index.strides, &batch),
                    &pick(&updates.strides, &updated),
                ))
            }
            Check::WindowWalk => overflow(self.walk_fits(
                &window_shape,
                &pick(&updates.strides, &spec.update_window_dims),
                &pick(&dest.strides, &kept),
            )),
            Check::ComponentOffsets => overflow(self.component_offsets_fit(job, spec)),
            _ => None,
        }
    }

    /// 7 where a batch extent of the updates is not the index's.
    fn batch_extents(
        &self,
        spec: &ScatterSpec,
        updates: &Layout,
        batch_shape: &[u64],
    ) -> Option<Number> {
        let shown = others(updates.extents.len(), &spec.update_window_dims);
        let given = pick(&updates.extents, &shown);
        let same = if self.slips(Slip::ShapeRanksOnly) {
            true
        } else if self.slips(Slip::ShapeCellsOnly) {
            arithmetic::cells(&given) == arithmetic::cells(batch_shape)
        } else if self.slips(Slip::ShapeAnyOrder) {
            sorted(&given) == sorted(batch_shape)
        } else {
            given == batch_shape
        };
        let expected = match self.slips(Slip::BatchExtentsNameBatch) {
            true => count(batch_shape),
            false => rank(updates),
        };
        (!same).then_some(Number::new(7, rank(updates), expected))
    }

    /// Inserted axes are included, even with no updates.
    fn scatter_window_sizes(
        &self,
        spec: &ScatterSpec,
        dest: &Layout,
        updates: &Layout,
    ) -> Option<Number> {
        if self.slips(Slip::WindowsNeedUpdates) && updates.extents.contains(&0) {
            return None;
        }
        let mut windows = self.scatter_windows(spec, dest, updates);
        if self.slips(Slip::WindowsOfKeptOnly) {
            for &axis in &spec.inserted_window_dims {
                if let Some(window) = windows.get_mut(axis as usize) {
                    *window = 0;
                }
            }
        }
        self.window_sizes(&windows, &dest.extents)
    }

    /// Each component's offset from the first fits i64. Some slips test more.
    fn component_offsets_fit(&self, job: &Job, spec: &ScatterSpec) -> bool {
        let [index, updates, _] = [0, 1, 2].map(|place| &job.views[place].layout);
        if self.slips(Slip::ScatterIndexSpan) && !self.layout_span_fits(index) {
            return false;
        }
        if self.slips(Slip::ScatterUpdateSpan) && !self.layout_span_fits(updates) {
            return false;
        }
        let place = usize::try_from(spec.index_vector_dim).unwrap_or(usize::MAX);
        let stride = i128::from(index.strides.get(place).copied().unwrap_or(0));
        let negated = self.slips(Slip::ComponentOffsetsNegated);
        (0..spec.scatter_dims_to_operand_dims.len() as i128)
            .all(|c| fits(stride * c) && (!negated || fits(-stride * c)))
    }

    /// 8 where a call's layout is not the plan's.
    fn call_layouts(&self, call: &Call) -> Option<Number> {
        let eight = Number::new(8, 0, 0);
        if self.slips(Slip::CallLengthsGiveOne) && called(call).any(unequal) {
            return Some(Number::new(1, 0, 0));
        }
        if self.slips(Slip::CallViewByView) {
            return self.call_view_by_view(call);
        }
        let operand = call.operand.as_ref().is_some_and(|operand| {
            let (plan, called) = (&operand.view.layout, operand.call_layout());
            self.differs(plan, called) && !self.slips(Slip::CallOperandUntested)
        });
        let any = operand || (0..3).any(|place| self.view_differs(call, place));
        any.then_some(eight)
    }

    fn differs(&self, plan: &Layout, called: &Layout) -> bool {
        match self.twist.slip {
            Some(Slip::CallExtentsOnly) => plan.extents != called.extents,
            Some(Slip::CallStridesOnly) => plan.strides != called.strides,
            _ => plan != called,
        }
    }

    /// Whether the call's view at this place of the job's has another layout.
    fn view_differs(&self, call: &Call, place: usize) -> bool {
        let (source, index) = job_places(call);
        let untested = match self.twist.slip {
            Some(Slip::CallSourceUntested) => place == source,
            Some(Slip::CallIndexUntested) => place == index,
            Some(Slip::CallDestUntested) => place == 2,
            _ => false,
        };
        !untested && self.differs(&call.job.views[place].layout, call.call_layout(place))
    }

    /// The slip that tests 8 and 9 view by view.
    fn call_view_by_view(&self, call: &Call) -> Option<Number> {
        let eight = Number::new(8, 0, 0);
        let operand = call.operand.as_ref().and_then(|operand| {
            match self.differs(&operand.view.layout, operand.call_layout()) {
                true => Some(eight),
                false => self.operand_out_of_bounds(call, operand),
            }
        });
        operand.or_else(|| {
            (0..3).find_map(|place| match self.view_differs(call, place) {
                true => Some(eight),
                false => self.out_of_bounds(call, place),
            })
        })
    }

    /// 9, the view's place in view order counted from 1.
    fn out_of_bounds(&self, call: &Call, place: usize) -> Option<Number> {
        let place = match self.slips(Slip::BoundsDestinationFirst) {
            true => (place + 2) % 3,
            false => place,
        };
        let inside = self.inside(&call.job.views[place], call.slice_len(place) as i128);
        let ahead = call.operand.is_some() && !self.slips(Slip::BoundsAsUpdateOnly);
        let a = match self.slips(Slip::BoundsFromZero) {
            true => place as u64,
            false => place as u64 + 1,
        };
        (!inside).then_some(Number::new(9, a + u64::from(ahead), 0))
    }

    /// 9 for the operand, which is view 1.
    fn operand_out_of_bounds(&self, call: &Call, operand: &Operand) -> Option<Number> {
        let inside = self.inside(&operand.view, operand.data.len() as i128);
        let others = |place| self.out_of_bounds(call, place).is_some();
        if inside || (self.slips(Slip::OperandBoundsLast) && (0..3).any(others)) {
            return None;
        }
        let a = u64::from(!self.slips(Slip::BoundsFromZero));
        Some(Number::new(9, a, 0))
    }

    /// A view with cells needs all inside its slice; one without needs an
    /// offset from 0 to the length.
    fn inside(&self, view: &View, len: i128) -> bool {
        let offset = i128::from(view.offset);
        let (extents, strides) = (&view.layout.extents, &view.layout.strides);
        let no_cells = extents.contains(&0);
        if no_cells && !self.slips(Slip::BoundsNoCellsAsCells) {
            return if self.slips(Slip::BoundsNoCellsUntested) {
                true
            } else if self.slips(Slip::BoundsNoCellsBelowLength) {
                0 <= offset && (offset < len || len == 0)
            } else {
                0 <= offset && offset <= len
            };
        }
        let (mut low, mut high) = (offset, offset);
        for (&extent, &stride) in extents.iter().zip(strides) {
            let reach = i128::from(extent.saturating_sub(1)) * i128::from(stride);
            low = low.saturating_add(reach.min(0));
            high = high.saturating_add(reach.max(0));
        }
        let top = match len {
            n if self.slips(Slip::BoundsOneMore) => n + 1,
            n => n,
        };
        (0 <= low || self.slips(Slip::BoundsHighOnly))
            && (high < top || self.slips(Slip::BoundsLowOnly))
    }

    /// Refusals that only a slip gives, where a call should run.
    pub(crate) fn slip_before_run(&self, call: &Call) -> Option<Number> {
        match self.twist.slip? {
            Slip::RefusesEveryPlan => Some(Number::new(8, 0, 0)),
            Slip::IndexSteppedWithoutCells => overflow(index_steps_fit(call)),
            Slip::ClampBeforeNoCells => overflow(self.clamps_fit(call)),
            _ => None,
        }
    }

    /// Extent - window fits i64 on every mapped axis.
    fn clamps_fit(&self, call: &Call) -> bool {
        let job = &call.job;
        let (map, extents, windows) = match &job.spec {
            Spec::Gather(spec) => (
                &spec.start_index_map,
                &job.source().layout.extents,
                spec.slice_sizes.clone(),
            ),
            Spec::Scatter(spec) => (
                &spec.scatter_dims_to_operand_dims,
                &job.dest().layout.extents,
                self.scatter_windows(spec, &job.dest().layout, &job.source().layout),
            ),
        };
        map.iter()
            .all(|&axis| fits(i128::from(at(extents, axis)) - i128::from(at(&windows, axis))))
    }
}

fn lengths_and_ranks_by_view(layouts: &[&Layout]) -> Option<Number> {
    layouts.iter().find_map(|&layout| match rank(layout) {
        _ if unequal(layout) => Some(Number::new(1, 0, 0)),
        rank if rank > MOST_AXES as u64 => Some(Number::new(2, rank, 8)),
        _ => None,
    })
}

/// The layouts that the views of the call carry, in view order.
fn called(call: &Call) -> impl Iterator<Item = &Layout> {
    let operand = call.operand.iter().map(Operand::call_layout);
    operand.chain((0..3).map(|place| call.call_layout(place)))
}

/// The places of the source and of the index view.
fn job_places(call: &Call) -> (usize, usize) {
    let index = call.job.index_place();
    (1 - index, index)
}

/// Every batch coordinate's index offset fits i64, cells or not.
fn index_steps_fit(call: &Call) -> bool {
    let index = call.job.index();
    let vector = match &call.job.spec {
        Spec::Gather(spec) => spec.index_vector_dim,
        Spec::Scatter(spec) => spec.index_vector_dim,
    };
    let batch = batch_axes(&index.layout, vector);
    let extents = pick(&index.layout.extents, &batch);
    let strides = pick(&index.layout.strides, &batch);
    let few = arithmetic::cells(&extents).min(1 << 12);
    (0..few).all(|k| {
        let coordinate = crate::meaning::unravel(&extents, k);
        fits(i128::from(index.offset).saturating_add(dot(&strides, &coordinate)))
    })
}

fn sorted(list: &[u64]) -> Vec<u64> {
    let mut list = list.to_vec();
    list.sort();
    list
}
