//! The slips that a twisted model can make.

/// One row for each slip: its name as a value, what it does, and why no case
/// can see it, if none can.
macro_rules! slips {
    ($($slip:ident: $what:literal $(, unseen $why:literal)?;)*) => {
        #[derive(Clone, Copy, Debug, PartialEq, Eq, Hash)]
        pub enum Slip { $($slip),* }

        pub const SLIPS: &[(Slip, &str, &str, Option<&str>)] = &[
            $((Slip::$slip, stringify!($slip), $what, reason!($($why)?))),*
        ];
    };
}

macro_rules! reason {
    () => {
        None
    };
    ($why:literal) => {
        Some($why)
    };
}

slips! {
    // Products.
    ProductOfNoneIsZero: "the product of no extents is 0";
    ProductZeroExcuses: "a later 0 excuses a product that already overflowed";
    ProductFromTheRight: "products are taken from the right";
    ProductInI64: "products must fit i64";
    // Spans and resets.
    SpanSkipsNoCells: "spans are not tested where an extent is 0";
    SpanSkipsStrideZero: "extent - 1 is not tested at stride 0";
    SpanOfWholeExtent: "spans take the extent in place of extent - 1";
    SpanOneSum: "spans keep one sum for both signs";
    SpanOfMagnitudes: "spans add magnitudes";
    ResetStepsAtNoCells: "the reset at extent 0 is not 0";
    ResetNotNegated: "resets are not negated";
    ResetOverOperand: "window resets run over the operand's extents";
    // Nested.
    NestedForgetsNoCells: "an extent of 0 does not make a layout nested";
    NestedIsInjective: "nested is taken for injective";
    NestedMagnitudeWraps: "the magnitude of -2^63 wraps";
    NestedKeepsUnits: "nested does not leave out extents of 1";
    NestedInAxisOrder: "nested does not order the axes";
    NestedAtLeast: "nested lets a magnitude equal the sum before it";
    NestedWholeExtent: "nested takes the extent in place of extent - 1";
    // Lengths, ranks, counts.
    LengthsOfFirstView: "lengths are compared in the first view alone";
    LengthsAndRanksByView: "1 and 2 are tested view by view";
    RanksToNine: "rank 9 is taken";
    RanksDestinationFirst: "2 names the destination first";
    RanksLargest: "2 names the largest rank";
    ComponentsInI64: "the component count is held in i64";
    ComponentsInU32: "the component count is held in u32";
    ScalarHasNoComponent: "a vector axis equal to the rank gives no component";
    CountOneAboveRank: "a window axis count one above the update rank is taken";
    ListsToEight: "lists are cut to 8 entries";
    ListsToSixteen: "lists are cut to 16 entries";
    // Axes.
    AxesOnlyInRange: "repeated axes are taken";
    AxesOnlyUnrepeated: "axes out of range are taken";
    AxesOneMore: "an axis equal to the rank is taken";
    AxesNeighboursOnly: "only neighbours in a list are compared";
    AxesRangeFirst: "the range of a whole list is tested before repeats";
    VectorBelowRank: "a vector axis equal to the rank is refused";
    VectorOneMore: "a vector axis one above the rank is taken";
    VectorNamesRank: "6 for the vector axis names the rank";
    WindowOneMore: "a window one above its extent is taken";
    WindowBelowExtent: "a window equal to its extent is refused";
    WindowNamesLast: "6 names the last window above its extent";
    WindowsNeedUpdates: "scatter windows are not tested without updates";
    WindowsOfKeptOnly: "inserted axes are not tested for their window of 1";
    CollapsedInAxisOrder: "collapsed axes are tested in axis order";
    CollapsedTakesZero: "a collapsed axis with window 0 is taken";
    // Shapes.
    OutRankToEight: "the expected rank is held to 8";
    ShapeBatchFirst: "the shape is batch extents, then windows";
    ShapeRanksOnly: "shapes are compared by rank alone";
    ShapeCellsOnly: "shapes are compared by their number of cells";
    ShapeAnyOrder: "shapes are compared in any order";
    BatchExtentsNameBatch: "scatter's 7 names the batch rank";
    // Walks.
    WalkWithoutSpans: "walks do not test spans";
    WalkWithoutResets: "walks do not test resets";
    WalkTestsMergesOnly: "steps are multiplied only where axes merge";
    WalkUnmergedBefore: "walks test the axis before, not the merged one";
    WalkSourceOnly: "walks test the source side's step alone";
    WalkDestOnly: "walks test the destination side's step alone";
    WalkSkipsUnits: "walks do not test before an axis of extent 1";
    WalkSkipsNoCells: "walks are not tested where an extent is 0";
    WalkTestsLast: "walks test the last axis as if another followed";
    WalkExtentWraps: "merged extents wrap in u64";
    WalkMergedInI64: "merged extents must fit i64, the last one too";
    ComponentOffsetsNegated: "component offsets are negated too";
    ScatterIndexSpan: "scatter tests the whole span of the index";
    ScatterUpdateSpan: "scatter tests the whole span of the updates";
    // Calls.
    CallExtentsOnly: "8 compares extents alone";
    CallStridesOnly: "8 compares strides alone";
    CallSourceUntested: "8 leaves out the operand or the updates";
    CallIndexUntested: "8 leaves out the index";
    CallDestUntested: "8 leaves out the destination";
    CallLengthsGiveOne: "a call's layout of unequal lengths gives 1";
    CallViewByView: "8 and 9 are tested view by view";
    BoundsOneMore: "9 lets a cell lie one past the slice";
    BoundsHighOnly: "9 does not test the lowest cell";
    BoundsLowOnly: "9 does not test the highest cell";
    BoundsNoCellsUntested: "9 leaves out views without cells";
    BoundsNoCellsAsCells: "9 treats a view without cells as if it had some";
    BoundsNoCellsBelowLength: "9 refuses a view without cells at the length";
    BoundsFromZero: "9 counts views from 0";
    BoundsDestinationFirst: "9 tests the destination first";
    RefusedCallWrites: "a call refused by 8 or 9 has written";
    IndexSteppedWithoutCells: "an index without cells is stepped, and refused if that overflows";
    ClampBeforeNoCells: "extent - window is taken in i64 before cells are counted";
    // Meaning.
    RefusesEveryPlan: "every plan is turned down";
    OffsetForgotten: "offsets of views are forgotten";
    MapInOrder: "component c goes to axis c";
    VectorAxisLast: "the vector axis is taken for the last";
    WindowAxesSorted: "window axes are taken in rising order";
    ClampIgnoresWindow: "starts are clamped to extent - 1";
    ClampLowOnly: "starts are clamped below alone";
    StartsInI32: "starts are cut to 32 bits";
    StartsUnsigned: "negative starts are taken for large ones";
    StartsFromTheEnd: "negative starts count from the end";
    GatherFillsAlike: "a gather fills each cell alike";
    GatherOneNan: "a gather writes one NaN for all";
    GatherQuietsNan: "a gather quiets NaNs";
    GatherLosesZeroSign: "a gather loses the sign of zero";
    GatherLastFastest: "a gather goes last axis fastest",
        unseen "a nested destination has no two cells in one element, so their order leaves no trace";
    ScatterUntouched: "a scatter leaves the grid untouched";
    ScatterFirstBatchOnly: "a scatter does the first batch and merely walks the others";
    ScatterSkipsOffGrid: "a scatter skips a window with an off-grid start";
    ScatterDropsCells: "a scatter drops off-grid cells, as StableHLO's does";
    ScatterOverwrites: "a scatter overwrites";
    ScatterSumsFirst: "updates are summed before the old value is added";
    ScatterAddsZeroElsewhere: "a scatter adds +0 to cells that nothing lands on";
    ScatterOneNan: "a scatter writes one NaN for all, untouched ones too";
    BatchLastFastest: "batches go last axis fastest";
    BatchesReversed: "batches go from the last to the first";
    WindowLastFastest: "cells of a window go last axis fastest",
        unseen "the cells of one window land on different elements of a nested destination";
    SumSaturates: "i32 sums saturate";
    SumInSingle: "f64 sums are taken in single precision";
    // Rules.
    RuleIgnored: "every scatter adds, whatever its rule";
    LowestForHighest: "Highest takes the update if it is less";
    HighestForLowest: "Lowest takes the update if it is greater";
    LowestTakesEqual: "Lowest takes the update if it is less or equal";
    HighestTakesEqual: "Highest takes the update if it is greater or equal";
    LowestTakesNan: "Lowest takes the update unless it is greater or equal, so also where either is NaN";
    HighestTakesNan: "Highest takes the update unless it is less or equal, so also where either is NaN";
    LowestIsFmin: "Lowest takes a number where a NaN is held, as fmin does";
    HighestIsFmax: "Highest takes a number where a NaN is held, as fmax does";
    ComparesOldValue: "Lowest and Highest compare with the value before the call";
    ComparesUnsigned: "i32 are compared as u32";
    ComparesByDifference: "i32 are compared by a difference that wraps";
    ComparesInTotalOrder: "f64 are compared in total order: -0 is less than +0, a NaN less or greater than all";
    ComparesInSingle: "f64 are compared in single precision";
    ReplaceKeepsFirst: "Replace keeps the first update that lands";
    ReplaceAddsToZero: "Replace adds the update to +0";
    KeptNanQuieted: "Lowest, Highest and Replace quiet NaNs";
    LimitIgnored: "Ceiling adds without a limit";
    CeilingAtTheEnd: "Ceiling's limit is applied once, after the last update";
    CeilingOfUpdate: "Ceiling compares the update with the limit, not the sum";
    CeilingOfOldValue: "Ceiling compares the old value with the limit, not the sum";
    CeilingTakesEqual: "Ceiling takes the limit where the sum is greater or equal";
    CeilingTakesNan: "Ceiling takes the limit unless the sum is less or equal, so also where either is NaN";
    CeilingTurnedRound: "Ceiling takes the limit where the sum is less";
    CeilingElsewhere: "Ceiling's limit is applied to cells that nothing lands on";
    // The operand of a scatter.
    LengthsOfOperandUntested: "1 leaves out the operand of a scatter";
    RankOfOperandUntested: "2 leaves out the operand of a scatter";
    RanksOperandLast: "2 names the operand of a scatter after the other views";
    OperandProductOfDestination: "the destination's product is tested, not the operand's";
    OperandExtentsByRank: "the extents of operand and destination are compared by rank alone";
    OperandExtentsByCells: "the extents of operand and destination are compared by their number of cells";
    OperandExtentsAnyOrder: "the extents of operand and destination are compared in any order";
    CallOperandUntested: "8 leaves out the operand of a scatter";
    BoundsAsUpdateOnly: "9 numbers index, updates and destination as in an update-only call";
    OperandBoundsLast: "9 tests the operand of a scatter last";
    OperandNotCopied: "the operand is not copied";
    OperandCopiedLast: "the operand is copied after the updates";
    OperandNeedsUpdates: "the operand is copied only where there are updates";
    OperandLastCellLeftOut: "the operand's last cell is not copied";
    OperandByDestStrides: "the operand is read by the destination's strides";
    OperandByOwnStrides: "the operand is written by its own strides";
    OperandAsOneRun: "the operand is copied as one run, whatever the layouts";
    OperandMergesByDest: "axes are merged where the destination alone is contiguous";
    OperandMergesByOwn: "axes are merged where the operand alone is contiguous";
    OperandClearsSlice: "elements that the destination does not name become 0";
    OperandCombined: "the operand is put on the destination by the rule";
    OperandQuietsNan: "the copy of the operand quiets NaNs";
    OperandLosesZeroSign: "the copy of the operand loses the sign of zero";
    // How many windows slid.
    SlidComponents: "moved components are counted, not windows";
    SlidCells: "the cells of windows that slid are counted";
    SlidGatherWithoutCells: "windows are counted where a gather's destination has no cells";
    SlidScatterWithoutCells: "windows are counted where a scatter's updates have no cells";
    SlidAboveOnly: "a start below 0 does not count as moved";
    SlidBelowOnly: "a start past the last one does not count as moved";
    SlidFirstComponent: "only the first component of a start is looked at";
    SlidLastComponent: "only the last component of a start is looked at";
    SlidSharedOnce: "windows that read the same start through stride 0 count once";
    SlidAtLimit: "the last start that is not moved counts as moved";
    SlidIgnoresWindow: "a start past the last one counts as moved only where it is past the grid";
    SlidAllWhereOne: "every window counts where one slid";
}
