//! What the updates of a scatter are put on.

use strided::ViewLayout;

use super::fresh::fresh;
use super::lent::Lent;
use super::stored::Stored;
use crate::cli::ScatterArgs;
use crate::failure::{Failure, Outcome};
use crate::npy::{Grid, Item};
use crate::rule::RuleName;

/// What the updates are put on.
pub enum Base<'a> {
    /// A grid, as it is.
    Grid(Lent<'a>),
    /// A copy of a chart; where a grid is given too, in it.
    Chart(Lent<'a>, Option<Lent<'a>>),
}

impl<'a> Base<'a> {
    /// Opens the files that are given.
    pub fn open(args: &'a ScatterArgs) -> Outcome<Base<'a>> {
        let grid = args.grid.as_deref().map(Lent::open).transpose()?;
        let chart = args.lists.chart.as_deref().map(Lent::open).transpose()?;
        match (chart, grid) {
            (Some(chart), grid) => Ok(Base::Chart(chart, grid)),
            (None, Some(grid)) => Ok(Base::Grid(grid)),
            (None, None) => Err(Failure::Unusable("give --grid, or --chart".to_owned())),
        }
    }

    /// The file that the destination has its element, shape and order from.
    pub fn model(&self) -> &Lent<'a> {
        match self {
            Base::Grid(grid) | Base::Chart(_, Some(grid)) | Base::Chart(grid, None) => grid,
        }
    }

    pub fn chart(&self) -> Option<&Lent<'a>> {
        match self {
            Base::Grid(_) => None,
            Base::Chart(chart, _) => Some(chart),
        }
    }

    /// The destination's own file.
    pub fn grid(&self) -> Option<&Lent<'a>> {
        match self {
            Base::Grid(grid) => Some(grid),
            Base::Chart(_, grid) => grid.as_ref(),
        }
    }

    /// The chart's elements and the destination's, which without a file are zeros until the chart is copied there.
    pub fn load<T: Item>(
        self,
        stored: &Stored,
        dest: &ViewLayout,
    ) -> Outcome<(Option<Grid<T>>, Grid<T>)> {
        Ok(match self {
            Base::Grid(grid) => (None, grid.load()?),
            Base::Chart(chart, Some(grid)) => (Some(chart.load()?), grid.load()?),
            Base::Chart(chart, None) => (Some(chart.load()?), fresh(stored, dest)?),
        })
    }

    /// What is done meanwhile.
    pub fn doing(&self, rule: RuleName, updates: &str) -> String {
        let putting = rule.doing(updates);
        match self {
            Base::Grid(_) => putting,
            Base::Chart(..) => format!("copying the chart and {putting}"),
        }
    }

    /// What has been done.
    pub fn done(&self, rule: RuleName, updates: &str) -> String {
        match self {
            Base::Grid(grid) => rule.done(updates, &format!("the grid {}", grid.name())),
            Base::Chart(chart, Some(grid)) => {
                let (chart, grid) = (chart.name(), grid.name());
                let put = rule.done(updates, "it");
                format!("copied the chart {chart} into the grid {grid} and {put}")
            }
            Base::Chart(chart, None) => {
                let put = rule.done(updates, "the copy");
                format!("copied the chart {} and {put}", chart.name())
            }
        }
    }
}
