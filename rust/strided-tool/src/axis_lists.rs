//! The axis lists, the rule and the chart as options, for calls without a stored job.

use std::path::PathBuf;
use std::str::FromStr;

use clap::Args;
use strided::{GatherSpec, ScatterSpec};

use crate::job_text::axes;
use crate::rule::RuleName;

/// Numbers with commas between them.
#[derive(Clone, Debug, Default, Eq, PartialEq)]
pub struct Axes(Vec<usize>);

impl FromStr for Axes {
    type Err = String;

    fn from_str(text: &str) -> Result<Axes, String> {
        axes(text.trim()).map(Axes)
    }
}

// A gather's lists.
#[derive(Args)]
#[command(next_help_heading = "Without a job")]
pub struct GatherLists {
    /// The result's axes that the windows lie on
    #[arg(long, value_name = "AXES", conflicts_with = "job")]
    offset_dims: Option<Axes>,
    /// The operand's axes, with windows of 1, that the result leaves out
    #[arg(long, value_name = "AXES", conflicts_with = "job")]
    collapsed_slice_dims: Option<Axes>,
    /// The operand's axis that each component of a start goes along
    #[arg(long, value_name = "AXES", conflicts_with = "job")]
    start_index_map: Option<Axes>,
    /// The window's extent on each axis of the operand; must be given
    #[arg(
        long,
        value_name = "SIZES",
        required_unless_present = "job",
        conflicts_with = "job"
    )]
    slice_sizes: Option<Axes>,
    /// The axis of the components.
    #[command(flatten)]
    vector: Vector,
}

// A scatter's lists, its rule and its chart.
#[derive(Args)]
#[command(next_help_heading = "Without a job")]
pub struct ScatterLists {
    /// The updates' axes that go along the grid's axes
    #[arg(long, value_name = "AXES", conflicts_with = "job")]
    update_window_dims: Option<Axes>,
    /// The grid's axes, with windows of 1, that the updates leave out
    #[arg(long, value_name = "AXES", conflicts_with = "job")]
    inserted_window_dims: Option<Axes>,
    /// The grid's axis that each component of a start goes along
    #[arg(long, value_name = "AXES", conflicts_with = "job")]
    scatter_dims_to_operand_dims: Option<Axes>,
    /// The axis of the components.
    #[command(flatten)]
    vector: Vector,
    /// How updates are put on the grid: add, lowest, highest, replace or, on a grid of f64, ceiling:LIMIT; left out: add
    // A job beside it is refused in other words than clap has.
    #[arg(long, value_name = "RULE")]
    pub rule: Option<RuleName>,
    /// A chart that is copied into the grid before the updates are put on it, of the grid's shape and element
    // As the rule.
    #[arg(long, value_name = "NPY")]
    pub chart: Option<PathBuf>,
}

// What both have.
#[derive(Args)]
struct Vector {
    /// The axis of the starts that their components lie on; the count of their axes where a start is one number; must be given
    #[arg(
        long,
        value_name = "AXIS",
        required_unless_present = "job",
        conflicts_with = "job"
    )]
    index_vector_dim: Option<usize>,
}

impl Vector {
    fn axis(&self) -> usize {
        self.index_vector_dim.unwrap_or_default()
    }
}

/// The entries; none where the option was left out.
fn entries(list: &Option<Axes>) -> Vec<usize> {
    list.clone().unwrap_or_default().0
}

impl GatherLists {
    /// The lists as a spec.
    pub fn spec(&self) -> GatherSpec {
        GatherSpec {
            offset_dims: entries(&self.offset_dims),
            collapsed_slice_dims: entries(&self.collapsed_slice_dims),
            start_index_map: entries(&self.start_index_map),
            index_vector_dim: self.vector.axis(),
            slice_sizes: entries(&self.slice_sizes),
        }
    }
}

impl ScatterLists {
    /// The lists as a spec.
    pub fn spec(&self) -> ScatterSpec {
        ScatterSpec {
            update_window_dims: entries(&self.update_window_dims),
            inserted_window_dims: entries(&self.inserted_window_dims),
            scatter_dims_to_operand_dims: entries(&self.scatter_dims_to_operand_dims),
            index_vector_dim: self.vector.axis(),
        }
    }
}
