//! The command line. What stands in three strokes over a field or a command is its help.

use std::path::PathBuf;

use clap::{ArgGroup, Args, Parser, Subcommand};

use crate::axis_lists::{GatherLists, ScatterLists};
use crate::output::Patience;
use crate::picture::Text;
use crate::window::{Origin, Scale, Window};

/// Gather and scatter on grids in .npy files, by stored jobs, and pictures of grids.
///
/// What is read, added, clamped or refused, the proved library libstrided decides.
/// The exit status is 0; 1 where the library refuses, or where `compare` finds a difference; 2 for usage, a file that cannot be read or written, elements of another type, or a shape or order that is not the job's; 3 where `--no-wait` refuses.
#[derive(Parser)]
#[command(
    name = "strided",
    max_term_width = 110,
    version,
    after_help = "Example:\n  strided job make cut.txt cut.job\n  strided scatter --job cut.job --starts at.npy --updates cuts.npy --grid bed.npy --out bed.npy\n  strided show bed.npy bed.png"
)]
pub struct Cli {
    /// Say nothing of what was done; failures are told
    #[arg(short, long, global = true, display_order = 900)]
    pub quiet: bool,

    /// What to do.
    #[command(subcommand)]
    pub command: Command,
}

/// What to do.
#[derive(Subcommand)]
pub enum Command {
    /// Make, print or check a stored job
    #[command(
        subcommand,
        after_help = "Example:\n  strided job make cut.txt cut.job"
    )]
    Job(JobCommand),
    /// Read windows of a grid at given starts
    Gather(GatherArgs),
    /// Put updates on a grid at given starts: add them, or go by another rule
    Scatter(ScatterArgs),
    /// Draw a grid of two axes, or a window of it, as PNG
    Show(ShowArgs),
    /// Tell how two grids differ
    Compare(CompareArgs),
    /// Print a .npy file as text
    Print(PrintArgs),
}

impl Command {
    /// Whether windows are to be listed.
    pub fn is_verbose(&self) -> bool {
        match self {
            Command::Gather(args) => args.verbose,
            Command::Scatter(args) => args.verbose,
            _ => false,
        }
    }
}

/// What to do with a job.
#[derive(Subcommand)]
pub enum JobCommand {
    /// Store a job that a text describes
    #[command(after_help = MAKE_HELP)]
    Make {
        /// The text: lines `key = value`
        text: PathBuf,
        /// The stored job
        out: PathBuf,
        /// Store also a job that the library refuses to run
        #[arg(long)]
        keep_refused: bool,
        /// How the output is locked.
        #[command(flatten)]
        lock: Lock,
    },
    /// Print a stored job as the text that makes it
    #[command(after_help = "Example:\n  strided job show cut.job > cut.txt")]
    Show {
        /// The stored job
        job: PathBuf,
    },
    /// Tell whether a file stores a job, and whether the job can be run
    #[command(
        after_help = "Example:\n  strided job check cut.job\n\nWhether the elements of the files suffice is found when it is run."
    )]
    Check {
        /// The stored job
        job: PathBuf,
    },
}

const MAKE_HELP: &str = "\
The text has one `key = value` a line, in any order; # begins a comment.
  kind = gather | scatter       element = i32 | f64
Three views, of a gather operand, index, dest, of a scatter index, updates, dest:
  VIEW.extents = 64, 48
  VIEW.strides = 1, 64          or row-major; left out: first axis fastest
  VIEW.offset = 0               left out: 0
The lists have StableHLO's names, and may be empty:
  gather:  offset_dims, collapsed_slice_dims, start_index_map, index_vector_dim, slice_sizes
  scatter: update_window_dims, inserted_window_dims, scatter_dims_to_operand_dims, index_vector_dim

Example: cells of a row of five are raised at given starts
  kind = scatter
  element = i32
  index.extents = 3
  updates.extents = 3
  dest.extents = 5
  update_window_dims =
  inserted_window_dims = 0
  scatter_dims_to_operand_dims = 0
  index_vector_dim = 1

  strided job make cut.txt cut.job";

// What every command has that writes a file.
#[derive(Args)]
pub struct Lock {
    /// Where another run is writing the output, refuse with exit status 3 and do not wait
    #[arg(long)]
    no_wait: bool,
}

impl Lock {
    /// What to do where another run has the output.
    pub fn patience(&self) -> Patience {
        if self.no_wait {
            Patience::Refuse
        } else {
            Patience::Wait
        }
    }
}

// Files of a gather.
#[derive(Args)]
#[command(after_help = "\
With a job, the shape and order of each file are those of the job's view.
Without one, extents and order come from the files, and StableHLO's axis lists from options; one that is left out is empty.
Without --dest the destination begins as zeros: in the order of the job's layout of it, where that is packed, or of the operand.
A window that would hang over the grid's edge is moved inward. A line tells how many were, where some were; --verbose lists them.

Example:
  strided gather --job berth.job --operand bed.npy --starts berth.npy --out window.npy
  strided gather --offset-dims 0,1 --start-index-map 0,1 --index-vector-dim 0 --slice-sizes 12,30 \\
    --operand bed.npy --starts berth.npy --out window.npy")]
pub struct GatherArgs {
    /// The stored job; without it the axis lists are given
    #[arg(long, value_name = "JOB")]
    pub job: Option<PathBuf>,
    /// The grid that is read, i32 or f64, as the job is
    #[arg(long, value_name = "NPY")]
    pub operand: PathBuf,
    /// The starts, i64
    #[arg(long, value_name = "NPY")]
    pub starts: PathBuf,
    /// What the destination holds before
    #[arg(long, value_name = "NPY")]
    pub dest: Option<PathBuf>,
    /// The destination afterwards; it may be the file of --dest
    #[arg(long, value_name = "NPY")]
    pub out: PathBuf,
    /// Files of any shape and order lend their elements in memory order, by the job's layouts
    #[arg(long, conflicts_with = "index_vector_dim")]
    pub any_shape: bool,
    /// List the windows that were moved inward, at most 1000, each with its start as it is and as it is clamped
    #[arg(long)]
    pub verbose: bool,
    /// How the output is locked.
    #[command(flatten)]
    pub lock: Lock,
    /// The axis lists, last, since their heading would be that of what follows.
    #[command(flatten)]
    pub lists: GatherLists,
}

// Files of a scatter.
#[derive(Args)]
#[command(after_help = "\
With a job, the shape and order of each file are those of the job's view.
Without one, extents and order come from the files, and StableHLO's axis lists from options; one that is left out is empty.
A window that would hang over the grid's edge is moved inward. A line tells how many were, where some were; --verbose lists them.
The output is written beside and takes its name at the end, so that a failure leaves an old file as it was.
An old file is locked from before the grid is read: of runs on one file at once, each waits for the one before.

A stored job adds. Without one --rule says what a cell becomes of what it holds and each update that lands on it:
  add             the sum; of i32 it wraps
  lowest          the update where it is less; otherwise the cell stays
  highest         the update where it is greater; otherwise the cell stays
  replace         the update
  ceiling:LIMIT   of f64: the sum, or LIMIT where the sum is greater, at every update
A comparison with NaN is false.

With --chart the chart is copied into the grid, cell by cell, before the updates are put on it; what the grid held makes no difference.
The chart has the grid's shape and element, in either order. Without --grid the output has the chart's shape and order.
A stored job copies no chart.

Example:
  strided scatter --job cut.job --starts at.npy --updates cuts.npy --grid bed.npy --out bed.npy
  strided scatter --update-window-dims 1,2 --scatter-dims-to-operand-dims 0,1 --index-vector-dim 1 \\
    --starts at.npy --updates cuts.npy --grid bed.npy --out bed.npy
  strided scatter --rule lowest --inserted-window-dims 0,1 --scatter-dims-to-operand-dims 0,1 \\
    --index-vector-dim 1 --starts at.npy --updates soundings.npy --grid bed.npy --out bed.npy
  strided scatter --chart design.npy --update-window-dims 1,2 --scatter-dims-to-operand-dims 0,1 \\
    --index-vector-dim 1 --starts at.npy --updates cuts.npy --out bed.npy")]
#[command(group(ArgGroup::new("base").args(["grid", "chart"]).required(true).multiple(true)))]
pub struct ScatterArgs {
    /// The stored job; without it the axis lists are given
    #[arg(long, value_name = "JOB")]
    pub job: Option<PathBuf>,
    /// The starts, i64
    #[arg(long, value_name = "NPY")]
    pub starts: PathBuf,
    /// The updates, of the grid's element
    #[arg(long, value_name = "NPY")]
    pub updates: PathBuf,
    /// The grid that they are put on, i32 or f64, as the job is; where --chart is given, it may be left out
    #[arg(long, value_name = "NPY")]
    pub grid: Option<PathBuf>,
    /// The grid afterwards; it may be the file of --grid
    #[arg(long, value_name = "NPY")]
    pub out: PathBuf,
    /// Files of any shape and order lend their elements in memory order, by the job's layouts
    #[arg(long, conflicts_with = "index_vector_dim")]
    pub any_shape: bool,
    /// List the windows that were moved inward, at most 1000, each with its start as it is and as it is clamped
    #[arg(long)]
    pub verbose: bool,
    /// Do also a scatter of more than 2^36 updates, which takes a minute and more
    #[arg(long)]
    pub yes: bool,
    /// How the output is locked.
    #[command(flatten)]
    pub lock: Lock,
    /// The axis lists, last, since their heading would be that of what follows.
    #[command(flatten)]
    pub lists: ScatterLists,
}

// What is drawn, and how.
#[derive(Args)]
#[command(after_help = "\
The first axis goes down, the second to the right. Low values are light, high ones dark, and NaN is orange.
A title or units may have the letters and signs of ASCII and ° µ ² ³, at most 500. One that is empty or of spaces alone is not drawn.

Example:
  strided show bed.npy berth.png --window 10:30,40:80 --scale 8000:14000 --cell 8
  strided show window.npy berth.png --origin 10,40 --title Berth --units mm")]
pub struct ShowArgs {
    /// The grid, i32 or f64, of two axes
    pub grid: PathBuf,
    /// The picture
    pub out: PathBuf,
    /// Rows R0 up to R1 and columns C0 up to C1, the last of each left out; a side may be left empty
    #[arg(long, value_name = "R0:R1,C0:C1", allow_hyphen_values = true)]
    pub window: Option<Window>,
    /// The numbers of the file's first row and column, for a file that holds a window; --window counts from there
    #[arg(
        long,
        value_name = "R,C",
        default_value = "0,0",
        allow_hyphen_values = true
    )]
    pub origin: Origin,
    /// The values at the two ends of the colours; otherwise the lowest and the highest that are drawn
    #[arg(long, value_name = "LOW:HIGH", allow_hyphen_values = true)]
    pub scale: Option<Scale>,
    /// Pixels along a cell; otherwise as suits the size
    #[arg(long, value_name = "N")]
    pub cell: Option<usize>,
    /// What is written above the cells
    #[arg(long, value_name = "TEXT", allow_hyphen_values = true)]
    pub title: Option<Text>,
    /// What is written above the bar, such as mm
    #[arg(long, value_name = "TEXT", allow_hyphen_values = true)]
    pub units: Option<Text>,
    /// How the output is locked.
    #[command(flatten)]
    pub lock: Lock,
}

// The two files.
#[derive(Args)]
#[command(after_help = "\
The files have the same element and shape; the order in memory may differ.
The exit status is 0 where they are equal, 1 where they differ, 2 where they cannot be compared.

Example:
  strided compare before.npy after.npy")]
pub struct CompareArgs {
    /// The first grid, i32 or f64
    pub before: PathBuf,
    /// The second grid
    pub after: PathBuf,
}

// The file.
#[derive(Args)]
#[command(after_help = "\
A line for each run along the last axis, the elements with spaces between them.

Example:
  strided print starts.npy")]
pub struct PrintArgs {
    /// The file, i32, i64 or f64
    pub file: PathBuf,
}
