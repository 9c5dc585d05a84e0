//! The line format of comparison cases: reading, writing, and a driver's loop.

mod driver;
mod parse;
mod print;

pub use driver::drive;
pub use parse::{parse_answer, parse_case};

/// Extents with strides. The two lists may differ in length.
#[derive(Clone, Debug, Default, PartialEq, Eq)]
pub struct Layout {
    pub extents: Vec<u64>,
    pub strides: Vec<i64>,
}

/// A layout placed in a slice.
#[derive(Clone, Debug, Default, PartialEq, Eq)]
pub struct View {
    pub layout: Layout,
    pub offset: i64,
}

#[derive(Clone, Copy, Debug, PartialEq, Eq)]
pub enum Element {
    I32,
    F64,
}

/// The contents of a slice; f64 as bits.
#[derive(Clone, Debug, PartialEq, Eq)]
pub enum Data {
    I32(Vec<i32>),
    F64(Vec<u64>),
}

impl Data {
    pub fn len(&self) -> usize {
        match self {
            Data::I32(v) => v.len(),
            Data::F64(v) => v.len(),
        }
    }

    pub fn is_empty(&self) -> bool {
        self.len() == 0
    }
}

#[derive(Clone, Debug, Default, PartialEq, Eq)]
pub struct GatherSpec {
    pub offset_dims: Vec<u64>,
    pub collapsed_slice_dims: Vec<u64>,
    pub start_index_map: Vec<u64>,
    pub index_vector_dim: u64,
    pub slice_sizes: Vec<u64>,
}

#[derive(Clone, Debug, Default, PartialEq, Eq)]
pub struct ScatterSpec {
    pub update_window_dims: Vec<u64>,
    pub inserted_window_dims: Vec<u64>,
    pub scatter_dims_to_operand_dims: Vec<u64>,
    pub index_vector_dim: u64,
}

#[derive(Clone, Debug, PartialEq, Eq)]
pub enum Spec {
    Gather(GatherSpec),
    Scatter(ScatterSpec),
}

/// What a plan is compiled from. Views are in view order: operand, index,
/// destination for a gather; index, updates, destination for a scatter.
#[derive(Clone, Debug, PartialEq, Eq)]
pub struct Job {
    pub element: Element,
    pub views: [View; 3],
    pub spec: Spec,
}

impl Job {
    /// The place of the index view in view order.
    pub fn index_place(&self) -> usize {
        match self.spec {
            Spec::Gather(_) => 1,
            Spec::Scatter(_) => 0,
        }
    }

    pub fn index(&self) -> &View {
        &self.views[self.index_place()]
    }

    /// The gather's operand or the scatter's updates.
    pub fn source(&self) -> &View {
        &self.views[1 - self.index_place()]
    }

    pub fn dest(&self) -> &View {
        &self.views[2]
    }
}

/// What an element becomes of what it holds and an update.
#[derive(Clone, Copy, Debug, Default, PartialEq, Eq)]
pub enum Rule {
    #[default]
    Add,
    Lowest,
    Highest,
    Replace,
    /// With the bits of its limit; in f64 cases alone.
    Ceiling(u64),
}

impl Rule {
    /// The name, without the limit.
    pub fn name(self) -> &'static str {
        match self {
            Rule::Add => "add",
            Rule::Lowest => "lowest",
            Rule::Highest => "highest",
            Rule::Replace => "replace",
            Rule::Ceiling(_) => "ceiling",
        }
    }
}

/// The base chart of a scatter, which is copied into the destination before
/// the updates go on: the view that comes ahead of the job's, with its slice
/// and the layout that the call's view carries where it is not the plan's.
#[derive(Clone, Debug, PartialEq, Eq)]
pub struct Operand {
    pub view: View,
    pub data: Data,
    pub layout: Option<Layout>,
}

impl Operand {
    /// The layout that the call's view carries.
    pub fn call_layout(&self) -> &Layout {
        self.layout.as_ref().unwrap_or(&self.view.layout)
    }
}

/// A job with its slices. `layouts` are those that the call's views carry
/// where they are not the plan's. The operand is a scatter's, and without one
/// the call is update-only; a gather's operand is the job's. The rule is a
/// scatter's; in a gather, which has none, it is Add.
#[derive(Clone, Debug, PartialEq, Eq)]
pub struct Call {
    pub job: Job,
    pub operand: Option<Operand>,
    pub source: Data,
    pub index: Vec<i64>,
    pub dest: Data,
    pub layouts: [Option<Layout>; 3],
    pub rule: Rule,
}

impl Call {
    /// The length of the slice of the view at `place` in view order.
    pub fn slice_len(&self, place: usize) -> usize {
        match place {
            2 => self.dest.len(),
            p if p == self.job.index_place() => self.index.len(),
            _ => self.source.len(),
        }
    }

    /// The layout that the call's view at `place` carries.
    pub fn call_layout(&self, place: usize) -> &Layout {
        self.layouts[place]
            .as_ref()
            .unwrap_or(&self.job.views[place].layout)
    }
}

#[derive(Clone, Debug, PartialEq, Eq)]
pub enum Case {
    Call(Box<Call>),
    /// A stored job to be read.
    Read(Vec<u8>),
    /// A job to be stored in a buffer of `room` bytes.
    Write {
        job: Box<Job>,
        room: u64,
    },
}

/// The number handed back, with its a and b. 0 is done.
#[derive(Clone, Copy, Debug, PartialEq, Eq, PartialOrd, Ord)]
pub struct Number {
    pub n: u64,
    pub a: u64,
    pub b: u64,
}

impl Number {
    pub const DONE: Number = Number { n: 0, a: 0, b: 0 };

    pub fn new(n: u64, a: u64, b: u64) -> Self {
        Number { n, a, b }
    }
}

#[derive(Clone, Debug, PartialEq, Eq)]
pub enum Answer {
    /// A call's number, the whole destination slice after it, and how many
    /// windows slid: none where the call was refused, nor from the oracle.
    Called(Number, Data, Option<u64>),
    /// A reader's number, with the job if there is one.
    Read(Number, Option<Box<Job>>),
    /// A writer's number, with the bytes if there are any.
    Written(Number, Option<Vec<u8>>),
    /// The driver has nothing that answers this case.
    None,
    /// The line is not in the format.
    Malformed,
    /// The driver caught a panic.
    Panic,
    /// Accepted, but with more updates than a run can do.
    TooMany,
}

/// Accepted scatters with more updates than this are not run.
pub const MOST_UPDATES: u64 = 1 << 22;
