//! Stored jobs: a gather or a scatter with its views, as bytes.

use crate::ffi::{self, steps, words};
use crate::stored::Fields;
use crate::{
    Done, Element, ElementType, GatherPlan, GatherSpec, Result, ScatterPlan, ScatterSpec,
    StridedError, ViewLayout,
};

/// A gather with its views, as a job holds it.
///
/// ```
/// use strided::{ElementType, GatherJob, GatherSpec, ViewLayout};
///
/// let job = GatherJob {
///     element: ElementType::I32,
///     operand: ViewLayout { dims: vec![5], strides: vec![1], offset: 0 },
///     index: ViewLayout { dims: vec![2], strides: vec![1], offset: 0 },
///     dest: ViewLayout { dims: vec![2, 2], strides: vec![1, 2], offset: 0 },
///     spec: GatherSpec {
///         offset_dims: vec![0],
///         collapsed_slice_dims: vec![],
///         start_index_map: vec![0],
///         index_vector_dim: 1,
///         slice_sizes: vec![2],
///     },
/// };
/// assert_eq!(job.compile()?.dest_dims(), [2, 2]);
/// # Ok::<(), strided::StridedError>(())
/// ```
#[derive(Clone, Debug, Eq, PartialEq)]
pub struct GatherJob {
    /// The type of the operand's and the destination's elements.
    pub element: ElementType,
    /// What is read.
    pub operand: ViewLayout,
    /// The starts.
    pub index: ViewLayout,
    /// What is written.
    pub dest: ViewLayout,
    /// The axis lists.
    pub spec: GatherSpec,
}

/// A scatter with its views, as a job holds it. A job has no rule: stored and
/// run, it adds.
///
/// ```
/// use strided::{ElementType, ScatterJob, ScatterSpec, ViewLayout};
///
/// let job = ScatterJob {
///     element: ElementType::F64,
///     index: ViewLayout { dims: vec![3], strides: vec![1], offset: 0 },
///     updates: ViewLayout { dims: vec![3], strides: vec![1], offset: 0 },
///     dest: ViewLayout { dims: vec![5], strides: vec![1], offset: 0 },
///     spec: ScatterSpec {
///         update_window_dims: vec![],
///         inserted_window_dims: vec![0],
///         scatter_dims_to_operand_dims: vec![0],
///         index_vector_dim: 1,
///     },
/// };
/// assert_eq!(job.compile()?.dest_dims(), [5]);
/// # Ok::<(), strided::StridedError>(())
/// ```
#[derive(Clone, Debug, Eq, PartialEq)]
pub struct ScatterJob {
    /// The type of the updates' and the destination's elements.
    pub element: ElementType,
    /// The starts.
    pub index: ViewLayout,
    /// What is added.
    pub updates: ViewLayout,
    /// What is added to.
    pub dest: ViewLayout,
    /// The axis lists.
    pub spec: ScatterSpec,
}

/// A job that can be stored. One that is stored may still be refused when it
/// is compiled or run.
///
/// ```
/// use strided::{gather_job, ElementType, GatherJob, GatherSpec, Job, ViewLayout};
///
/// let packed = |dims: &[usize]| ViewLayout::column_major(dims).unwrap_or_default();
/// let job = Job::Gather(GatherJob {
///     element: ElementType::I32,
///     operand: packed(&[5]),
///     index: packed(&[2]),
///     dest: packed(&[2, 2]),
///     spec: GatherSpec {
///         offset_dims: vec![0],
///         collapsed_slice_dims: vec![],
///         start_index_map: vec![0],
///         index_vector_dim: 1,
///         slice_sizes: vec![2],
///     },
/// });
/// let bytes = job.to_bytes()?;
/// assert_eq!(Job::from_bytes(&bytes)?, job);
///
/// let mut dest = [0; 4];
/// let done = gather_job(&bytes, &[10, 20, 30, 40, 50], &[4, -1], &mut dest)?;
/// assert_eq!((dest, done.slid()), ([40, 50, 10, 20], 2));
/// # Ok::<(), strided::StridedError>(())
/// ```
#[derive(Clone, Debug, Eq, PartialEq)]
pub enum Job {
    /// A gather.
    Gather(GatherJob),
    /// A scatter.
    Scatter(ScatterJob),
}

impl GatherJob {
    /// Compiles the job's plan. The offsets, which a plan has none of, are
    /// those of the views that it is executed with.
    ///
    /// # Errors
    ///
    /// The first of the refusals 1 to 7 that is met.
    pub fn compile(&self) -> Result<GatherPlan> {
        GatherPlan::compile(
            &self.operand.dims,
            &self.operand.strides,
            &self.index.dims,
            &self.index.strides,
            &self.dest.dims,
            &self.dest.strides,
            self.spec.clone(),
        )
    }
}

impl ScatterJob {
    /// Compiles the job's plan. The offsets, which a plan has none of, are
    /// those of the views that it is executed with; and so is the rule, of
    /// which a job has none.
    ///
    /// # Errors
    ///
    /// The first of the refusals 1 to 7 that is met.
    pub fn compile(&self) -> Result<ScatterPlan> {
        ScatterPlan::compile(
            &self.index.dims,
            &self.index.strides,
            &self.updates.dims,
            &self.updates.strides,
            &self.dest.dims,
            &self.dest.strides,
            self.spec.clone(),
        )
    }
}

impl Job {
    /// The type of the job's elements.
    pub fn element(&self) -> ElementType {
        match self {
            Self::Gather(job) => job.element,
            Self::Scatter(job) => job.element,
        }
    }

    /// The job's bytes.
    ///
    /// # Errors
    ///
    /// 1, then 2 for a view of more than [`RANK_LIMIT`](crate::RANK_LIMIT)
    /// axes, then 5 for a list of more than [`LIST_LIMIT`](crate::LIST_LIMIT)
    /// entries.
    ///
    /// ```
    /// use strided::{ElementType, Job, ScatterJob, ScatterSpec, StridedError, ViewLayout};
    ///
    /// let mut job = ScatterJob {
    ///     element: ElementType::I32,
    ///     index: ViewLayout::default(),
    ///     updates: ViewLayout::default(),
    ///     dest: ViewLayout::default(),
    ///     spec: ScatterSpec {
    ///         update_window_dims: vec![],
    ///         inserted_window_dims: vec![],
    ///         scatter_dims_to_operand_dims: vec![],
    ///         index_vector_dim: 0,
    ///     },
    /// };
    /// // The four bytes that count, version, kind and element, three views
    /// // without axes, three lists without entries, the vector axis.
    /// assert_eq!(Job::Scatter(job.clone()).to_bytes()?.len(), 4 + 3 + 3 * 9 + 3 + 8);
    ///
    /// job.spec.inserted_window_dims = vec![0; 17];
    /// let refusal = Job::Scatter(job).to_bytes().unwrap_err();
    /// assert_eq!(refusal, StridedError::RankMismatch { count: 17, against: 16 });
    /// # Ok::<(), StridedError>(())
    /// ```
    pub fn to_bytes(&self) -> Result<Vec<u8>> {
        let mut bytes = Vec::new();
        match self.write(&mut bytes) {
            // Without room the writer tells how many bytes it needs.
            Err(StridedError::BufferBounds {
                view: 0,
                bytes_needed,
            }) => {
                bytes.resize(bytes_needed as usize, 0);
                self.write(&mut bytes)?;
            }
            answer => answer?,
        }
        Ok(bytes)
    }

    fn write(&self, out: &mut [u8]) -> Result<()> {
        let element = self.element().number();
        StridedError::check(match self {
            Self::Gather(job) => ffi::strided_write_gather_job(
                element,
                words(&job.operand.dims),
                steps(&job.operand.strides),
                job.operand.offset as i64,
                words(&job.index.dims),
                steps(&job.index.strides),
                job.index.offset as i64,
                words(&job.dest.dims),
                steps(&job.dest.strides),
                job.dest.offset as i64,
                words(&job.spec.offset_dims),
                words(&job.spec.collapsed_slice_dims),
                words(&job.spec.start_index_map),
                job.spec.index_vector_dim as u64,
                words(&job.spec.slice_sizes),
                out,
            ),
            Self::Scatter(job) => ffi::strided_write_scatter_job(
                element,
                words(&job.index.dims),
                steps(&job.index.strides),
                job.index.offset as i64,
                words(&job.updates.dims),
                steps(&job.updates.strides),
                job.updates.offset as i64,
                words(&job.dest.dims),
                steps(&job.dest.strides),
                job.dest.offset as i64,
                words(&job.spec.update_window_dims),
                words(&job.spec.inserted_window_dims),
                words(&job.spec.scatter_dims_to_operand_dims),
                job.spec.index_vector_dim as u64,
                out,
            ),
        })
    }

    /// The job that the bytes store.
    ///
    /// The library's reader decides. What it accepts is taken apart here, and
    /// must be written by the library as the same bytes again.
    ///
    /// # Errors
    ///
    /// 10 with the place of the first field that is cut off or has an unlisted
    /// value, or of the first byte left over; with the place 0 where the bytes
    /// are not as many as the first four of them say.
    ///
    /// ```
    /// use strided::{Job, StridedError};
    ///
    /// // Three bytes follow, but 9 is no version.
    /// let refusal = Job::from_bytes(&[0, 0, 0, 3, 9, 1, 1]).unwrap_err();
    /// assert_eq!(refusal, StridedError::JobBytes { place: 4 });
    /// ```
    pub fn from_bytes(bytes: &[u8]) -> Result<Job> {
        check_job(bytes)?;
        let mut fields = Fields::new(bytes);
        let Some(job) = fields.job() else {
            return Err(refused_at(bytes.len().saturating_sub(fields.left())));
        };
        match first_difference(bytes, &job.to_bytes()?) {
            None => Ok(job),
            Some(place) => Err(refused_at(place)),
        }
    }
}

fn refused_at(place: usize) -> StridedError {
    StridedError::JobBytes {
        place: place as u64,
    }
}

fn first_difference(left: &[u8], right: &[u8]) -> Option<usize> {
    let common = left.iter().zip(right).take_while(|(l, r)| l == r).count();
    (common < left.len() || common < right.len()).then_some(common)
}

/// Whether the bytes store a job. One that is stored may still be refused when
/// it is run.
///
/// # Errors
///
/// 10, as [`Job::from_bytes`].
///
/// ```
/// use strided::{check_job, StridedError};
///
/// assert_eq!(check_job(&[]), Err(StridedError::JobBytes { place: 0 }));
/// ```
pub fn check_job(bytes: &[u8]) -> Result<()> {
    StridedError::check(ffi::strided_read_job(bytes))
}

/// Reads a stored gather, compiles it and calls it, as
/// [`GatherPlan::execute`] does, on the slices of its three views.
/// [`Done::slid`] tells how many windows the clamp moved.
///
/// # Errors
///
/// The first of these: 10 where the bytes store no job, and where they store a
/// scatter (at byte 5) or elements of another type than `T` (at byte 6); what
/// compile refuses; 9 for a view that reaches outside its slice. No element is
/// changed then.
///
/// ```
/// use strided::{gather_job, ElementType, GatherJob, GatherSpec, Job, StridedError, ViewLayout};
///
/// // The whole of a grid with one axis, at a start without components.
/// let grid = ViewLayout { dims: vec![3], strides: vec![1], offset: 0 };
/// let spec = GatherSpec {
///     offset_dims: vec![0],
///     collapsed_slice_dims: vec![],
///     start_index_map: vec![],
///     index_vector_dim: 0,
///     slice_sizes: vec![3],
/// };
/// let index = ViewLayout { dims: vec![0], strides: vec![1], offset: 0 };
/// let element = ElementType::F64;
/// let job = GatherJob { element, operand: grid.clone(), index, dest: grid, spec };
/// let bytes = Job::Gather(job).to_bytes()?;
///
/// let mut dest = [0.0; 3];
/// gather_job(&bytes, &[1.5, 2.5, 3.5], &[], &mut dest)?;
/// assert_eq!(dest, [1.5, 2.5, 3.5]);
///
/// let refusal = gather_job(&bytes, &[1, 2, 3], &[], &mut [0; 3]).unwrap_err();
/// assert_eq!(refusal, StridedError::JobBytes { place: 6 });
/// # Ok::<(), StridedError>(())
/// ```
pub fn gather_job<T: Element>(
    job: &[u8],
    operand: &[T],
    starts: &[i64],
    dest: &mut [T],
) -> Result<Done> {
    T::gather_job(job, operand, starts, dest)
}

/// Reads a stored scatter, compiles it and calls it, as
/// [`ScatterPlan::execute`] does, on the slices of its three views.
/// [`Done::slid`] tells how many windows the clamp moved. A stored scatter
/// adds; for another rule [`Job::from_bytes`] gives the job, whose plan
/// [`execute_updates`](ScatterPlan::execute_updates) takes.
///
/// # Errors
///
/// As [`gather_job`], with byte 5 where the bytes store a gather.
///
/// ```
/// use strided::{scatter_job, ElementType, Job, ScatterJob, ScatterSpec, StridedError, ViewLayout};
///
/// let packed = |dims: &[usize]| ViewLayout::column_major(dims).unwrap_or_default();
/// let bytes = Job::Scatter(ScatterJob {
///     element: ElementType::I32,
///     index: packed(&[3]),
///     updates: packed(&[3]),
///     dest: packed(&[5]),
///     spec: ScatterSpec {
///         update_window_dims: vec![],
///         inserted_window_dims: vec![0],
///         scatter_dims_to_operand_dims: vec![0],
///         index_vector_dim: 1,
///     },
/// })
/// .to_bytes()?;
///
/// let mut grid = [0; 5];
/// let done = scatter_job(&bytes, &[0, 0, 9], &[3, 4, 5], &mut grid)?;
/// assert_eq!((grid, done.slid()), ([7, 0, 0, 0, 5], 1));
///
/// // A grid that is too short is refused, and stays.
/// let refusal = scatter_job(&bytes, &[0, 0, 9], &[3, 4, 5], &mut grid[..4]).unwrap_err();
/// assert_eq!(refusal, StridedError::BufferBounds { view: 3, bytes_needed: 0 });
/// assert_eq!(grid, [7, 0, 0, 0, 5]);
/// # Ok::<(), StridedError>(())
/// ```
pub fn scatter_job<T: Element>(
    job: &[u8],
    starts: &[i64],
    updates: &[T],
    dest: &mut [T],
) -> Result<Done> {
    T::scatter_job(job, starts, updates, dest)
}
