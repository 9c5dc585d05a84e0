//! The windows that the clamp moved. How many they are the library says; which they are is found here, from the starts, the extents
//! and the windows of the job.

use std::iter;

use strided::{Done, GatherJob, Job, ScatterJob, ViewLayout};

use crate::failure::{Failure, Outcome};
use crate::progress;
use crate::refusal::{batch, others, pick, scatter_windows};

/// No more windows than this are listed.
const MOST: usize = 1000;

/// The lines that tell of the windows that were moved: how many, where some were. Where they are to be listed, how many in any case,
/// and a line for each; refused where those that are found are not as many as the library says, which cannot be.
pub fn told(done: Done, job: &Job, starts: &[i64], list: bool) -> Outcome<Vec<String>> {
    let places = Starts::of(job);
    let count = in_words(done.slid(), places.windows());
    if !list {
        return Ok(Vec::from_iter((done.slid() > 0).then_some(count)));
    }
    let found = progress::timed("finding the windows that were moved", || {
        places.moved(starts)
    });
    if found.count != done.slid() {
        return Err(Failure::Unusable(DIFFERENT.to_owned()));
    }
    Ok(iter::once(count).chain(found.lines()).collect())
}

const DIFFERENT: &str = "\
the windows that were moved inward are not as many as the library says; nothing was written
this is a fault of the tool or of the library, not of the files";

fn in_words(moved: u64, windows: u128) -> String {
    let name = if windows == 1 { "window" } else { "windows" };
    let were = match (moved, windows) {
        (1, _) | (_, 1) => "was",
        _ => "were",
    };
    format!("{moved} of {windows} {name} {were} moved inward")
}

/// The windows that were found: how many, and the first of them in words.
#[derive(Default)]
struct Found {
    count: u64,
    first: Vec<String>,
}

impl Found {
    fn add(&mut self, line: impl FnOnce() -> String) {
        self.count = self.count.saturating_add(1);
        if self.first.len() < MOST {
            self.first.push(line());
        }
    }

    /// The first windows, and how many more there are.
    fn lines(self) -> Vec<String> {
        let listed = u64::try_from(self.first.len()).unwrap_or(u64::MAX);
        let mut lines = self.first;
        match self.count.saturating_sub(listed) {
            0 => {}
            more => lines.push(format!("and {more} more")),
        }
        lines
    }
}

/// Where the components of a job's starts lie, and how far they may go.
struct Starts {
    /// The batch: extents, and their strides in the starts.
    extents: Vec<usize>,
    strides: Vec<isize>,
    offset: isize,
    /// From one component to the next.
    step: isize,
    /// The last start of each component.
    lasts: Vec<i64>,
    /// Whether the windows have cells. Without any nothing is moved.
    cells: bool,
}

impl Starts {
    fn of(job: &Job) -> Starts {
        match job {
            Job::Gather(job) => Starts::of_gather(job),
            Job::Scatter(job) => Starts::of_scatter(job),
        }
    }

    fn of_gather(job: &GatherJob) -> Starts {
        let spec = &job.spec;
        let lasts = lasts(&job.operand.dims, &spec.slice_sizes, &spec.start_index_map);
        let cells = !job.dest.dims.contains(&0);
        Starts::new(&job.index, spec.index_vector_dim, lasts, cells)
    }

    fn of_scatter(job: &ScatterJob) -> Starts {
        let spec = &job.spec;
        let axes = &spec.scatter_dims_to_operand_dims;
        let lasts = lasts(&job.dest.dims, &scatter_windows(job), axes);
        let cells = !job.updates.dims.contains(&0);
        Starts::new(&job.index, spec.index_vector_dim, lasts, cells)
    }

    fn new(index: &ViewLayout, vector: usize, lasts: Vec<i64>, cells: bool) -> Starts {
        let axes = others(index.dims.len(), &[vector]);
        let strides = axes.iter().filter_map(|axis| index.strides.get(*axis));
        Starts {
            extents: batch(&index.dims, vector),
            strides: strides.copied().collect(),
            offset: index.offset,
            step: index.strides.get(vector).copied().unwrap_or(0),
            lasts,
            cells,
        }
    }

    /// How many windows there are: one for each coordinate of the batch.
    fn windows(&self) -> u128 {
        let extents = self.extents.iter();
        extents
            .map(|extent| u128::try_from(*extent).unwrap_or(u128::MAX))
            .fold(1, u128::saturating_mul)
    }

    /// The windows that are moved, first axis of the batch fastest.
    fn moved(&self, starts: &[i64]) -> Found {
        let mut found = Found::default();
        if !self.cells || self.extents.contains(&0) {
            return found;
        }
        let mut at = vec![0; self.extents.len()];
        loop {
            let start = || self.start(starts, &at);
            if start().any(|(start, clamped)| start != clamped) {
                found.add(|| window_in_words(&at, start()));
            }
            if !advance(&mut at, &self.extents) {
                return found;
            }
        }
    }

    /// The components of the start at a coordinate of the batch, each as it is read and as it is clamped.
    fn start<'a>(
        &'a self,
        starts: &'a [i64],
        at: &[usize],
    ) -> impl Iterator<Item = (i64, i64)> + 'a {
        let steps = at.iter().zip(&self.strides);
        let base = steps.fold(self.offset, |place, (coordinate, stride)| {
            place.saturating_add(times(*coordinate, *stride))
        });
        let places = (0..).map(move |component| base.saturating_add(times(component, self.step)));
        let lasts = self.lasts.iter().zip(places);
        lasts.filter_map(|(last, place)| {
            let start = *starts.get(usize::try_from(place).ok()?)?;
            Some((start, start.clamp(0, *last)))
        })
    }
}

fn times(count: usize, step: isize) -> isize {
    isize::try_from(count)
        .unwrap_or(isize::MAX)
        .saturating_mul(step)
}

/// The last start of each component, by the grid's extents and the windows on its axis.
fn lasts(grid: &[usize], windows: &[usize], axes: &[usize]) -> Vec<i64> {
    let extents = pick(grid, axes).into_iter();
    extents
        .zip(pick(windows, axes))
        .map(|(extent, window)| i64::try_from(extent.saturating_sub(window)).unwrap_or(i64::MAX))
        .collect()
}

/// Goes on to the next coordinate, first axis fastest; tells whether there is one.
fn advance(at: &mut [usize], extents: &[usize]) -> bool {
    for (coordinate, extent) in at.iter_mut().zip(extents) {
        *coordinate = coordinate.saturating_add(1);
        if *coordinate < *extent {
            return true;
        }
        *coordinate = 0;
    }
    false
}

fn window_in_words(at: &[usize], start: impl Iterator<Item = (i64, i64)>) -> String {
    let (start, clamped): (Vec<i64>, Vec<i64>) = start.unzip();
    format!("window {at:?}: start {start:?} moved to {clamped:?}")
}

#[cfg(test)]
#[allow(clippy::unwrap_used)]
mod tests {
    use super::*;
    use strided::{gather_job, ElementType, GatherSpec};

    fn packed(dims: &[usize]) -> ViewLayout {
        ViewLayout::column_major(dims).unwrap()
    }

    /// Windows of one cell of a grid of 17 rows and 3 columns, at as many starts as the batch has coordinates.
    fn cells_of(batch: &[usize]) -> Job {
        Job::Gather(GatherJob {
            element: ElementType::I32,
            operand: packed(&[17, 3]),
            index: packed(&[&[2], batch].concat()),
            dest: packed(batch),
            spec: GatherSpec {
                offset_dims: vec![],
                collapsed_slice_dims: vec![0, 1],
                start_index_map: vec![0, 1],
                index_vector_dim: 0,
                slice_sizes: vec![1, 1],
            },
        })
    }

    fn run(job: &Job, starts: &[i64]) -> Done {
        let mut dest = vec![0; starts.len() / 2];
        gather_job(&job.to_bytes().unwrap(), &[0; 51], starts, &mut dest).unwrap()
    }

    fn lines(job: &Job, starts: &[i64]) -> Vec<String> {
        told(run(job, starts), job, starts, true).unwrap()
    }

    #[test]
    fn windows_are_listed_first_axis_fastest() {
        let starts = [16, 2, 17, -2, 0, 0, -1, 1, 16, 3, 0, 2];
        assert_eq!(
            lines(&cells_of(&[2, 3]), &starts),
            [
                "3 of 6 windows were moved inward",
                "window [1, 0]: start [17, -2] moved to [16, 0]",
                "window [1, 1]: start [-1, 1] moved to [0, 1]",
                "window [0, 2]: start [16, 3] moved to [16, 2]",
            ]
        );
    }

    #[test]
    fn a_window_without_a_batch() {
        let job = cells_of(&[]);
        assert_eq!(lines(&job, &[16, 2]), ["0 of 1 window was moved inward"]);
        let moved = [
            "1 of 1 window was moved inward",
            "window []: start [9223372036854775807, -9223372036854775808] moved to [16, 0]",
        ];
        assert_eq!(lines(&job, &[i64::MAX, i64::MIN]), moved);
    }

    #[test]
    fn one_and_several() {
        assert_eq!(in_words(0, 0), "0 of 0 windows were moved inward");
        assert_eq!(in_words(1, 53), "1 of 53 windows was moved inward");
        assert_eq!(in_words(2, 2), "2 of 2 windows were moved inward");
        assert_eq!(in_words(0, 53), "0 of 53 windows were moved inward");
    }

    #[test]
    fn no_more_than_a_thousand_are_listed() {
        for (count, more) in [
            (1000, None),
            (1001, Some("and 1 more")),
            (2500, Some("and 1500 more")),
        ] {
            let job = cells_of(&[count]);
            let lines = lines(&job, &vec![-1; 2 * count]);
            let (first, listed) = lines.split_first().unwrap();
            assert_eq!(
                *first,
                format!("{count} of {count} windows were moved inward")
            );
            assert_eq!(
                listed.get(999).unwrap(),
                "window [999]: start [-1, -1] moved to [0, 0]"
            );
            assert_eq!(listed.get(1000).map(String::as_str), more);
            assert!(listed.len() <= 1001);
        }
    }

    #[test]
    fn without_a_list_nothing_is_told_where_none_moved() {
        let job = cells_of(&[2]);
        let lines = |starts: &[i64]| told(run(&job, starts), &job, starts, false).unwrap();
        assert!(lines(&[0, 0, 16, 2]).is_empty());
        assert_eq!(lines(&[0, 0, 16, 3]), ["1 of 2 windows was moved inward"]);
    }

    #[test]
    fn other_starts_than_the_call_had_are_refused() {
        let job = cells_of(&[2]);
        let inside = [0, 0, 1, 1];
        let outside = [0, 0, 1, 3];
        for (called, listed) in [(inside, outside), (outside, inside)] {
            let refusal = told(run(&job, &called), &job, &listed, true).unwrap_err();
            assert_eq!(refusal.status(), 2);
            assert!(refusal
                .to_string()
                .contains("not as many as the library says"));
        }
    }

    #[test]
    fn a_start_that_is_read_often() {
        let mut job = cells_of(&[3, 2]);
        if let Job::Gather(job) = &mut job {
            job.index.strides = vec![1, 0, 2];
        }
        let lines = lines(&job, &[0, 3, 0, 0, 0, 0, 0, 0, 0, 0, 0, 0]);
        assert_eq!(lines.len(), 4);
        assert_eq!(lines.first().unwrap(), "3 of 6 windows were moved inward");
        assert_eq!(
            lines.last().unwrap(),
            "window [2, 0]: start [0, 3] moved to [0, 2]"
        );
    }
}
