//! The library's refusals in words: the number with its name and meaning, then what it says of the job at hand.

mod bytes;
mod counts;
mod gather;
mod scatter;

pub use counts::{batch, others, pick};
pub use scatter::windows as scatter_windows;

use strided::{Job, StridedError, ViewLayout};

use crate::failure::Failure;
use crate::job_text::list;

/// What is known where the library refuses.
#[derive(Default)]
pub struct Known<'a> {
    /// The job, where it could be read.
    pub job: Option<&'a Job>,
    /// The layout of the chart that a scatter copies first.
    pub chart: Option<&'a ViewLayout>,
    /// The bytes of the stored job.
    pub bytes: Option<&'a [u8]>,
    /// For the views in order, the file that lends the elements and how many they are; empty where they are not lent yet.
    pub lent: Vec<(String, usize)>,
}

/// The failure that tells a refusal: `about` names what was refused.
pub fn refused(about: &str, error: StridedError, known: &Known<'_>) -> Failure {
    let (number, a, b) = (error.number(), error.a(), error.b());
    let Some(name) = name(&error) else {
        return Failure::Refused(format!(
            "{about}: refused by {number} (a = {a}, b = {b}), for which this version of the tool has no words"
        ));
    };
    let mut text = format!("{about}: refused by {number} {name} (a = {a}, b = {b}): {error}");
    if let Some(more) = explanation(error, known) {
        text.push('\n');
        text.push_str(&more);
    }
    Failure::Refused(text)
}

/// The name of a refusal; none for one that came after this tool.
fn name(error: &StridedError) -> Option<&'static str> {
    Some(match error {
        StridedError::StrideLengthMismatch => "StrideLengthMismatch",
        StridedError::RankTooLarge { .. } => "RankTooLarge",
        StridedError::OffsetOverflow => "OffsetOverflow",
        StridedError::NonInjectiveOutputLayout => "NonInjectiveOutputLayout",
        StridedError::RankMismatch { .. } => "RankMismatch",
        StridedError::InvalidAxis { .. } => "InvalidAxis",
        StridedError::ShapeMismatch { .. } => "ShapeMismatch",
        StridedError::PlanLayoutMismatch => "PlanLayoutMismatch",
        StridedError::BufferBounds { .. } => "BufferBounds",
        StridedError::JobBytes { .. } => "JobBytes",
        StridedError::UnlistedRule { .. } => "UnlistedRule",
        _ => return None,
    })
}

fn explanation(error: StridedError, known: &Known<'_>) -> Option<String> {
    if let StridedError::JobBytes { place } = error {
        return known.bytes.map(|bytes| bytes::field_at(bytes, place));
    }
    let job = known.job?;
    let views = views(job, known.chart);
    match error {
        StridedError::StrideLengthMismatch => unequal_strides(&views),
        StridedError::RankTooLarge { rank, .. } => large_rank(&views, rank),
        StridedError::OffsetOverflow => Some("make extents or strides smaller".to_owned()),
        StridedError::NonInjectiveOutputLayout => not_nested(&views),
        StridedError::BufferBounds { view, .. } => outside(&views, view, known),
        StridedError::RankMismatch { .. }
        | StridedError::InvalidAxis { .. }
        | StridedError::ShapeMismatch { .. } => match job {
            Job::Gather(job) => gather::explanation(job, error),
            Job::Scatter(job) => scatter::explanation(job, known.chart, error),
        },
        _ => None,
    }
}

/// A view: its name and its layout.
pub type Named<'a> = (&'static str, &'a ViewLayout);

/// The views in order, by the names that a job's text has for them; of a scatter that copies a chart, the chart first.
pub fn views<'a>(job: &'a Job, chart: Option<&'a ViewLayout>) -> Vec<Named<'a>> {
    let of_job: [Named<'_>; 3] = match job {
        Job::Gather(job) => [
            ("operand", &job.operand),
            ("index", &job.index),
            ("dest", &job.dest),
        ],
        Job::Scatter(job) => [
            ("index", &job.index),
            ("updates", &job.updates),
            ("dest", &job.dest),
        ],
    };
    let chart = chart.map(|layout| ("chart", layout));
    chart.into_iter().chain(of_job).collect()
}

fn unequal_strides(views: &[Named<'_>]) -> Option<String> {
    views
        .iter()
        .find(|(_, view)| view.dims.len() != view.strides.len())
        .map(|(name, view)| {
            let (extents, strides) = (view.dims.len(), view.strides.len());
            format!("{name}.extents has {extents} entries and {name}.strides {strides}; give one stride for each axis")
        })
}

fn large_rank(views: &[Named<'_>], rank: u64) -> Option<String> {
    views
        .iter()
        .find(|(_, view)| u64::try_from(view.dims.len()) == Ok(rank))
        .map(|(name, _)| format!("it is the {name} that has {rank} axes"))
}

fn not_nested(views: &[Named<'_>]) -> Option<String> {
    let (_, dest) = views.last()?;
    Some(format!(
        "dest has extents {} with strides {}; ordered by size, each stride must exceed the reach of the smaller ones",
        list(&dest.dims),
        list(&dest.strides)
    ))
}

fn outside(views: &[Named<'_>], view: u64, known: &Known<'_>) -> Option<String> {
    let place = usize::try_from(view).ok()?.checked_sub(1)?;
    let (name, layout) = *views.get(place)?;
    let cells = format!(
        "view {view} is the {name}: extents {}, strides {}, offset {}",
        list(&layout.dims),
        list(&layout.strides),
        layout.offset
    );
    let Some((file, count)) = known.lent.get(place) else {
        return Some(cells);
    };
    let wanted = if layout.dims.contains(&0) {
        format!("it has no cells, and its offset may be from 0 to {count}")
    } else {
        "all its cells must lie among them".to_owned()
    };
    Some(format!(
        "{cells}; {file} lends {count} elements, numbered from 0: {wanted}"
    ))
}

#[cfg(test)]
#[allow(clippy::unwrap_used)]
mod tests {
    use super::*;
    use strided::{ElementType, ScatterJob, ScatterSpec};

    fn packed(dims: &[usize]) -> ViewLayout {
        ViewLayout::column_major(dims).unwrap()
    }

    /// Three updates on a grid of five cells.
    fn cuts() -> Job {
        Job::Scatter(ScatterJob {
            element: ElementType::I32,
            index: packed(&[3]),
            updates: packed(&[3]),
            dest: packed(&[5]),
            spec: ScatterSpec {
                update_window_dims: vec![],
                inserted_window_dims: vec![0],
                scatter_dims_to_operand_dims: vec![0],
                index_vector_dim: 1,
            },
        })
    }

    fn told(error: StridedError, chart: Option<&ViewLayout>) -> String {
        let names = ["a", "b", "c", "d"].map(str::to_owned);
        let job = cuts();
        let known = Known {
            job: Some(&job),
            chart,
            bytes: None,
            lent: names.into_iter().zip(10..).collect(),
        };
        refused("x", error, &known).to_string()
    }

    #[test]
    fn a_chart_is_the_first_view() {
        let chart = packed(&[5]);
        let outside = |view| StridedError::BufferBounds {
            view,
            bytes_needed: 0,
        };
        let with = ["chart", "index", "updates", "dest"];
        for ((view, name), file) in (1..).zip(with).zip(["a", "b", "c", "d"]) {
            let told = told(outside(view), Some(&chart));
            let count = view.saturating_add(9);
            assert!(
                told.contains(&format!("view {view} is the {name}: ")),
                "{told}"
            );
            assert!(
                told.contains(&format!("; {file} lends {count} elements")),
                "{told}"
            );
        }
        for (view, name) in (1..).zip(["index", "updates", "dest"]) {
            let told = told(outside(view), None);
            assert!(
                told.contains(&format!("view {view} is the {name}: ")),
                "{told}"
            );
        }
        assert!(!told(outside(4), None).contains("view 4 is"));
    }

    #[test]
    fn a_shape_of_the_chart_or_of_the_updates() {
        let error = StridedError::ShapeMismatch {
            given: 1,
            expected: 2,
        };
        let other = told(error, Some(&packed(&[5, 1])));
        assert!(
            other.contains("the chart is 5 x 1, and the grid is 5;"),
            "{other}"
        );
        for chart in [None, Some(&packed(&[5]))] {
            let updates = told(error, chart);
            assert!(
                updates.contains("the updates have the extents [3]"),
                "{updates}"
            );
        }
    }

    #[test]
    fn layouts_that_are_refused() {
        let mut chart = packed(&[1; 9]);
        let error = StridedError::RankTooLarge { rank: 9, limit: 8 };
        assert!(told(error, Some(&chart)).ends_with("it is the chart that has 9 axes"));
        chart.strides.clear();
        let unequal = told(StridedError::StrideLengthMismatch, Some(&chart));
        assert!(unequal.contains("chart.extents has 9 entries"), "{unequal}");
        let nested = told(StridedError::NonInjectiveOutputLayout, Some(&chart));
        assert!(
            nested.contains("dest has extents [5] with strides [1]"),
            "{nested}"
        );
    }

    #[test]
    fn a_later_refusal_is_told_by_its_number() {
        let error = StridedError::Unknown {
            number: 11,
            a: 5,
            b: 0,
        };
        let told = refused("x.job", error, &Known::default()).to_string();
        assert!(
            told.starts_with("x.job: refused by 11 (a = 5, b = 0)"),
            "{told}"
        );
    }

    #[test]
    fn a_refusal_is_told_without_a_job() {
        let error = StridedError::BufferBounds {
            view: 9,
            bytes_needed: 0,
        };
        let told = refused("x.job", error, &Known::default()).to_string();
        assert!(
            told.starts_with("x.job: refused by 9 BufferBounds (a = 9, b = 0)"),
            "{told}"
        );
    }
}
