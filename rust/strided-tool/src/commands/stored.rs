//! The job of a call: stored in a file, or made of axis lists and files.

use std::fmt::Display;
use std::fs::File;
use std::io::Read;
use std::path::Path;

use strided::{Done, Job, OperandScatterPlan, ScatterJob, StridedError, ViewLayout};

use crate::failure::{Failure, Outcome};
use crate::refusal::{refused, views, Known, Named};

/// Jobs and their texts are some hundred bytes; a file of more than this is neither.
const LIMIT: u64 = 1 << 20;

/// A job with its bytes.
pub struct Stored {
    /// What a refusal names: the file, or the call.
    pub about: String,
    /// Whether it was read from a file.
    pub is_file: bool,
    /// The bytes, which the library has taken for a job or has written; none with a chart.
    pub bytes: Vec<u8>,
    /// The job.
    pub job: Job,
    /// The layout of the chart that a scatter copies first. No stored job has one.
    pub chart: Option<ViewLayout>,
}

impl Stored {
    /// Reads a stored job.
    pub fn read(path: &Path) -> Outcome<Stored> {
        let bytes = small_file(path, "a stored job")?;
        let about = path.display().to_string();
        match Job::from_bytes(&bytes) {
            Ok(job) => Ok(Stored {
                about,
                is_file: true,
                bytes,
                job,
                chart: None,
            }),
            Err(error) => {
                let known = Known {
                    bytes: Some(&bytes),
                    ..Known::default()
                };
                Err(refused(&about, error, &known))
            }
        }
    }

    /// A job that no file stores, and that the library would run.
    pub fn of_call(job: Job) -> Outcome<Stored> {
        let about = "the call".to_owned();
        let known = Known {
            job: Some(&job),
            ..Known::default()
        };
        let written = job.to_bytes();
        let bytes = written.map_err(|error| refused(&about, error, &known))?;
        let stored = Stored {
            about,
            is_file: false,
            bytes,
            job,
            chart: None,
        };
        stored.can_run()?;
        Ok(stored)
    }

    /// A scatter that copies a chart first, and that the library would run.
    pub fn with_chart(job: ScatterJob, chart: ViewLayout) -> Outcome<Stored> {
        let stored = Stored {
            about: "the call".to_owned(),
            is_file: false,
            bytes: Vec::new(),
            job: Job::Scatter(job),
            chart: Some(chart),
        };
        stored.can_run()?;
        Ok(stored)
    }

    /// Refuses a job that the library refuses to compile.
    pub fn can_run(&self) -> Outcome<()> {
        let answer = match (&self.job, &self.chart) {
            (Job::Scatter(job), Some(chart)) => charted(job, chart).map(drop),
            (job, _) => compile(job),
        };
        answer.map_err(|error| self.refused(error, Vec::new()))
    }

    /// Its views in order.
    pub fn views(&self) -> Vec<Named<'_>> {
        views(&self.job, self.chart.as_ref())
    }

    /// A failure that is not a refusal by the library.
    pub fn unusable(&self, why: impl Display) -> Failure {
        Failure::Unusable(format!("{}: {why}", self.about))
    }

    /// The failure where the library refuses the job; `lent` as in `Known`.
    pub fn refused(&self, error: StridedError, lent: Vec<(String, usize)>) -> Failure {
        let known = Known {
            job: Some(&self.job),
            chart: self.chart.as_ref(),
            bytes: Some(&self.bytes),
            lent,
        };
        refused(&self.about, error, &known)
    }

    /// The failure where a job is of the other kind than the command.
    pub fn of_other_kind(&self, answer: strided::Result<Done>, command: &str) -> Failure {
        let hint = format!("run it with `strided {command}`");
        match answer {
            Ok(_) => self.unusable(hint),
            Err(error) => match self.refused(error, Vec::new()) {
                Failure::Refused(text) => Failure::Refused(format!("{text}; {hint}")),
                other => other,
            },
        }
    }
}

/// Whether the library would run a job; whether files suffice for it is found when it is run.
pub fn compile(job: &Job) -> strided::Result<()> {
    match job {
        Job::Gather(job) => job.compile().map(drop),
        Job::Scatter(job) => job.compile().map(drop),
    }
}

/// The plan of a scatter that copies a chart first.
pub fn charted(job: &ScatterJob, chart: &ViewLayout) -> strided::Result<OperandScatterPlan> {
    OperandScatterPlan::compile(
        &chart.dims,
        &chart.strides,
        &job.index.dims,
        &job.index.strides,
        &job.updates.dims,
        &job.updates.strides,
        &job.dest.dims,
        &job.dest.strides,
        job.spec.clone(),
    )
}

/// The whole of a file that is small if it is what it should be.
pub fn small_file(path: &Path, what: &str) -> Outcome<Vec<u8>> {
    let file = File::open(path).map_err(|error| Failure::of_io(path, "open it", &error))?;
    let mut bytes = Vec::new();
    file.take(LIMIT.saturating_add(1))
        .read_to_end(&mut bytes)
        .map_err(|error| Failure::of_io(path, "read it", &error))?;
    if u64::try_from(bytes.len()).is_ok_and(|count| count <= LIMIT) {
        return Ok(bytes);
    }
    Err(Failure::of_file(
        path,
        format_args!("it is too large to be {what}"),
    ))
}
