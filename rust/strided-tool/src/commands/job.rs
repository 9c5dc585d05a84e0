//! `strided job`: make, show, check.

use std::path::Path;

use strided::Job;

use super::stored::{compile, small_file, Stored};
use super::{print_out, Report};
use crate::cli::JobCommand;
use crate::failure::{Failure, Outcome};
use crate::job_text;
use crate::npy::shape_in_words;
use crate::output::{self, Output};
use crate::refusal::{refused, views, Known};

pub fn run(command: &JobCommand, report: &mut Report) -> Outcome<()> {
    match command {
        JobCommand::Make {
            text,
            out,
            keep_refused,
            lock,
        } => {
            output::is_apart(out, &[("the text", text)])?;
            let output = Output::claim(out, lock.patience())?;
            make(text, *keep_refused, output)?
                .iter()
                .for_each(|line| report.say(line));
            Ok(())
        }
        JobCommand::Show { job } => print_out(&job_text::print(&Stored::read(job)?.job)),
        JobCommand::Check { job } => check(job, report),
    }
}

/// Stores the job that a text describes; what there is to say of it.
fn make(path: &Path, keep_refused: bool, output: Output) -> Outcome<Vec<String>> {
    let job = described(path)?;
    let about = path.display().to_string();
    let known = Known {
        job: Some(&job),
        ..Known::default()
    };
    let refused = |error| refused(&about, error, &known);
    let bytes = job.to_bytes().map_err(refused)?;
    let runs = compile(&job).map_err(refused);
    if let (Err(why), false) = (&runs, keep_refused) {
        return Err(Failure::Refused(format!(
            "{why}\nnothing was stored; --keep-refused stores it all the same"
        )));
    }
    let stored = format!("stored {} in {}", in_words(&job), output.name());
    output.write(|file| file.write_all(&bytes))?;
    let refusal = runs.err();
    let refusal = refusal.map(|why| format!("it is stored, but it cannot be run: {why}"));
    Ok([stored].into_iter().chain(refusal).collect())
}

/// The job that a file describes as text.
fn described(path: &Path) -> Outcome<Job> {
    let bytes = small_file(path, "a job's text")?;
    let text = match String::from_utf8(bytes) {
        Ok(text) if !text.contains('\0') => text,
        _ => {
            return Err(Failure::of_file(
                path,
                "it is not text; `strided job show` prints a stored job as text",
            ))
        }
    };
    let text = text.strip_prefix('\u{feff}').unwrap_or(&text);
    job_text::parse(text).map_err(|error| match error.line {
        Some(line) => Failure::Unusable(format!("{}:{line}: {}", path.display(), error.what)),
        None => Failure::of_file(path, error.what),
    })
}

fn check(path: &Path, report: &mut Report) -> Outcome<()> {
    let stored = Stored::read(path)?;
    stored.can_run()?;
    report.say(&format!(
        "{}: {}, which can be run",
        path.display(),
        in_words(&stored.job)
    ));
    Ok(())
}

fn in_words(job: &Job) -> String {
    let kind = match job {
        Job::Gather(_) => "a gather",
        Job::Scatter(_) => "a scatter",
    };
    let element = match job.element() {
        strided::ElementType::I32 => "i32",
        strided::ElementType::F64 => "f64",
    };
    let views: Vec<String> = views(job, None)
        .iter()
        .map(|(name, view)| format!("{name} {}", shape_in_words(&view.dims)))
        .collect();
    format!("{kind} of {element} ({})", views.join(", "))
}
