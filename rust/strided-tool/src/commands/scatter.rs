//! `strided scatter`.

use std::path::Path;

use strided::{Done, Element, ElementType, Job, ScatterJob};

use super::base::Base;
use super::lent::{fit, Lent};
use super::stored::{charted, Stored};
use super::Report;
use crate::cli::ScatterArgs;
use crate::failure::{Failure, Outcome};
use crate::npy::{self, shape_in_words, Grid, Item};
use crate::output::{self, Output};
use crate::progress;
use crate::rule::{RuleName, TypedRule};
use crate::slid;

/// A scatter of more updates than this is done where the user has said so: at a nanosecond each it takes more than a minute.
const MANY: u128 = 1 << 36;

pub fn run(args: &ScatterArgs, report: &mut Report) -> Outcome<()> {
    let rule = rule_of(args)?;
    no_chart_by_a_job(args)?;
    let mut inputs = vec![
        ("--starts", args.starts.as_path()),
        ("--updates", &args.updates),
    ];
    inputs.extend(args.job.iter().map(|job| ("--job", job.as_path())));
    let chart = args.lists.chart.iter();
    inputs.extend(chart.map(|chart| ("--chart", chart.as_path())));
    output::is_apart(&args.out, &inputs)?;
    let output = Output::claim(&args.out, args.lock.patience())?;
    let stored = args.job.as_deref().map(stored_scatter).transpose()?;
    let files = Files::open(args)?;
    let element = match &stored {
        Some(stored) => stored.job.element(),
        None => files.base.model().element()?,
    };
    let typed = rule
        .of(element)
        .ok_or_else(|| not_of_i32(files.base.model(), rule))?;
    let stored = stored.map_or_else(|| files.by_lists(args, element), Ok)?;
    let Job::Scatter(job) = &stored.job else {
        return Err(stored.unusable("it is not a scatter"));
    };
    files.fit(&stored, args.any_shape)?;
    may_take_long(&stored, job, args.yes)?;
    let call = Call {
        stored: &stored,
        job,
        rule,
    };
    match typed {
        TypedRule::I32(typed) => scatter::<i32>(args, files, &call, typed, output, report),
        TypedRule::F64(typed) => scatter::<f64>(args, files, &call, typed, output, report),
    }
}

/// The rule of the call. A stored job has none, so that one beside it is refused.
fn rule_of(args: &ScatterArgs) -> Outcome<RuleName> {
    match (&args.job, args.lists.rule) {
        (Some(job), Some(rule)) => Err(Failure::of_file(
            job,
            format_args!("a stored job adds, and --rule {rule} cannot be used with --job; nothing was done\ngive the axis lists in place of the job: `strided job show` prints them"),
        )),
        (_, rule) => Ok(rule.unwrap_or_default()),
    }
}

/// Refuses a chart beside a stored job, which has none.
fn no_chart_by_a_job(args: &ScatterArgs) -> Outcome<()> {
    match (&args.job, &args.lists.chart) {
        (Some(job), Some(_)) => Err(Failure::of_file(
            job,
            "a stored job copies no chart, and --chart cannot be used with --job; nothing was done\ngive the axis lists in place of the job: `strided job show` prints them",
        )),
        _ => Ok(()),
    }
}

fn not_of_i32(grid: &Lent<'_>, rule: RuleName) -> Failure {
    grid.unusable(format_args!("it holds i32, and {rule} is a rule for f64 alone; nothing was done\ngive another rule, or convert it and the updates in NumPy with .astype('<f8')"))
}

/// A stored scatter that the library would run.
fn stored_scatter(path: &Path) -> Outcome<Stored> {
    let stored = Stored::read(path)?;
    if let Job::Gather(_) = stored.job {
        let answer = strided::scatter_job::<i32>(&stored.bytes, &[], &[], &mut []);
        return Err(stored.of_other_kind(answer, "gather"));
    }
    stored.can_run()?;
    Ok(stored)
}

/// The files.
struct Files<'a> {
    starts: Lent<'a>,
    updates: Lent<'a>,
    base: Base<'a>,
}

impl<'a> Files<'a> {
    fn open(args: &'a ScatterArgs) -> Outcome<Files<'a>> {
        Ok(Files {
            starts: Lent::open(&args.starts)?,
            updates: Lent::open(&args.updates)?,
            base: Base::open(args)?,
        })
    }

    /// Refuses files that are not the call's.
    fn fit(&self, stored: &Stored, any_shape: bool) -> Outcome<()> {
        let mut files = Vec::from_iter(self.base.chart().map(Some));
        files.extend([Some(&self.starts), Some(&self.updates), self.base.grid()]);
        fit(stored, &files, any_shape)
    }

    /// The job of the axis lists, with extents and order from the files.
    fn by_lists(&self, args: &ScatterArgs, element: ElementType) -> Outcome<Stored> {
        let job = ScatterJob {
            element,
            index: self.starts.layout()?,
            updates: self.updates.layout()?,
            dest: self.base.model().layout()?,
            spec: args.lists.spec(),
        };
        match self.base.chart() {
            Some(chart) => Stored::with_chart(job, chart.layout()?),
            None => Stored::of_call(Job::Scatter(job)),
        }
    }

    fn load<T: Item>(self, call: &Call<'_>) -> Outcome<Elements<T>> {
        let starts = self.starts.load()?;
        let updates = self.updates.load()?;
        let (chart, grid) = self.base.load(call.stored, &call.job.dest)?;
        Ok(Elements {
            chart,
            starts,
            updates,
            grid,
        })
    }
}

/// The elements of the files.
struct Elements<T> {
    chart: Option<Grid<T>>,
    starts: Grid<i64>,
    updates: Grid<T>,
    grid: Grid<T>,
}

impl<T> Elements<T> {
    /// For the views in order, the file that lends the elements and how many they are.
    fn lent(&self, args: &ScatterArgs) -> Vec<(String, usize)> {
        let name = |path: &Path| path.display().to_string();
        let chart = args.lists.chart.as_deref().zip(self.chart.as_ref());
        let grid = match &args.grid {
            Some(path) => name(path),
            None => "the copy of the chart".to_owned(),
        };
        let mut lent = Vec::from_iter(chart.map(|(path, chart)| (name(path), chart.data.len())));
        lent.extend([
            (name(&args.starts), self.starts.data.len()),
            (name(&args.updates), self.updates.data.len()),
            (grid, self.grid.data.len()),
        ]);
        lent
    }
}

/// Refuses what would take too long to be begun unasked.
fn may_take_long(stored: &Stored, job: &ScatterJob, yes: bool) -> Outcome<()> {
    let count = updates(job);
    if count <= MANY || yes {
        return Ok(());
    }
    Err(stored.unusable(format_args!(
        "it has {count} updates ({}), which at a nanosecond each take {}; nothing was done\n--yes does it all the same",
        shape_in_words(&job.updates.dims),
        time_in_words(count / 1_000_000_000)
    )))
}

/// How many updates a job has.
fn updates(job: &ScatterJob) -> u128 {
    let extents = job.updates.dims.iter();
    extents
        .map(|extent| u128::try_from(*extent).unwrap_or(u128::MAX))
        .fold(1, u128::saturating_mul)
}

fn time_in_words(seconds: u128) -> String {
    let units = [(31_557_600, "years"), (86_400, "days"), (3_600, "hours")];
    let found = units.iter().find(|(unit, _)| seconds.div_ceil(*unit) > 2);
    let (unit, name) = found.unwrap_or(&(60, "minutes"));
    format!("{} {name}", seconds.div_ceil(*unit))
}

/// A scatter as it is called.
struct Call<'a> {
    stored: &'a Stored,
    job: &'a ScatterJob,
    rule: RuleName,
}

impl Call<'_> {
    /// Runs a stored job by its bytes, which add, and a call by lists by its rule, after the copy of a chart if it has one.
    fn run<T: Element>(&self, elements: &mut Elements<T>, rule: T::Rule) -> strided::Result<Done> {
        let starts = &elements.starts.data;
        let updates = &elements.updates.data;
        let grid = &mut elements.grid.data;
        if self.stored.is_file {
            return strided::scatter_job(&self.stored.bytes, starts, updates, grid);
        }
        let job = self.job;
        let dest = &mut job.dest.view_mut(grid);
        let index = &job.index.view(starts);
        let updates = &job.updates.view(updates);
        match self.stored.chart.as_ref().zip(elements.chart.as_ref()) {
            Some((layout, chart)) => {
                let chart = layout.view(&chart.data);
                charted(job, layout)?.execute_by(dest, &chart, index, updates, rule)
            }
            None => job.compile()?.execute_updates(dest, index, updates, rule),
        }
    }
}

fn scatter<T: Element + Item>(
    args: &ScatterArgs,
    files: Files<'_>,
    call: &Call<'_>,
    rule: T::Rule,
    output: Output,
    report: &mut Report,
) -> Outcome<()> {
    let count = updates(call.job);
    let shape = shape_in_words(&call.job.updates.dims);
    let doing = files.base.doing(call.rule, &format!("{count} updates"));
    let put = (files.base).done(call.rule, &format!("{count} updates ({shape})"));
    let mut elements = files.load::<T>(call)?;
    let done = progress::timed(&doing, || call.run(&mut elements, rule))
        .map_err(|error| call.stored.refused(error, elements.lent(args)))?;
    let starts = &elements.starts.data;
    let moved = slid::told(done, &call.stored.job, starts, args.verbose)?;
    let name = args.out.display().to_string();
    output.write(|file| npy::write(&elements.grid, &name, file))?;
    report.say(&format!("{put}; it is in {name}"));
    report.say_all(&moved);
    Ok(())
}
