//! `strided gather`.

use std::path::Path;

use strided::{Element, ElementType, GatherJob, GatherSpec, Job, ViewLayout};

use super::fresh::fresh;
use super::lent::{fit, Lent};
use super::packed::layout_of;
use super::stored::Stored;
use super::Report;
use crate::cli::GatherArgs;
use crate::failure::{Failure, Outcome};
use crate::npy::{self, cells, shape_in_words, Item};
use crate::output::{self, Output};
use crate::progress;
use crate::refusal::{batch, others, pick};
use crate::slid;

pub fn run(args: &GatherArgs, report: &mut Report) -> Outcome<()> {
    let mut inputs = vec![
        ("--operand", args.operand.as_path()),
        ("--starts", &args.starts),
    ];
    inputs.extend(args.job.iter().map(|job| ("--job", job.as_path())));
    output::is_apart(&args.out, &inputs)?;
    let output = Output::claim(&args.out, args.lock.patience())?;
    let stored = args.job.as_deref().map(stored_gather).transpose()?;
    let files = Files::open(args)?;
    let stored = stored.map_or_else(|| files.by_lists(args), Ok)?;
    let Job::Gather(job) = &stored.job else {
        return Err(stored.unusable("it is not a gather"));
    };
    files.fit(&stored, args.any_shape)?;
    match job.element {
        ElementType::I32 => gather::<i32>(args, files, &stored, job, output, report),
        ElementType::F64 => gather::<f64>(args, files, &stored, job, output, report),
    }
}

/// A stored gather that the library would run.
fn stored_gather(path: &Path) -> Outcome<Stored> {
    let stored = Stored::read(path)?;
    if let Job::Scatter(_) = stored.job {
        let answer = strided::gather_job::<i32>(&stored.bytes, &[], &[], &mut []);
        return Err(stored.of_other_kind(answer, "scatter"));
    }
    stored.can_run()?;
    Ok(stored)
}

/// The three files; a destination of zeros has none.
struct Files<'a> {
    operand: Lent<'a>,
    starts: Lent<'a>,
    dest: Option<Lent<'a>>,
}

impl<'a> Files<'a> {
    fn open(args: &'a GatherArgs) -> Outcome<Files<'a>> {
        Ok(Files {
            operand: Lent::open(&args.operand)?,
            starts: Lent::open(&args.starts)?,
            dest: args.dest.as_deref().map(Lent::open).transpose()?,
        })
    }

    /// Refuses files that are not the call's.
    fn fit(&self, stored: &Stored, any_shape: bool) -> Outcome<()> {
        let files = [Some(&self.operand), Some(&self.starts), self.dest.as_ref()];
        fit(stored, &files, any_shape)
    }

    /// The job of the axis lists, with extents and order from the files.
    fn by_lists(&self, args: &GatherArgs) -> Outcome<Stored> {
        let spec = args.lists.spec();
        let index = self.starts.layout()?;
        let dest = match &self.dest {
            Some(file) => file.layout()?,
            None => self.result(&spec, &index)?,
        };
        let job = Job::Gather(GatherJob {
            element: self.operand.element()?,
            operand: self.operand.layout()?,
            index,
            dest,
            spec,
        });
        Stored::of_call(job)
    }

    /// The layout of the result, in the operand's order.
    fn result(&self, spec: &GatherSpec, index: &ViewLayout) -> Outcome<ViewLayout> {
        let header = self.operand.header();
        let shape = result_shape(spec, header.shape.len(), &index.dims);
        layout_of(&shape, header.fortran_order).ok_or_else(|| {
            let shape = shape_in_words(&shape);
            Failure::Unusable(format!("the result, {shape}, has too many elements"))
        })
    }
}

/// The extents of a result: the window's on the axes that offset_dims names, and on the others, in order, the batch's. What the
/// lists name and there is not gets 1: the library refuses such lists.
fn result_shape(spec: &GatherSpec, rank: usize, index: &[usize]) -> Vec<usize> {
    let kept = others(rank, &spec.collapsed_slice_dims);
    let windows = pick(&spec.slice_sizes, &kept);
    let window = |axis: usize| {
        let mut named = spec.offset_dims.iter().zip(&windows);
        named.find_map(|(dim, extent)| (*dim == axis).then_some(*extent))
    };
    let mut batch = batch(index, spec.index_vector_dim).into_iter();
    let axes = spec.offset_dims.len().saturating_add(batch.len());
    (0..axes)
        .map(|axis| window(axis).or_else(|| batch.next()).unwrap_or(1))
        .collect()
}

fn gather<T: Element + Item>(
    args: &GatherArgs,
    files: Files<'_>,
    stored: &Stored,
    job: &GatherJob,
    output: Output,
    report: &mut Report,
) -> Outcome<()> {
    let operand = files.operand.load::<T>()?;
    let starts = files.starts.load::<i64>()?;
    let mut dest = match files.dest {
        Some(file) => file.load()?,
        None => fresh(stored, &job.dest)?,
    };
    let count = cells(&job.dest.dims).unwrap_or(0);
    let done = progress::timed(&format!("gathering {count} cells"), || {
        strided::gather_job(&stored.bytes, &operand.data, &starts.data, &mut dest.data)
    })
    .map_err(|error| {
        let dest_name = match &args.dest {
            Some(path) => path.display().to_string(),
            None => "the destination of zeros".to_owned(),
        };
        let lent = vec![
            (args.operand.display().to_string(), operand.data.len()),
            (args.starts.display().to_string(), starts.data.len()),
            (dest_name, dest.data.len()),
        ];
        stored.refused(error, lent)
    })?;
    let moved = slid::told(done, &stored.job, &starts.data, args.verbose)?;
    let name = args.out.display().to_string();
    output.write(|file| npy::write(&dest, &name, file))?;
    report.say(&format!(
        "gathered {count} cells ({}) into {name}",
        shape_in_words(&job.dest.dims)
    ));
    report.say_all(&moved);
    Ok(())
}
