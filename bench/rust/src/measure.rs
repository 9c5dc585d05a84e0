//! One row: the ways compared, then timed in turn.

use crate::element::Element;
use crate::job::{Job, Layout};
use crate::original::Kind;
use crate::plain;
use std::hint::black_box;
use std::time::Instant;
use strided::Rule;

#[derive(Clone, Copy, PartialEq)]
enum Way {
    Library,
    CompileAndExecute,
    Execute,
    Memcpy,
    PlainLoop,
    Touch,
}

const WAYS: [Way; 5] = [
    Way::Library,
    Way::CompileAndExecute,
    Way::Execute,
    Way::Memcpy,
    Way::PlainLoop,
];

/// The ways beside which the memory's own time is taken.
const BESIDE: [Way; 3] = [Way::Library, Way::CompileAndExecute, Way::Touch];

/// What the ways work with besides the destination.
struct Bench<'a, T, K: Kind> {
    job: &'a Job,
    spec: K::Spec,
    plan: K::Plan,
    library: K::Library,
    source: Vec<T>,
    /// The destination before the first call.
    fresh: Vec<T>,
    /// As many elements as the job has cells, or its operand where it has one,
    /// and where memcpy puts them.
    copied: Vec<T>,
    copy: Vec<T>,
    bases: Vec<isize>,
}

impl<T: Element, K: Kind> Bench<'_, T, K> {
    fn make(&mut self, way: Way, dest: &mut [T]) {
        let job = black_box(self.job);
        match way {
            Way::Library => {
                K::library(black_box(&self.library), job, &self.source, dest);
            }
            Way::CompileAndExecute => {
                let plan = K::compile(job, self.spec.clone());
                K::execute(&plan, job, &self.source, dest);
            }
            Way::Execute => K::execute(black_box(&self.plan), job, &self.source, dest),
            Way::Memcpy => black_box(&mut self.copy[..]).copy_from_slice(black_box(&self.copied)),
            Way::PlainLoop => self.plain_loop(dest),
            Way::Touch => {
                let (from, to) = (self.source.as_ptr(), dest.as_mut_ptr());
                // SAFETY: as for the plain loop.
                unsafe {
                    if K::ADD {
                        plain::touch::<T, true>(job, from, to);
                    } else {
                        plain::touch::<T, false>(job, from, to);
                    }
                }
            }
        }
    }

    fn plain_loop(&mut self, dest: &mut [T]) {
        let job = black_box(self.job);
        let (from, to) = (self.source.as_ptr(), dest.as_mut_ptr());
        // SAFETY: both slices were made with room for their layouts, the
        // operand's behind the updates, and every start is clamped.
        unsafe {
            if let Some(operand) = &job.operand {
                plain::copy(operand, &job.grid, from.add(job.windows.room()), to);
            }
            if K::ADD {
                plain::run::<T, true>(job, from, to, &mut self.bases);
            } else {
                plain::run::<T, false>(job, from, to, &mut self.bases);
            }
        }
    }

    /// Makes each way once on a slice of its own: they leave the same.
    fn compare(&mut self, name: &str) {
        let mut left: Option<Vec<T>> = None;
        for way in WAYS.into_iter().filter(|&way| way != Way::Memcpy) {
            let mut dest = self.fresh.clone();
            self.make(way, &mut dest);
            let first = left.get_or_insert_with(|| dest.clone());
            assert!(*first == dest, "{name}: the ways leave different slices");
        }
    }

    /// The median time of each way, made in turn on one slice, so that where
    /// it lies in memory favours none. The ways are a prime number: each comes
    /// after each other as often. Sums go on from round to round; under
    /// another rule the slice is made fresh before each, since otherwise no
    /// update would change it any more.
    fn time<const N: usize>(&mut self, ways: [Way; N], dest: &mut [T], rounds: usize) -> [f64; N] {
        let times = (100_000 / self.job.all_cells()).clamp(1, 1000);
        let mut taken = [(); N].map(|()| Vec::new());
        for round in 0..rounds {
            let step = 1 + round % (N - 1);
            for turn in 0..N {
                let which = (round + turn * step) % N;
                if T::RULE != Rule::Add {
                    dest.copy_from_slice(&self.fresh);
                }
                let start = Instant::now();
                for _ in 0..times {
                    self.make(ways[which], dest);
                }
                taken[which].push(start.elapsed().as_secs_f64());
            }
        }
        taken.map(median)
    }
}

fn median(mut times: Vec<f64>) -> f64 {
    times.sort_by(f64::total_cmp);
    times[times.len() / 2]
}

fn elements<T: Element>(count: usize) -> Vec<T> {
    (0..count).map(T::of).collect()
}

/// What updates are added to is all alike; a rule that compares finds all
/// values.
fn fresh<T: Element>(count: usize) -> Vec<T> {
    match T::RULE {
        Rule::Add => vec![T::of(7); count],
        _ => (count..2 * count).map(T::of).collect(),
    }
}

pub fn measure<T: Element, K: Kind>(name: &str, job: &Job, rounds: usize) {
    let to = match K::ADD {
        true => &job.grid,
        false => &job.windows,
    };
    let cells = job.cells();
    let copied = job.operand.as_ref().map_or(cells, Layout::room);
    let mut bench = Bench::<T, K> {
        job,
        spec: K::spec(job),
        plan: K::compile(job, K::spec(job)),
        library: K::prepare(job),
        source: elements(K::room(job)),
        fresh: fresh(to.room()),
        copied: elements(copied),
        copy: elements(copied),
        bases: vec![0; job.batch],
    };
    bench.compare(name);
    let mut dest = bench.fresh.clone();
    let [library, others @ ..] = bench.time(WAYS, &mut dest, rounds);
    let [compiled, executed, copied, looped] = others.map(|other| library / other);
    let memory = if plain::is_touched(job) {
        let [_, rust, touched] = bench.time(BESIDE, &mut dest, rounds);
        format!("{:.1}", rust / touched)
    } else {
        "–".to_string()
    };
    println!(
        "| {name} | {} | {cells} | {compiled:.3} | {executed:.3} | {copied:.2} | {looped:.2} | {memory} |",
        T::NAME
    );
}
