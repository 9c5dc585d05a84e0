//! Prints cases: `generate COUNT SEED`, `generate add COUNT SEED`, `generate charts COUNT SEED`,
//! `generate small [long]`, `generate large COUNT SEED`, `generate jobs COUNT SEED`, or
//! `generate jobs small`.

use cases::jobs::{self, Jobs};
use cases::large::Large;
use cases::small::{self, Size};
use cases::{Generator, Ruled, WithOperands};
use lines::{Call, Spec};
use std::fmt::Display;
use std::io::{self, BufWriter, Write};

/// So many scatters in a hundred have a chart, where not all have one.
const CHARTS: u64 = 40;

fn main() -> io::Result<()> {
    let arguments: Vec<String> = std::env::args().skip(1).collect();
    let words: Vec<&str> = arguments.iter().map(String::as_str).collect();
    let mut output = BufWriter::new(io::stdout().lock());
    match words[..] {
        ["small"] => print_small(Size::Short, &mut output)?,
        ["small", "long"] => print_small(Size::Long, &mut output)?,
        ["jobs", "small"] => print("js", jobs::small(), &mut output)?,
        [count, seed] => {
            let calls = varied(Generator::new(number(seed)), number(seed), CHARTS);
            let calls = calls.take(number(count) as usize);
            print(&format!("r{seed}."), calls, &mut output)?;
        }
        ["charts", count, seed] => {
            let scatter = |call: &Call| matches!(call.job.spec, Spec::Scatter(_));
            let scatters = Generator::new(number(seed)).filter(scatter);
            let calls = varied(scatters, number(seed), 100).take(number(count) as usize);
            print(&format!("c{seed}."), calls, &mut output)?;
        }
        ["add", count, seed] => {
            let calls = Generator::new(number(seed)).take(number(count) as usize);
            print(&format!("r{seed}."), calls, &mut output)?;
        }
        ["large", count, seed] => {
            let calls = varied(Large::new(number(seed)), number(seed), CHARTS);
            let calls = calls.take(number(count) as usize);
            print(&format!("l{seed}."), calls, &mut output)?;
        }
        ["jobs", count, seed] => {
            let jobs = Jobs::new(number(seed)).take(number(count) as usize);
            print(&format!("j{seed}."), jobs, &mut output)?;
        }
        _ => usage(),
    }
    output.flush()
}

/// The calls with charts in so many scatters of a hundred, and with rules.
fn varied(calls: impl Iterator<Item = Call>, seed: u64, charts: u64) -> impl Iterator<Item = Call> {
    Ruled::new(WithOperands::new(calls, seed, charts), seed)
}

fn number(text: &str) -> u64 {
    text.parse().unwrap_or_else(|_| usage())
}

fn usage() -> ! {
    eprintln!(
        "usage: generate [add | charts | large | jobs] COUNT SEED | small [long] | jobs small"
    );
    std::process::exit(2);
}

fn print<T: Display>(
    prefix: &str,
    cases: impl Iterator<Item = T>,
    output: &mut impl Write,
) -> io::Result<()> {
    for (n, case) in cases.enumerate() {
        writeln!(output, "{prefix}{n} {case}")?;
    }
    Ok(())
}

fn print_small(size: Size, output: &mut impl Write) -> io::Result<()> {
    let mut n = 0;
    let mut result = Ok(());
    small::all(size, &mut |call| {
        if result.is_ok() {
            result = writeln!(output, "x{n} {call}");
            n += 1;
        }
    });
    result
}
