//! Compares answers: `compare CASES NAME=FILE NAME=FILE`, the answers of two
//! sides by name. The model answers here. Prints counts; the exit status is 1
//! where answers differ. The side of the name `oracle` is the Rust, which has
//! no number of windows that slid and no stored jobs: a number in its answers
//! is a difference. Every other side must have the model's.

use cases::answers::{load, of_oracle, outside, same, Answered};
use lines::{Answer, Call, Case, Number, Spec};
use model::{order, windows, Check, Kind, Model};
use std::collections::BTreeMap;
use std::path::Path;
use std::process::ExitCode;

const ORACLE: &str = "oracle";
const MOST_SHOWN: usize = 10;

#[derive(Default)]
struct Counts {
    /// The names of the two sides.
    names: [String; 2],
    cases: usize,
    numbers: BTreeMap<u64, usize>,
    /// By kind, and by the check's place in its order.
    checks: BTreeMap<(Kind, usize), (String, usize)>,
    outside: BTreeMap<&'static str, usize>,
    /// Scatters that were done, by element and rule, and those among them
    /// with an operand.
    rules: BTreeMap<(String, &'static str), (usize, usize)>,
    /// Calls that were done, by kind and by how many of their windows slid.
    slid: BTreeMap<(&'static str, &'static str), usize>,
    /// What the second side answered, by number.
    second_numbers: BTreeMap<u64, usize>,
    different: usize,
}

fn main() -> ExitCode {
    let arguments: Vec<String> = std::env::args().skip(1).collect();
    let Some((cases, [first, second])) = sides(&arguments) else {
        eprintln!("usage: compare CASES NAME=FILE NAME=FILE");
        return ExitCode::from(2);
    };
    let cases = match load(Path::new(cases), &[first.1, second.1].map(Path::new)) {
        Ok(cases) => cases,
        Err(error) => {
            eprintln!("{error}");
            return ExitCode::from(1);
        }
    };
    let mut counts = Counts {
        names: [first.0, second.0].map(str::to_string),
        ..Counts::default()
    };
    for answered in &cases {
        counts.take(answered);
    }
    counts.print();
    ExitCode::from(u8::from(counts.different > 0))
}

/// The file of cases, and the sides by name and file.
fn sides(arguments: &[String]) -> Option<(&str, [(&str, &str); 2])> {
    let [cases, first, second] = arguments else {
        return None;
    };
    Some((cases, [first.split_once('=')?, second.split_once('=')?]))
}

impl Counts {
    fn take(&mut self, answered: &Answered) {
        self.cases += 1;
        if let Some(number) = number_of(&answered.given[1]) {
            *self.second_numbers.entry(number).or_default() += 1;
        }
        match &answered.case {
            Some(Case::Call(call)) => self.take_call(answered, call),
            Some(case) => self.take_stored_job(answered, case),
            None => {
                self.count_outside("not in the format");
                for side in [0, 1] {
                    self.hold(answered, side, &Answer::Malformed);
                }
            }
        }
    }

    fn take_stored_job(&mut self, answered: &Answered, case: &Case) {
        self.count_outside("the Rust has no stored job");
        let expected = Model::default().answer(case);
        self.count_number(&expected);
        for side in [0, 1] {
            match self.is_oracle(side) {
                true => self.hold(answered, side, &Answer::None),
                false => self.hold(answered, side, &expected),
            }
        }
    }

    fn is_oracle(&self, side: usize) -> bool {
        self.names[side] == ORACLE
    }

    /// A side's line must be this answer, as it is printed.
    fn hold(&mut self, answered: &Answered, side: usize, expected: &Answer) {
        let agrees = answered.given[side] == expected.to_string();
        self.note(answered, side, agrees, expected);
    }

    fn take_call(&mut self, answered: &Answered, call: &Call) {
        let verdict = Model::default().judge(call);
        self.count_number(&verdict.answer);
        if let Some(check) = verdict.refused_by {
            self.count_check(Kind::of(call), check);
        }
        if let Some(reason) = outside(&verdict, call) {
            self.count_outside(reason);
        }
        if let Answer::Called(Number::DONE, _, Some(slid)) = verdict.answer {
            self.count_rule(call);
            self.count_slid(call, slid);
        }
        for side in [0, 1] {
            let expected = match self.is_oracle(side) {
                true => of_oracle(verdict.answer.clone()),
                false => verdict.answer.clone(),
            };
            let given = answered.answer(side);
            let agrees = given.is_some_and(|given| same(&given, &expected, &verdict.added));
            self.note(answered, side, agrees, &expected);
        }
    }

    fn count_number(&mut self, answer: &Answer) {
        if let Answer::Called(number, ..) | Answer::Read(number, _) | Answer::Written(number, _) =
            answer
        {
            *self.numbers.entry(number.n).or_default() += 1;
        }
    }

    fn count_check(&mut self, kind: Kind, check: Check) {
        let place = order(kind).iter().position(|&c| c == check).unwrap_or(0);
        let entry = self.checks.entry((kind, place));
        entry.or_insert_with(|| (check.name(kind), 0)).1 += 1;
    }

    fn count_outside(&mut self, reason: &'static str) {
        *self.outside.entry(reason).or_default() += 1;
    }

    fn count_rule(&mut self, call: &Call) {
        if matches!(call.job.spec, Spec::Scatter(_)) {
            let key = (call.job.element.to_string(), call.rule.name());
            let (all, charts) = self.rules.entry(key).or_default();
            *all += 1;
            *charts += usize::from(call.operand.is_some());
        }
    }

    fn count_slid(&mut self, call: &Call, slid: u64) {
        let (kind, written) = match call.job.spec {
            Spec::Gather(_) => ("gather", call.job.dest()),
            Spec::Scatter(_) => ("scatter", call.job.source()),
        };
        let which = match slid {
            0 if written.layout.extents.contains(&0) => "no cells",
            0 => "none",
            n if u128::from(n) == windows(call) => "all",
            _ => "some",
        };
        *self.slid.entry((kind, which)).or_default() += 1;
    }

    /// Shows a difference between a side and what is due of it.
    fn note(&mut self, answered: &Answered, side: usize, agrees: bool, expected: &Answer) {
        if agrees {
            return;
        }
        self.different += 1;
        if self.different > MOST_SHOWN {
            return;
        }
        let name = &self.names[side];
        println!("difference: {} {}", answered.id, answered.text);
        println!("  {name}: {}", answered.given[side]);
        println!("  model: {expected}");
    }

    fn print(&self) {
        println!("cases: {}", self.cases);
        println!("by answer:");
        for (number, count) in &self.numbers {
            println!("  {number}: {count}");
        }
        println!("by the check that refused:");
        for ((kind, _), (name, count)) in &self.checks {
            println!("  {} {name}: {count}", kind.name());
        }
        println!("outside the domain of comparison:");
        for (reason, count) in &self.outside {
            println!("  {reason}: {count}");
        }
        println!("scatters done, by rule:");
        for ((element, rule), (all, charts)) in &self.rules {
            println!("  {element} {rule}: {all}, on a chart: {charts}");
        }
        println!("calls done, by how many of their windows slid:");
        for ((kind, which), count) in &self.slid {
            println!("  {kind} {which}: {count}");
        }
        println!("answered by {}:", self.names[1]);
        for (number, count) in &self.second_numbers {
            println!("  {number}: {count}");
        }
        println!("differences: {}", self.different);
    }
}

/// The N of `answer N a b ..`.
fn number_of(given: &str) -> Option<u64> {
    given
        .strip_prefix("answer ")?
        .split(' ')
        .next()?
        .parse()
        .ok()
}
