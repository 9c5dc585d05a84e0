//! Comparing answers.

use lines::{parse_answer, parse_case, Answer, Call, Case, Data, Element};
use model::{Check, Model, Verdict};
use std::path::Path;
use std::{fs, io};

/// A case with the lines that drivers answered it by.
pub struct Answered {
    pub id: String,
    pub text: String,
    pub case: Option<Case>,
    /// What follows the ID in each driver's line.
    pub given: Vec<String>,
}

impl Answered {
    pub fn call(&self) -> Option<&Call> {
        match &self.case {
            Some(Case::Call(call)) => Some(call),
            _ => None,
        }
    }

    /// The driver's answer, read as one to this case.
    pub fn answer(&self, driver: usize) -> Option<Answer> {
        let element = self.call().map_or(Element::I32, |call| call.job.element);
        parse_answer(&self.given[driver], element)
    }
}

/// The cases of a file with the answers of other files, line by line. It is
/// an error if a driver left out a case or changed the order.
pub fn load(cases: &Path, answers: &[&Path]) -> io::Result<Vec<Answered>> {
    let text = fs::read_to_string(cases)?;
    let mut all: Vec<Answered> = text.lines().filter_map(case_line).collect();
    for path in answers {
        let text = fs::read_to_string(path)?;
        let lines: Vec<&str> = text.lines().collect();
        let complete = lines.len() == all.len();
        for (answered, line) in all.iter_mut().zip(lines) {
            let (id, given) = line.split_once(' ').unwrap_or((line, ""));
            if id != answered.id {
                return Err(bad(
                    path,
                    &format!("{id} stands where {} is due", answered.id),
                ));
            }
            answered.given.push(given.to_string());
        }
        if !complete {
            return Err(bad(path, "there is not one answer for each case"));
        }
    }
    Ok(all)
}

fn bad(path: &Path, what: &str) -> io::Error {
    io::Error::other(format!("{}: {what}", path.display()))
}

fn case_line(line: &str) -> Option<Answered> {
    if line.is_empty() || line.starts_with('#') {
        return None;
    }
    let (id, text) = line.split_once(' ').unwrap_or((line, ""));
    Some(Answered {
        id: id.to_string(),
        text: text.to_string(),
        case: parse_case(text),
        given: Vec::new(),
    })
}

/// Equal, but that a NaN which an add gave matches any NaN.
pub fn same(given: &Answer, expected: &Answer, added: &[bool]) -> bool {
    if given == expected {
        return true;
    }
    let (
        Answer::Called(n, Data::F64(given), given_slid),
        Answer::Called(m, Data::F64(expected), expected_slid),
    ) = (given, expected)
    else {
        return false;
    };
    let nan = |bits: u64| f64::from_bits(bits).is_nan();
    let mut cells = given.iter().zip(expected).zip(added);
    n == m
        && given_slid == expected_slid
        && given.len() == expected.len()
        && cells.all(|((&g, &e), &added)| g == e || (added && nan(g) && nan(e)))
}

/// The answer with another number of windows that slid, or without one.
fn with_slid(answer: Answer, slid: Option<u64>) -> Answer {
    match answer {
        Answer::Called(number, dest, _) => Answer::Called(number, dest, slid),
        other => other,
    }
}

/// What the oracle has of an answer: it does not count windows that slid.
pub fn of_oracle(answer: Answer) -> Answer {
    with_slid(answer, None)
}

/// The oracle's answer to a call, with the model's number of windows that
/// slid, and the elements that an add gave. None where a driver that is no
/// oracle stands in its place: the line has a number of its own.
pub fn completed(answered: &Answered, oracle: usize) -> Option<(Answer, Vec<bool>)> {
    let answer = answered.answer(oracle)?;
    let verdict = Model::default().judge(answered.call()?);
    match (&answer, verdict.answer) {
        (Answer::Called(_, _, None), Answer::Called(_, _, slid)) => {
            Some((with_slid(answer, slid), verdict.added))
        }
        _ => None,
    }
}

/// Why a call lies outside the domain of comparison, where it does: the
/// Rust's part in the answer is none, or less than the whole.
pub fn outside(verdict: &Verdict, call: &Call) -> Option<&'static str> {
    let scatter = matches!(call.job.spec, lines::Spec::Scatter(_));
    match verdict.refused_by {
        Some(Check::Ranks) => Some("2 is added"),
        Some(Check::Span(2)) if scatter => Some("the scatter's destination span is added"),
        Some(Check::OperandSpan) => Some("the span of a scatter's operand is added"),
        Some(Check::OperandBounds | Check::Bounds(_)) => Some("9 is added"),
        _ if verdict.answer == Answer::TooMany => Some("more updates than a run can do"),
        _ => None,
    }
}

/// The first case that tells this model from the oracle's completed answers.
pub fn first_seen<'a>(
    model: &Model,
    cases: impl IntoIterator<Item = &'a (&'a Answered, Answer, Vec<bool>)>,
) -> Option<&'a Answered> {
    let seen = |(answered, expected, added): &&(&Answered, Answer, Vec<bool>)| {
        let Some(call) = answered.call().filter(|call| model.may_differ(call)) else {
            return false;
        };
        let judged = std::panic::catch_unwind(|| model.judge(call).answer);
        judged.map_or(true, |given| !same(&given, expected, added))
    };
    cases
        .into_iter()
        .find(seen)
        .map(|(answered, _, _)| *answered)
}

/// The calls that can tell mutants from the first driver, the oracle, with its
/// answers completed and the elements that an add gave.
pub fn telling(cases: &[Answered]) -> Vec<(&Answered, Answer, Vec<bool>)> {
    let one = |answered| completed(answered, 0).map(|(e, added)| (answered, e, added));
    cases.iter().filter_map(one).collect()
}
