//! The loop that every driver runs.

use crate::{parse_case, Answer, Case};
use std::io::{self, BufRead, BufWriter, Write};
use std::panic::{catch_unwind, AssertUnwindSafe};

/// Answers the cases on standard input, one line each, in order. A line that
/// is not in the format is answered too, and so is one that makes `answer`
/// panic: the loop never stops early.
pub fn drive(answer: impl Fn(&Case) -> Answer) -> io::Result<()> {
    std::panic::set_hook(Box::new(|_| {}));
    let mut input = io::stdin().lock();
    let mut output = BufWriter::new(io::stdout().lock());
    let mut line = Vec::new();
    loop {
        line.clear();
        if input.read_until(b'\n', &mut line)? == 0 {
            return output.flush();
        }
        let text = String::from_utf8_lossy(&line);
        let text = text.trim_end_matches(['\n', '\r']);
        if text.is_empty() || text.starts_with('#') {
            continue;
        }
        let (id, rest) = text.split_once(' ').unwrap_or((text, ""));
        let given = match parse_case(rest) {
            Some(case) => catch_unwind(AssertUnwindSafe(|| answer(&case))).unwrap_or(Answer::Panic),
            None => Answer::Malformed,
        };
        writeln!(output, "{id} {given}")?;
    }
}
