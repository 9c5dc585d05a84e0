//! A progress line on long work.

use std::sync::mpsc::{self, Receiver, RecvTimeoutError};
use std::thread;
use std::time::{Duration, Instant};

use indicatif::{ProgressBar, ProgressStyle};

/// Work that ends sooner shows nothing.
const SHORT: Duration = Duration::from_millis(400);
/// From one turn of the line to the next, in work that does not tell how far it is.
const TURN: Duration = Duration::from_millis(100);

/// How far a piece of work is. The line appears on a terminal alone, once the work takes long, and goes at its end.
pub struct Progress {
    what: String,
    total: u64,
    done: u64,
    begun: Instant,
    line: Option<ProgressBar>,
}

impl Progress {
    /// Work of so many steps begins.
    pub fn new(what: &str, total: u64) -> Progress {
        Progress {
            what: what.to_owned(),
            total,
            done: 0,
            begun: Instant::now(),
            line: None,
        }
    }

    /// So many steps more are done.
    pub fn advance(&mut self, steps: u64) {
        self.done = self.done.saturating_add(steps);
        if self.line.is_none() && self.done < self.total && self.begun.elapsed() > SHORT {
            let bar = ProgressBar::new(self.total);
            self.line = Some(line(bar, "{bar:24} {percent:>3}% {eta}", &self.what));
        }
        if let Some(line) = &self.line {
            line.set_position(self.done);
        }
    }
}

impl Drop for Progress {
    fn drop(&mut self) {
        if let Some(line) = &self.line {
            line.finish_and_clear();
        }
    }
}

/// Does work that does not tell how far it is. Its line has the time that it has taken so far.
pub fn timed<T>(what: &str, work: impl FnOnce() -> T) -> T {
    let line = line(ProgressBar::new_spinner(), "{spinner} {elapsed}", what);
    if line.is_hidden() {
        return work();
    }
    thread::scope(|scope| {
        let (end, ended) = mpsc::channel();
        // Where there is no thread to be had, the work is done without a line.
        let _ = thread::Builder::new().spawn_scoped(scope, move || turn(&line, &ended));
        let answer = work();
        drop(end);
        answer
    })
}

/// Lets the line turn until the other end is dropped.
fn turn(line: &ProgressBar, ended: &Receiver<()>) {
    let mut wait = SHORT;
    while ended.recv_timeout(wait) == Err(RecvTimeoutError::Timeout) {
        line.tick();
        wait = TURN;
    }
    line.finish_and_clear();
}

/// A line, not yet drawn, that says what is done and how far it is. Long words are cut: a line that goes on in the terminal's
/// next row could not be taken away.
fn line(bar: ProgressBar, how_far: &str, what: &str) -> ProgressBar {
    if let Ok(style) = ProgressStyle::with_template(&format!("{{wide_msg}} {how_far}")) {
        bar.set_style(style);
    }
    bar.with_message(what.to_owned())
}
