//! The commands.

mod base;
mod compare;
mod fresh;
mod gather;
mod job;
mod lent;
mod packed;
mod print;
mod scatter;
mod show;
mod stored;

use std::io::{self, ErrorKind, Write};
use std::path::Path;
use std::process::ExitCode;

use crate::cli::Command;
use crate::failure::{Failure, Outcome};

/// Where a command tells what it has done.
pub struct Report {
    quiet: bool,
}

impl Report {
    /// A report that says nothing where it is quiet.
    pub fn new(quiet: bool) -> Report {
        Report { quiet }
    }

    /// A line for the user, on standard error.
    pub fn say(&mut self, line: &str) {
        if !self.quiet {
            let _ = writeln!(io::stderr(), "strided: {line}");
        }
    }

    /// Lines for the user, one after the other.
    pub fn say_all(&mut self, lines: &[String]) {
        for line in lines {
            self.say(line);
        }
    }
}

/// Does what the command line asks for. The exit status may tell what was found.
pub fn run(command: &Command, report: &mut Report) -> Outcome<ExitCode> {
    // Clap does not see the one before the command and the other behind it.
    if report.quiet && command.is_verbose() {
        let why = "--verbose lists windows, and --quiet says nothing; give one of them";
        return Err(Failure::Unusable(why.to_owned()));
    }
    let done = match command {
        Command::Job(command) => job::run(command, report),
        Command::Gather(args) => gather::run(args, report),
        Command::Scatter(args) => scatter::run(args, report),
        Command::Show(args) => show::run(args, report),
        Command::Compare(args) => return compare::run(args),
        Command::Print(args) => print::run(args),
    };
    done.map(|()| ExitCode::SUCCESS)
}

/// Prints to standard output. A reader that has gone wants no more, and that is no failure.
fn print_out(text: &str) -> Outcome<()> {
    let mut out = io::stdout().lock();
    match out.write_all(text.as_bytes()).and_then(|()| out.flush()) {
        Err(error) if error.kind() != ErrorKind::BrokenPipe => Err(Failure::of_io(
            Path::new("standard output"),
            "write it",
            &error,
        )),
        _ => Ok(()),
    }
}
