//! `strided`: gather and scatter on .npy grids by stored jobs, and pictures of grids.

mod axis_lists;
mod cli;
mod commands;
mod failure;
mod job_text;
mod npy;
mod output;
mod picture;
mod progress;
mod refusal;
mod rule;
mod slid;
mod window;

use std::io::{self, Write};
use std::process::ExitCode;

use clap::Parser;

use cli::Cli;
use commands::Report;

fn main() -> ExitCode {
    let cli = match Cli::try_parse() {
        Ok(cli) => cli,
        Err(error) => {
            let _ = error.print();
            return ExitCode::from(if error.use_stderr() { 2 } else { 0 });
        }
    };
    let mut report = Report::new(cli.quiet);
    match commands::run(&cli.command, &mut report) {
        Ok(status) => status,
        Err(failure) => {
            // Where standard error is closed there is nobody to tell.
            let _ = writeln!(io::stderr(), "strided: {failure}");
            ExitCode::from(failure.status())
        }
    }
}
