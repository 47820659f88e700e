//! The testers' command-line tool of the proved picture smoother. Results come from the proved library, and what they are
//! judged by from the independent program in `reference/`; the tool reads, writes and compares.

mod archive;
mod command_line;
mod compare;
mod completions;
mod convert;
mod difference;
mod error;
mod even;
mod exact;
mod files;
mod horizon;
mod interrupt;
mod job_text;
mod judge;
mod kernel;
mod ledger;
mod lines;
mod list;
mod manual;
mod mixture;
mod model;
mod noise;
mod numbers;
mod pgm;
mod pictures;
mod png_file;
mod practice;
mod progress;
mod replay;
mod rules;
mod services;
mod shape;
mod show;
mod shrink;
mod sides;
mod smooth;
mod soak;
mod stats;
mod steps;
mod watch;

use std::process::ExitCode;

fn main() -> ExitCode {
    interrupt::notice();
    let outcome = command_line::read(std::env::args_os()).and_then(|command| command.run());
    match outcome {
        Ok(outcome) => ExitCode::from(outcome.status()),
        Err(failure) => {
            error::say(&failure.to_string());
            ExitCode::from(error::TROUBLE)
        }
    }
}
