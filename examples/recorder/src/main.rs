//! Reads a script from its standard input, plays it on `embassy-sync`, and writes the recorded run to its standard output.
//!
//!     recorder < SCRIPT > RUN

use std::io::{stdin, stdout};
use std::panic;
use std::process::ExitCode;

fn main() -> ExitCode {
    // A panic of upstream is an answer of the run.
    panic::set_hook(Box::new(|_| ()));
    match recorder::record(stdin().lock(), stdout().lock()) {
        Ok(()) => ExitCode::SUCCESS,
        Err(fault) => {
            eprintln!("{fault}");
            ExitCode::from(fault.status())
        }
    }
}
