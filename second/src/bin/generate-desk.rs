//! `generate-desk SEED COUNT`: a plan for the desk and a run of messages, mostly for its flight.

use std::process::ExitCode;

use second::generate::{write_lines, DeskRun};

fn main() -> ExitCode {
    let mut run = DeskRun::new();
    write_lines("generate-desk", |dice| run.next(dice))
}
