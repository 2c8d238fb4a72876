//! Writes the corpus of questions to standard output; not if the second reader answers one of the lists otherwise.

use std::io::{self, Write};
use std::process::ExitCode;

use second::corpus::{answered_otherwise, corpus};

fn main() -> ExitCode {
    let otherwise = answered_otherwise();
    for (listed, answer) in &otherwise {
        eprintln!("{}\n  due      {}\n  answered {answer}", listed.question, listed.answer);
    }
    let written = io::stdout().write_all(&corpus());
    if otherwise.is_empty() && written.is_ok() {
        ExitCode::SUCCESS
    } else {
        ExitCode::FAILURE
    }
}
