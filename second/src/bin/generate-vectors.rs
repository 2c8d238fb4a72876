//! `generate-vectors SEED COUNT`: lines for the vectors program, a mix of all questions.

use std::process::ExitCode;

use second::generate::questions::Questions;
use second::generate::write_lines;

fn main() -> ExitCode {
    let mut questions = Questions::default();
    write_lines("generate-vectors", |dice| questions.next(dice))
}
