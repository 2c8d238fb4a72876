//! `generate-handlers SEED COUNT`: calls for the program of two handlers.

use std::process::ExitCode;

use second::generate::boards::{handlers_line, BoardRun};
use second::generate::{write_lines, Dice};
use second::Board;

fn main() -> ExitCode {
    let mut run = None;
    write_lines("generate-handlers", |dice: &mut Dice| {
        let run = run.get_or_insert_with(|| BoardRun::on(Board::default(), dice));
        handlers_line(dice, run)
    })
}
