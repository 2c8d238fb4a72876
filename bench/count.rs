//! One reader on the inputs of one row, which are constants here, so that little else takes instructions.
//!
//! `count` lists the rows: table, name, how many inputs, their bytes, and the readers. `count ROW READER TIMES` answers the row's inputs so many times;
//! before that one input, the same for all rows, so that what is done once only is done at 0 times too.

#[path = "../examples/beechdoublet.rs"]
mod beechdoublet;
mod input;
mod readers;

use beechdoublet::MOST;
use input::Input;
use readers::Reader;
use second::State::*;

include!(env!("SETS"));

fn list() {
    for (table, name, inputs) in ROWS {
        let bytes: usize = inputs.iter().map(Input::bytes).sum();
        let readers =
            if inputs.iter().all(Input::is_plan) { "proved second yardstick comparisons" } else { "proved second" };
        println!("{table}|{name}|{}|{bytes}|{readers}", inputs.len());
    }
}

fn run(words: &[String]) -> Option<()> {
    let [row, reader, times] = words else { return None };
    let (_, _, inputs) = ROWS.get(row.parse::<usize>().ok()?)?;
    let (reader, mut out) = (Reader::named(reader)?, [0; MOST]);
    reader.read_all(&ROWS[0].2[..1], &mut out);
    for _ in 0..times.parse().ok()? {
        reader.read_all(inputs, &mut out);
    }
    Some(())
}

fn main() -> std::process::ExitCode {
    std::process::ExitCode::from(started())
}

fn started() -> u8 {
    let words: Vec<String> = std::env::args().skip(1).collect();
    if words.is_empty() {
        list();
        return 0;
    }
    u8::from(run(&words).is_none())
}
