//! The proved reader, the second reader and the yardstick on the same inputs.
//!
//! `bench check` compares their answers. `bench times` measures the first beside each of the others, turn by turn in one run: how long each takes, and how
//! many times as long.
//! `bench sets` writes the inputs whose instructions are counted, for count.rs.

#[path = "../examples/beechdoublet.rs"]
mod beechdoublet;
mod input;
mod inputs;
mod readers;

use std::time::{Duration, Instant};

use beechdoublet::MOST;
use input::Input;
use inputs::Table;
use readers::{Answer, Reader};

/// So many rounds at least, and for so long.
const ROUNDS: usize = 15;
const AT_LEAST: Duration = Duration::from_secs(2);

/// The time of one round of the proved reader and of another, in nanoseconds.
#[derive(Default)]
struct Times {
    proved: f64,
    other: f64,
}

impl Times {
    fn ratio(&self) -> f64 {
        self.proved / self.other
    }

    fn add(&mut self, times: &Times) {
        self.proved += times.proved;
        self.other += times.other;
    }
}

fn timed(reader: Reader, inputs: &[Input]) -> f64 {
    let mut out = [0; MOST];
    let start = Instant::now();
    reader.read_all(inputs, &mut out);
    start.elapsed().as_nanos() as f64
}

/// The round whose ratio is the median. In a round the two readers run right behind one another, at the same speed of the machine for the most part;
/// the least times of each, from different rounds, may be of different speeds where others use the machine too.
fn measured(inputs: &[Input], other: Reader) -> Times {
    let start = Instant::now();
    let mut rounds = Vec::new();
    while rounds.len() < ROUNDS || start.elapsed() < AT_LEAST {
        rounds.push(Times { proved: timed(Reader::Proved, inputs), other: timed(other, inputs) });
    }
    rounds.sort_by(|a, b| a.ratio().total_cmp(&b.ratio()));
    rounds.swap_remove(rounds.len() / 2)
}

/// What a row shows: how many inputs and bytes, and the times against the second reader and, of plans, against the yardstick.
#[derive(Default)]
struct Row {
    count: usize,
    bytes: usize,
    second: Times,
    yardstick: Option<Times>,
}

impl Row {
    fn of(inputs: &[Input]) -> Row {
        Row {
            count: inputs.len(),
            bytes: inputs.iter().map(Input::bytes).sum(),
            second: measured(inputs, Reader::Second),
            yardstick: inputs.iter().all(Input::is_plan).then(|| measured(inputs, Reader::Yardstick)),
        }
    }

    /// All rows as one, with the yardstick where each has it.
    fn all(rows: &[Row]) -> Row {
        let yardstick = rows.iter().all(|row| row.yardstick.is_some()).then(Times::default);
        let mut all = Row { yardstick, ..Row::default() };
        for row in rows {
            all.count += row.count;
            all.bytes += row.bytes;
            all.second.add(&row.second);
            all.yardstick.iter_mut().zip(&row.yardstick).for_each(|(sum, times)| sum.add(times));
        }
        all
    }

    /// Bytes, then for each reader nanoseconds a message and a byte, then the ratio; then the yardstick's nanoseconds, and the ratio to it.
    fn show(&self, name: &str) {
        let (count, bytes, times) = (self.count as f64, self.bytes as f64, &self.second);
        print!(
            "{name:<22} {:>6.0} {:>10.0} {:>8.1} {:>10.0} {:>8.1} {:>6.2}",
            bytes / count,
            times.proved / count,
            times.proved / bytes,
            times.other / count,
            times.other / bytes,
            times.ratio()
        );
        if let Some(times) = &self.yardstick {
            print!(" {:>13.0} {:>6.2}", times.other / count, times.ratio());
        }
        println!();
    }

    fn speed(&self, reader: &str, nanoseconds: f64) {
        let a_second = 1e9 / nanoseconds;
        println!(
            "{reader}: {:.0} messages a second, {:.0} bytes a second",
            self.count as f64 * a_second,
            self.bytes as f64 * a_second
        );
    }
}

/// Measures each set of a table; the last row of several is of all of them.
fn show_times(table: &Table) {
    println!(
        "\n{:<22} {:>6} {:>10} {:>8} {:>10} {:>8} {:>6} {:>13} {:>6}",
        table.name, "bytes", "proved ns", "a byte", "second ns", "a byte", "ratio", "yardstick ns", "ratio"
    );
    let mut rows = Vec::new();
    for set in &table.sets {
        let row = Row::of(&set.inputs);
        row.show(&set.name);
        rows.push(row);
    }
    let all = Row::all(&rows);
    if rows.len() > 1 {
        all.show("all");
    }
    all.speed("proved", all.second.proved);
    all.speed("second", all.second.other);
}

/// The yardstick does not work out the place of a 7.
fn without_place_of_7(answer: Answer) -> Answer {
    answer.map_err(|(number, field, place)| (number, field, if number == 7 { 0 } else { place }))
}

/// Whether the readers give the same answer; the yardsticks are asked for a plan alone.
fn agree(input: &Input) -> bool {
    let second = Reader::Second.answer(input);
    let yardsticks: &[Reader] = if input.is_plan() { &[Reader::Yardstick, Reader::ByComparisons] } else { &[] };
    let same = Reader::Proved.answer(input) == second
        && yardsticks.iter().all(|yardstick| yardstick.answer(input) == without_place_of_7(second.clone()));
    if !same {
        println!("the readers do not agree: {}", input.message.escape_ascii());
    }
    same
}

fn check() -> bool {
    let plans = inputs::plans();
    let tables = inputs::tables();
    let sets = tables.iter().flat_map(|table| &table.sets);
    let measured: Vec<&Input> = sets.flat_map(|set| &set.inputs).collect();
    let agreed = plans.iter().chain(measured.iter().copied()).all(agree);
    if agreed {
        let accepted = plans.iter().filter(|plan| Reader::Second.answer(plan).is_ok()).count();
        println!(
            "the readers agree on {} inputs, and on {} further plans, {accepted} of them accepted",
            measured.len(),
            plans.len()
        );
    }
    agreed
}

fn times() -> bool {
    inputs::tables().iter().for_each(show_times);
    true
}

/// The inputs to count, as Rust has them: each row with its table's name and its own.
fn write_sets() -> bool {
    println!("static ROWS: &[(&str, &str, &[Input])] = &[");
    for table in inputs::tables() {
        for set in &table.sets {
            println!("    ({:?}, {:?}, &[", table.name, set.name);
            for Input { strip, state, message } in set.counted() {
                let (strip, message) = (strip.escape_ascii(), message.escape_ascii());
                println!("        Input {{ strip: b\"{strip}\", state: {state:?}, message: b\"{message}\" }},");
            }
            println!("    ]),");
        }
    }
    println!("];");
    true
}

fn run() -> bool {
    match std::env::args().nth(1).as_deref() {
        Some("check") => check(),
        Some("times") => times(),
        Some("sets") => write_sets(),
        _ => false,
    }
}

fn main() -> std::process::ExitCode {
    if run() {
        std::process::ExitCode::SUCCESS
    } else {
        std::process::ExitCode::FAILURE
    }
}
