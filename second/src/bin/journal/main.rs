//! `journal DIRECTORY COMMAND..`: stops the program of two handlers at every point of a run, and holds its journal and its board to the second reader's.
//!
//! The words are the command that starts the program, without the journal's name; the directory is an empty one to keep journals in. `./run` is called
//! where a status is asked for. The first fault ends it, with a status that is not 0.

mod due;
mod places;
mod program;
mod stops;
mod writes;

use std::path::PathBuf;

use program::Program;

fn main() {
    let mut words = std::env::args().skip(1);
    let directory = PathBuf::from(words.next().expect("journal DIRECTORY COMMAND.."));
    let program = Program::new(words.collect());
    stops::after_each_answer(&program, &directory);
    stops::at_each_byte(&program, &directory);
    stops::at_any_moment(&program, &directory);
    writes::past_a_limit(&program, &directory);
    writes::stopped_at_a_limit(&program, &directory);
    writes::where_nothing_is_kept(&program);
    places::that_are_no_journal(&directory);
    places::that_do_not_replay(&directory);
}
