//! A journal that cannot be written: nothing is shown as done that is not in it.

use std::fs;
use std::path::Path;

use crate::due::{after, filing, is_kept, journal_and_answers, same, shown, text, whole};
use crate::program::Program;
use crate::stops::TORN;

/// The bytes that a limited program may write into a file.
const LIMIT: usize = 1024;

/// Calls that go past the limit, and behind the first of these some that still have room.
fn calls() -> Vec<Vec<u8>> {
    let mut calls: Vec<Vec<u8>> = (1..=5).map(|n| filing(1, &format!("A{n}"), 120)).collect();
    calls.extend([&b"1 UPDATE 0 (CNL-A1-EHAM0000-EDDF-0)"[..], b"1 CLEAR 1"].map(<[u8]>::to_vec));
    calls.extend([
        filing(2, "B1", 120),
        b"2 LIST".to_vec(),
        b"1 CLEAR 0".to_vec(),
        b"1 LIST".to_vec(),
        filing(2, "B2", 60),
        b"2 LOOK 0".to_vec(),
    ]);
    calls
}

/// A write past the limit fails with some of its line written: that call is not kept, and what has room behind it is.
pub fn past_a_limit(program: &Program, directory: &Path) {
    let path = directory.join("limited");
    let (limited, mut journal, mut not_kept) = (program.limited(true), Vec::new(), 0);
    let mut running = limited.start(&path);
    for line in &calls() {
        let mut due = after(&journal).answer(line);
        if is_kept(line, &due) {
            let longer = [&journal, &line[..], b"\n"].concat();
            match longer.len() <= LIMIT {
                true => journal = longer,
                false => (due, not_kept) = (b"NOT KEPT".to_vec(), not_kept + 1),
            }
        }
        same(&format!("answer to {} under a limit", text(line)), &running.ask(line), &due);
        same("journal under a limit", &fs::read(&path).expect("a journal"), &journal);
    }
    same("on standard error", &running.kill(), b"");
    let (input, due) = shown(&mut after(&journal));
    same("board without the limit", &program.run(&path, &input).out, &due);
    assert!(not_kept == 2 && journal.ends_with(b"1 CLEAR 0\n"), "{not_kept} calls were not kept: {}", text(&journal));
    println!("journal: {not_kept} calls past a limit of {LIMIT} bytes were not kept");
}

/// Where the system ends the program at such a write, some of the line stands in the file, and was not answered.
pub fn stopped_at_a_limit(program: &Program, directory: &Path) {
    let path = directory.join("stopped");
    let calls = calls();
    let (journal, answers) = journal_and_answers(&calls);
    let wrote = program.limited(false).run(&path, &crate::due::joined(&calls));
    let found = fs::read(&path).expect("a journal");
    same("journal up to the limit", &found, &journal[..LIMIT]);
    assert!(!wrote.succeeded && answers.starts_with(&wrote.out), "not ended at the limit: {}", text(&wrote.out));
    let last = b"NO 13 0 0 FILED\n";
    assert!(wrote.out.ends_with(last), "the call that was not written was answered: {}", text(&wrote.out));
    let (input, due) = shown(&mut after(&found));
    let again = program.run(&path, &input);
    same("board after the limit", &again.out, &due);
    same("told after the limit", &again.err, TORN);
    same("journal after the limit", &fs::read(&path).expect("a journal"), whole(&found));
    println!("journal: ended by the system in the midst of a line");
}

/// A device that takes all bytes and keeps none: they cannot be brought to a disk, nor can it be cut back.
pub fn where_nothing_is_kept(program: &Program) {
    let calls = [filing(1, "A1", 0), filing(1, "A1", 0), b"1 CLEAR 0".to_vec(), b"1 LIST".to_vec()];
    let wrote = program.run(Path::new("/dev/null"), &crate::due::joined(&calls));
    same("answers on a device that keeps nothing", &wrote.out, b"NOT KEPT\nNOT KEPT\nNO 19 0 0\nOK\n");
    println!("journal: nothing shown as done on a device that keeps nothing");
}
