//! The program is stopped: after each answer, while it wrote, and at any moment.

use std::fs;
use std::path::Path;
use std::time::Duration;

use second::generate::boards::{handlers_line, BoardRun};
use second::generate::Dice;
use second::handlers::{Handlers, LONGEST_CALL};
use second::Board;

use crate::due::{after, filing, is_kept, joined, journal_and_answers, lines, same, shown, text, whole};
use crate::program::Program;

/// What is told of a last line without its end.
pub const TORN: &[u8] = b"handlers: the last line of the journal has no end, and was dropped\n";

/// Calls of both firms, accepted and refused, and lines that are no call; `*` stands for 1,700 bytes. The journal that they leave takes three reads.
const RUN: &str = "1 LIST
1 FILE (FPL-AA1-I-A1/H-H/A-EHAM0000-N0000F000 AB-EDDF0000-0)
2 FILE (FPL-BB1-I-A1/H-H/A-EHAM0000-N0000F000 AB-EDDF0000-RMK/*)
1 FILE (FPL-AA2)

1 FILE (FPL-AA2-I-A1/H-H/A-EHAM0000-N0000F000 AB-EDDF0000-RMK/*)
2 UPDATE 0 (DLA-BB1-EHAM0010-EDDF-0)
2 UPDATE 0 (DLA-BB1-EHAM0000-EDDF-0)
1 CLEAR 0
1 UPDATE 0 (CNL-AA1-EHAM0000-EDDF-0)
1 CLEAR 0
1 CLEAR 0
1 FILE (FPL-AA3-I-A1/H-H/A-EHAM0000-N0000F000 AB-EDDF0000-RMK/*)
1 FILE (FPL\r-AA4 -I-A1/H-H/A-EHAM0000-N0000F000  AB-EDDF0000-0)
3 CLEAR 0
2 FILE (FPL-BB2-I-A1/H-H/A-EHAM0000-N0000F000 AB-EDDF0000-RMK/*)
2 UPDATE 1 (DEP-BB2-EHAM0005-EDDF-0)
2 UPDATE 1 (ARR-BB2-EHAM0000-EDDF0105)
2 CLEAR 1
1 UPDATE 1 (CHG-AA2-EHAM0000-EDDF-0-8/V)
2 FILE (CNL-BB3-EHAM0000-EDDF-0)
1 LOOK 1
2 FILE (FPL-BB3-I-A1/H-H/A-EHAM0000-N0000F000 AB-EDDF0000-RMK/*)
2 FILE (FPL-BB4-I-A1/H-H/A-EHAM0000-N0000F000 AB-EDDF0000-0)
2 FILE (FPL-BB5-I-A1/H-H/A-EHAM0000-N0000F000 AB-EDDF0000-0)
2 FILE (FPL-BB6-I-A1/H-H/A-EHAM0000-N0000F000 AB-EDDF0000-0)
2 FILE (FPL-BB7-I-A1/H-H/A-EHAM0000-N0000F000 AB-EDDF0000-0)
2 FILE (FPL-BB8-I-A1/H-H/A-EHAM0000-N0000F000 AB-EDDF0000-0)
2 FILE (FPL-BB9-I-A1/H-H/A-EHAM0000-N0000F000 AB-EDDF0000-0)
2 FILE (FPL-BC1-I-A1/H-H/A-EHAM0000-N0000F000 AB-EDDF0000-0)
2 FILE (FPL-BC2-I-A1/H-H/A-EHAM0000-N0000F000 AB-EDDF0000-0)
1 FILE (FPL-AA5-I-A1/H-H/A-EHAM0000-N0000F000 AB-EDDF0000-0)
1 FILE (FPL-AA6-I-A1/H-H/A-EHAM0000-N0000F000 AB-EDDF0000-0)
1 FILE (FPL-AA7-I-A1/H-H/A-EHAM0000-N0000F000 AB-EDDF0000-0)
1 FILE (FPL-AA8-I-A1/H-H/A-EHAM0000-N0000F000 AB-EDDF0000-0)
2 UPDATE 3 (CNL-BB5-EHAM0000-EDDF-0)
2 CLEAR 3
1 FILE (FPL-AA8-I-A1/H-H/A-EHAM0000-N0000F000 AB-EDDF0000-0)
2 FILE (FPL-BC3-I-A1/H-H/A-EHAM0000-N0000F000 AB-EDDF0000-0)";

/// Those lines, the longest one that is answered, and one byte more.
fn calls() -> Vec<Vec<u8>> {
    let lines = RUN.split('\n').map(|line| line.replace('*', &"X".repeat(1700)).into_bytes());
    lines.chain([vec![b'X'; LONGEST_CALL], vec![b'X'; LONGEST_CALL + 1]]).collect()
}

/// After each answered line the program is killed; the next start is on what it left.
pub fn after_each_answer(program: &Program, directory: &Path) {
    let path = directory.join("answered");
    let (calls, mut handlers, mut journal) = (calls(), Handlers::default(), Vec::new());
    let mut met = [0; 6];
    for line in &calls {
        let mut running = program.start(&path);
        for (question, due) in asked_of(&mut handlers) {
            same("on the board at the start", &running.ask(&question), &due);
        }
        let due = handlers.answer(line);
        same(&format!("answer to {}", text(line)), &running.ask(line), &due);
        same("on standard error", &running.kill(), b"");
        if is_kept(line, &due) {
            journal.extend([line, &b"\n"[..]].concat());
        }
        same("journal", &fs::read(&path).expect("a journal"), &journal);
        met[kind(line, &due)] += 1;
    }
    assert!(met.iter().all(|&count| count > 0) && journal.len() > 8192, "every kind of line, and three reads: {met:?}");
    println!("journal: killed after each of {} answers, {} of them kept", calls.len(), lines(&journal).len());
}

/// Each line that asks for what stands on the board, with its answer.
fn asked_of(handlers: &mut Handlers) -> Vec<(Vec<u8>, Vec<u8>)> {
    let asked = crate::due::questions().into_iter();
    asked.map(|line| (line.clone(), handlers.answer(&line))).collect()
}

/// Which kind of line this was: the three that are kept, one that is refused, `BAD LINE`, `TOO LONG`. What only shows counts as the fourth.
fn kind(line: &[u8], answer: &[u8]) -> usize {
    match answer {
        b"BAD LINE" => 4,
        b"TOO LONG" => 5,
        b"OK CLEARED" => 2,
        _ if !is_kept(line, answer) => 3,
        _ => usize::from(line[2] == b'U'),
    }
}

/// A journal is cut at each byte, as by a program that was killed while it wrote; then one more call is kept in it.
pub fn at_each_byte(program: &Program, directory: &Path) {
    let path = directory.join("cut");
    let few = [
        filing(1, "A1", 0),
        filing(2, "B1", 0),
        b"1 UPDATE 0 (CNL-A1-EHAM0000-EDDF-0)".to_vec(),
        b"1 CLEAR 0".to_vec(),
    ];
    let (journal, _) = journal_and_answers(&few);
    let further = filing(2, "C1", 0);
    let longest = [&journal[..], &[b'X'; LONGEST_CALL]].concat();
    let cuts: Vec<&[u8]> = (0..=journal.len()).map(|length| &journal[..length]).chain([&longest[..]]).collect();
    for cut in &cuts {
        fs::write(&path, cut).expect("a journal");
        let kept = whole(cut);
        let mut handlers = after(kept);
        let (mut input, mut due) = shown(&mut handlers);
        input.extend([&further, &b"\n"[..]].concat());
        due.extend([&handlers.answer(&further), &b"\n"[..]].concat());
        let wrote = program.run(&path, &input);
        same(&format!("answers behind {} bytes", cut.len()), &wrote.out, &due);
        same(&format!("told of {} bytes", cut.len()), &wrote.err, if cut.len() == kept.len() { b"" } else { TORN });
        let due = [kept, &further, b"\n"].concat();
        same(&format!("journal of {} bytes, and a call", cut.len()), &fs::read(&path).expect("a journal"), &due);
    }
    println!("journal: cut at each of {} bytes, and within the longest line", journal.len() + 1);
}

/// How often the program is killed while it is busy.
const TRIES: usize = 24;

/// The program is killed at some moment while many lines wait for it; then it is started again.
pub fn at_any_moment(program: &Program, directory: &Path) {
    let mut dice = Dice::new(6);
    let mut run = BoardRun::on(Board::default(), &mut dice);
    let calls: Vec<Vec<u8>> = (0..1500).map(|_| handlers_line(&mut dice, &mut run)).collect();
    let (input, (journal, answers)) = (joined(&calls), journal_and_answers(&calls));
    let wrote = program.run(&directory.join("whole"), &input);
    same("answers to all", &wrote.out, &answers);
    same("journal of all", &fs::read(directory.join("whole")).expect("a journal"), &journal);
    let mut left = Vec::new();
    for n in 1..=TRIES {
        let path = directory.join(format!("moment-{n}"));
        let later = Duration::from_micros(dice.below(3000) as u64);
        let wrote = program.stopped(&path, &input, n * calls.len() / (TRIES + 1), later);
        let found = fs::read(&path).expect("a journal");
        assert!(journal.starts_with(&found), "the journal is no beginning of what is due: {}", text(&found));
        assert!(answers.starts_with(&wrote.out), "the answers are no beginning of what is due: {}", text(&wrote.out));
        let (kept, shown) = (lines(&found).len(), shown_as_kept(&calls, &wrote.out));
        assert!(shown <= kept && kept <= shown + 1, "{kept} calls in the journal, and {shown} shown as done");
        begun_again(program, &path, &found);
        left.push(kept);
    }
    let within = left.iter().filter(|&&kept| kept < lines(&journal).len()).count();
    println!("journal: killed at {TRIES} moments, with so many calls kept: {left:?}");
    assert!(2 * within > TRIES, "it was hardly ever killed in the midst of its work");
}

/// Of the calls that are kept, how many were answered; an answer of which only the first bytes came counts too.
fn shown_as_kept(calls: &[Vec<u8>], out: &[u8]) -> usize {
    let answers = out.split_inclusive(|&byte| byte == b'\n');
    calls.iter().zip(answers).filter(|(line, answer)| is_kept(line, answer)).count()
}

/// The board on the next start is that after the whole lines, and the file has no others.
fn begun_again(program: &Program, path: &Path, found: &[u8]) {
    let (input, due) = shown(&mut after(found));
    let wrote = program.run(path, &input);
    same("board on the next start", &wrote.out, &due);
    same("told on the next start", &wrote.err, if found.len() == whole(found).len() { b"" } else { TORN });
    same("journal on the next start", &fs::read(path).expect("a journal"), whole(found));
}
