//! The program of two handlers: one line for each, and what a bad line leaves.

use second::corpus::{calls, listed_calls};
use second::generate::boards::{emptying, handlers_line, BoardRun};
use second::generate::Dice;
use second::handlers::{handlers, Handlers, LONGEST_CALL};
use second::Board;

const PLAN: &str = "(FPL-A1-I-A1/H-H/A-EHAM0000-N0000F000 AB-EDDF0000-0)";

fn answers(input: &[u8]) -> String {
    let mut out = Vec::new();
    handlers(input, &mut out).expect("memory takes all output");
    String::from_utf8(out).expect("answers are text")
}

/// Each run of the lists, on an empty board.
#[test]
fn the_lists() {
    let runs = listed_calls();
    assert_eq!(runs.len(), 4);
    for run in runs {
        let lines: Vec<&str> = run.iter().map(|listed| listed.question.as_str()).collect();
        let answers = answers(lines.join("\n").as_bytes());
        for (listed, answer) in run.iter().zip(answers.lines()) {
            assert_eq!(listed.answer, answer, "{}", listed.question);
        }
        assert_eq!(answers.lines().count(), run.len());
    }
}

/// A board is emptied behind each run, so that the runs go one after another.
#[test]
fn the_lists_on_one_board() {
    let (calls, mut handlers) = (calls(), Handlers::default());
    let mut lines = calls.split(|&byte| byte == b'\n');
    for run in listed_calls() {
        for listed in run {
            let line = lines.find(|line| *line == listed.question.as_bytes()).expect("all calls of the lists");
            assert_eq!(handlers.answer(line), listed.answer.as_bytes(), "{}", listed.question);
        }
        for line in emptying(handlers.board()) {
            assert!(handlers.answer(&line).starts_with(b"OK "), "{}", String::from_utf8_lossy(&line));
        }
        assert_eq!(handlers.answer(b"1 LIST"), b"OK");
        assert_eq!(handlers.answer(b"2 LIST"), b"OK");
    }
}

/// Cases of the board, each a line's call and the head of its answer: ten thousand generated calls meet each of them.
#[test]
fn the_cases() {
    let cases = [
        ("1 FILE ", "OK 9"),
        ("2 FILE ", "OK 9"),
        ("1 FILE ", "NO 20"),
        ("2 FILE ", "NO 20"),
        (" FILE ", "NO 18"),
        (" FILE ", "NO 14"),
        (" FILE ", "NO 7"),
        (" UPDATE ", "OK FILED"),
        (" UPDATE ", "OK ARRIVED"),
        (" UPDATE ", "OK CANCELLED"),
        (" UPDATE ", "NO 12 0 0 "),
        (" UPDATE ", "NO 13 0 0 "),
        (" UPDATE ", "NO 10 "),
        (" UPDATE ", "NO 18"),
        (" UPDATE ", "NO 19"),
        (" CLEAR ", "OK CLEARED"),
        (" CLEAR ", "NO 13 0 0 FILED"),
        (" CLEAR ", "NO 13 0 0 DEPARTED"),
        (" CLEAR ", "NO 18"),
        (" CLEAR ", "NO 19"),
        (" LOOK ", "OK"),
        (" LOOK ", "NO 18"),
        (" LOOK ", "NO 19"),
        (" LIST", "OK 0"),
        (" LIST", "NO 18"),
    ];
    for seed in [1, 2, 3] {
        let (mut dice, mut handlers) = (Dice::new(seed), Handlers::default());
        let mut run = BoardRun::on(Board::default(), &mut dice);
        let mut met = cases.map(|_| 0);
        for _ in 0..10_000 {
            let line = handlers_line(&mut dice, &mut run);
            let answer = handlers.answer(&line);
            for ((call, head), times) in cases.iter().zip(&mut met) {
                let place = line.windows(call.len()).position(|part| part == call.as_bytes());
                *times += usize::from(place.is_some_and(|place| place < 4) && answer.starts_with(head.as_bytes()));
            }
        }
        assert!(met.iter().all(|&times| times > 0), "seed {seed}: {met:?}");
    }
}

/// The calls that the program is held to meet each number of the board, and every state.
#[test]
fn the_calls() {
    let lines = calls();
    assert!(lines == calls());
    let answers = answers(&lines);
    for head in
        ["OK 9 ", "OK CLEARED", "OK ARRIVED ", "OK CANCELLED ", "OK DEPARTED ", "NO 18 0 0", "NO 19 0 0", "NO 20 0 0"]
    {
        assert!(answers.lines().any(|line| line.starts_with(head)), "{head}");
    }
    for head in ["NO 13 0 0 FILED", "NO 13 0 0 DEPARTED ", "NO 13 0 0 ARRIVED ", "NO 12 0 0 ", "NO 10 "] {
        assert!(answers.lines().any(|line| line.starts_with(head)), "{head}");
    }
}

#[test]
fn one_line_for_each() {
    assert_eq!(answers(b""), "");
    assert_eq!(answers(b"\n"), "BAD LINE\n");
    assert_eq!(answers(b"1 LIST\n\n2 LIST"), "OK\nBAD LINE\nOK\n");
    assert_eq!(answers(b"1 LIST\r\n"), "BAD LINE\n");
    assert_eq!(answers(format!("1 FILE {PLAN}\r\n").as_bytes()), format!("NO 2 0 {}\n", PLAN.len() - 1));
}

/// The message is the rest of the line, whatever bytes it has.
#[test]
fn any_bytes() {
    let mut handlers = Handlers::default();
    assert_eq!(handlers.answer(b"1 FILE \xff\x00"), b"NO 2 0 0");
    assert_eq!(handlers.answer(b"1 FILE (\xff)"), b"NO 3 0 1");
    assert_eq!(handlers.answer(b"\xff LIST"), b"BAD LINE");
    assert_eq!(handlers.answer(&[b'1'; LONGEST_CALL]), b"BAD LINE");
    assert_eq!(handlers.answer(&[b'1'; LONGEST_CALL + 1]), b"TOO LONG");
    assert_eq!(handlers.answer(b"1 LIST"), b"OK");
}
