//! The corpus of questions that the gate puts to the proved reader: hand-written lists, each question
//! with the answer that document 01 gives, generated questions, contents alone and probes.
//!
//! In `data/`, a question stands on one line and its answer behind `= ` on the next; `= itself` is
//! an accepted message spelled as it stands, and `{3*AB}` is AB three times. `#` begins a remark.
//! The lines of `contents.txt` have no answer.

use crate::board::Board;
use crate::generate::boards::{emptying, handlers_line, BoardRun};
use crate::generate::neighbours;
use crate::generate::probes::probes;
use crate::generate::questions::{
    bundle_run, content_alone, in_force_run, read_damaged, read_in_promised_room, read_in_short_rooms, read_valid,
    update_run, Line,
};
use crate::generate::Dice;
use crate::handlers::Handlers;
use crate::kind::Kind;
use crate::vectors::Vectors;

/// A question with the answer due.
#[derive(Clone, Debug, PartialEq, Eq)]
pub struct Listed {
    /// A line for the vectors program.
    pub question: String,
    /// The line that is due for it.
    pub answer: String,
}

/// The lists of questions. The first begins before any strip is held.
const QUESTIONS: [&str; 13] = [
    include_str!("../data/bad-strips.txt"),
    include_str!("../data/document-01.txt"),
    include_str!("../data/document-01-further.txt"),
    include_str!("../data/decided.txt"),
    include_str!("../data/document-02-places.txt"),
    include_str!("../data/document-02-elapsed.txt"),
    include_str!("../data/document-02-bare.txt"),
    include_str!("../data/document-02-dates.txt"),
    include_str!("../data/document-02-causes.txt"),
    include_str!("../data/document-02-rooms.txt"),
    include_str!("../data/document-02-bundles.txt"),
    include_str!("../data/printed-messages.txt"),
    include_str!("../data/lines.txt"),
];

const CONTENTS: &str = include_str!("../data/printed-contents.txt");

/// Runs of calls of two handlers, each on an empty board.
const BOARDS: &str = include_str!("../data/document-02-board.txt");

/// A further run: how the program of two handlers is spoken to.
const CALLS: &str = include_str!("../data/handlers.txt");

/// Lines that hold a content alone to a form, with their answers.
const ALONE: &str = include_str!("../data/content-lines.txt");

/// Further contents, each behind the name of its form and with no answer.
const FURTHER: &str = include_str!("../data/contents.txt");

/// For each form of a content: what stands before and behind it in a message, and the answer but for its place if it does not fit.
const CARRIERS: [(&str, &str, &str, &str); 14] = [
    ("7", "(CNL-", "-EHAM0930-EDDF-0)", "NO 7 7"),
    ("8", "(CHG-ABC12-EHAM0930-EDDF-0-8/", ")", "NO 7 22"),
    ("9", "(CHG-ABC12-EHAM0930-EDDF-0-9/", ")", "NO 7 22"),
    ("10", "(CHG-ABC12-EHAM0930-EDDF-0-10/", ")", "NO 7 22"),
    ("13", "(CNL-ABC12-", "-EDDF-0)", "NO 7 13"),
    ("13open", "(RQP-ABC12-", "-EDDF-0)", "NO 7 13"),
    ("15", "(CHG-ABC12-EHAM0930-EDDF-0-15/", ")", "NO 7 22"),
    ("route", "(CHG-ABC12-EHAM0930-EDDF-0-15/N0440F310 ", ")", "NO 7 22"),
    ("speed", "(CHG-ABC12-EHAM0930-EDDF-0-15/", "F310 DCT)", "NO 7 22"),
    ("level", "(CHG-ABC12-EHAM0930-EDDF-0-15/N0440", " DCT)", "NO 7 22"),
    ("16plan", "(SPL-ABC12-EHAM0930-", "-0-P/1)", "NO 7 16"),
    ("17", "(ARR-ABC12-EHAM0930-EDDF-", ")", "NO 7 17"),
    ("18", "(CNL-ABC12-EHAM0930-EDDF-", ")", "NO 7 18"),
    ("19", "(SPL-ABC12-EHAM0930-EDDF0100-0-", ")", "NO 7 19"),
];

/// All the lists, in the order in which they are asked.
pub fn listed() -> Vec<Listed> {
    let questions = QUESTIONS.into_iter().flat_map(questions);
    questions.chain(contents(CONTENTS)).chain(self::questions(ALONE)).collect()
}

/// The runs of calls for the program of two handlers, each for an empty board.
pub fn listed_calls() -> Vec<Vec<Listed>> {
    let boards = BOARDS.split("\n\n").skip(1);
    boards.chain([CALLS]).map(questions).collect()
}

/// The questions and calls that the second reader answers otherwise than listed, each with both answers.
pub fn answered_otherwise() -> Vec<(Listed, String)> {
    let mut vectors = Vectors::default();
    let asked = listed().into_iter().map(|listed| (vectors.answer(listed.question.as_bytes()), listed));
    let called = listed_calls().into_iter().flat_map(|run| {
        let mut handlers = Handlers::default();
        run.into_iter().map(move |listed| (handlers.answer(listed.question.as_bytes()), listed))
    });
    let answered = asked.chain(called).map(|(answer, listed)| (listed, String::from_utf8_lossy(&answer).into_owned()));
    answered.filter(|(listed, answer)| listed.answer != *answer).collect()
}

/// Each line that has an answer below it; one that is neither remark nor answer must have one.
fn questions(text: &str) -> Vec<Listed> {
    let lines: Vec<&str> = text.lines().chain([""]).collect();
    let answer_below = |pair: &[&str]| {
        let answer = pair[1].strip_prefix("= ");
        let is_question = !pair[0].is_empty() && !pair[0].starts_with('#') && !pair[0].starts_with("= ");
        assert!(answer.is_some() || !is_question, "no answer: {}", pair[0]);
        Some(due(repeated(pair[0]), repeated(answer?)))
    };
    lines.windows(2).filter_map(answer_below).collect()
}

fn due(question: String, answer: String) -> Listed {
    match question.strip_prefix("R ") {
        Some(message) if answer == "itself" => accepted(message),
        _ => Listed { question, answer },
    }
}

/// A message that is spelled as it stands.
fn accepted(message: &str) -> Listed {
    let kind = message.get(1..4).unwrap_or_default();
    Listed { question: format!("R {message}"), answer: format!("OK {kind} {message}") }
}

/// A text with its repetitions written out.
fn repeated(text: &str) -> String {
    let Some((before, rest)) = text.split_once('{') else { return text.to_string() };
    let (times, rest) = rest.split_once('*').expect("a count and '*' behind '{'");
    let (part, rest) = rest.split_once('}').expect("'}' behind '{'");
    let times = times.parse().expect("a count behind '{'");
    format!("{before}{}{}", part.repeat(times), repeated(rest))
}

/// Blocks of contents, each block below the name of its form and `fits` or `no`.
fn contents(text: &str) -> Vec<Listed> {
    let blocks = text.split("\n\n").skip(1);
    blocks.flat_map(block).collect()
}

fn block(block: &str) -> Vec<Listed> {
    let (head, contents) = block.split_once('\n').expect("contents below a form's name");
    let (form, verdict) = head.split_once(' ').expect("a form's name and a verdict");
    let carrier = CARRIERS.iter().find(|(name, ..)| *name == form).expect("a form's name");
    let (_, before, behind, refused) = carrier;
    let carried = contents.lines().map(|content| format!("{before}{content}{behind}"));
    match verdict {
        "fits" => carried.map(|message| accepted(&message)).collect(),
        "no" => carried.map(|message| refused_at_mark(&message, refused)).collect(),
        _ => panic!("no verdict: {head}"),
    }
}

/// A message that is refused at the byte behind the mark `^`.
fn refused_at_mark(message: &str, refused: &str) -> Listed {
    let (before, behind) = message.split_once('^').expect("a mark before the byte at which the content goes wrong");
    Listed { question: format!("R {before}{behind}"), answer: format!("{refused} {}", before.len()) }
}

/// Generated questions, the same each time: valid messages of each type, damaged ones, short rooms, runs of updates, fields in force,
/// and all messages that differ by little from some valid ones.
fn generated() -> Vec<Line> {
    let mut dice = Dice::new(2012);
    let mut lines = Vec::new();
    for kind in Kind::ALL {
        lines.extend((0..1000).map(|_| read_valid(&mut dice, kind)));
    }
    lines.extend((0..5000).map(|_| read_damaged(&mut dice)));
    lines.extend((0..200).flat_map(|_| read_in_short_rooms(&mut dice)));
    lines.extend((0..200).flat_map(|_| read_in_promised_room(&mut dice)));
    lines.extend((0..500).flat_map(|_| update_run(&mut dice, 10)));
    lines.extend((0..200).flat_map(|_| in_force_run(&mut dice, 10)));
    lines.extend((0..100).flat_map(|_| bundle_run(&mut dice)));
    lines.extend(neighbours::questions());
    lines
}

/// Contents alone: those listed without an answer, then generated ones, the same each time.
fn contents_alone() -> Vec<Line> {
    let mut dice = Dice::new(2025);
    let further = FURTHER.lines().filter(|line| !line.starts_with('#'));
    let lines = further.map(|line| format!("C {line}").into_bytes());
    lines.chain((0..1000).map(|_| content_alone(&mut dice))).collect()
}

/// The whole corpus, as the vectors program is given it: no line feed ends the last line.
pub fn corpus() -> Vec<u8> {
    let listed = listed().into_iter().map(|listed| listed.question.into_bytes());
    let lines: Vec<Line> = listed.chain(generated()).chain(contents_alone()).chain(probes()).collect();
    lines.join(&b'\n')
}

/// Calls for the program of two handlers, which has one board: the runs listed, each with calls behind it that empty the board, then generated calls,
/// the same each time.
pub fn calls() -> Vec<u8> {
    let mut handlers = Handlers::default();
    let mut lines: Vec<Line> = Vec::new();
    for run in listed_calls() {
        let asked: Vec<Line> = run.into_iter().map(|listed| listed.question.into_bytes()).collect();
        asked.iter().for_each(|line| drop(handlers.answer(line)));
        let emptying = emptying(handlers.board());
        emptying.iter().for_each(|line| drop(handlers.answer(line)));
        lines.extend(asked.into_iter().chain(emptying));
    }
    let mut dice = Dice::new(2026);
    let mut run = BoardRun::on(Board::default(), &mut dice);
    lines.extend((0..1000).map(|_| handlers_line(&mut dice, &mut run)));
    lines.join(&b'\n')
}

#[cfg(test)]
mod tests {
    #[test]
    #[should_panic(expected = "no answer: R (X)")]
    fn a_last_question_without_answer_is_found() {
        super::questions("R (Y)\n= NO 6 0 0\nR (X)\n");
    }
}
