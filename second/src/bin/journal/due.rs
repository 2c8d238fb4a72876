//! What is due, by the second reader: answers, the journal, and what stands on the board after it.

use second::handlers::Handlers;
use second::SLOTS;

/// A plan for a flight, with so many bytes of a remark.
pub fn plan(flight: &str, remark: usize) -> Vec<u8> {
    let rest = match remark {
        0 => "0".to_string(),
        bytes => format!("RMK/{}", "X".repeat(bytes)),
    };
    format!("(FPL-{flight}-I-A1/H-H/A-EHAM0000-N0000F000 AB-EDDF0000-{rest})").into_bytes()
}

/// A filing of a firm.
pub fn filing(firm: usize, flight: &str, remark: usize) -> Vec<u8> {
    [format!("{firm} FILE ").as_bytes(), &plan(flight, remark)].concat()
}

/// Whether a line with this answer belongs into the journal: an accepted call that changes the board.
pub fn is_kept(line: &[u8], answer: &[u8]) -> bool {
    let verb = line.split(|&byte| byte == b' ').nth(1).unwrap_or_default();
    answer.starts_with(b"OK") && [&b"FILE"[..], b"UPDATE", b"CLEAR"].contains(&verb)
}

/// The whole lines of a file, without their ends.
pub fn lines(file: &[u8]) -> Vec<&[u8]> {
    whole(file).split_inclusive(|&byte| byte == b'\n').map(|line| &line[..line.len() - 1]).collect()
}

/// A file up to the end of its last whole line.
pub fn whole(file: &[u8]) -> &[u8] {
    let end = file.iter().rposition(|&byte| byte == b'\n').map_or(0, |at| at + 1);
    &file[..end]
}

/// The board after the whole lines of a journal, each of which must be an accepted call.
pub fn after(journal: &[u8]) -> Handlers {
    let mut handlers = Handlers::default();
    for line in lines(journal) {
        let answer = handlers.answer(line);
        assert!(is_kept(line, &answer), "not to be kept: {}", text(line));
    }
    handlers
}

/// The journal that a run of lines leaves, and the answers to them, each with its end.
pub fn journal_and_answers(lines: &[Vec<u8>]) -> (Vec<u8>, Vec<u8>) {
    let (mut handlers, mut journal, mut answers) = (Handlers::default(), Vec::new(), Vec::new());
    for line in lines {
        let answer = handlers.answer(line);
        if is_kept(line, &answer) {
            journal.extend([line, &b"\n"[..]].concat());
        }
        answers.extend([&answer, &b"\n"[..]].concat());
    }
    (journal, answers)
}

/// The lines that ask for all that stands on the board.
pub fn questions() -> Vec<Vec<u8>> {
    let lists = [1, 2].map(|firm| format!("{firm} LIST"));
    let looks = [1, 2].into_iter().flat_map(|firm| (0..SLOTS).map(move |slot| format!("{firm} LOOK {slot}")));
    lists.into_iter().chain(looks).map(String::into_bytes).collect()
}

/// Those lines as an input, and their answers on a board.
pub fn shown(handlers: &mut Handlers) -> (Vec<u8>, Vec<u8>) {
    let questions = questions();
    let answers: Vec<Vec<u8>> = questions.iter().map(|line| handlers.answer(line)).collect();
    (joined(&questions), joined(&answers))
}

/// Lines, each with its end.
pub fn joined(lines: &[Vec<u8>]) -> Vec<u8> {
    lines.iter().flat_map(|line| [line, &b"\n"[..]].concat()).collect()
}

/// Bytes to be read by a person.
pub fn text(bytes: &[u8]) -> String {
    String::from_utf8_lossy(bytes).into_owned()
}

/// Ends the test unless what was found is what is due.
pub fn same(what: &str, found: &[u8], due: &[u8]) {
    assert!(found == due, "{what}\nfound: {}\n  due: {}", text(found), text(due));
}
