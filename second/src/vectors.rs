//! Questions to the reader, one to a line, and its answers: what the proved reader is compared by.
//!
//! `R message` and `r ROOM message` read it, `H STATE strip` holds a strip unchecked, `U message` and
//! `u ROOM message` offer it to the strip held, `W message` asks why that is refused and changes
//! nothing, `F NUMBER message` asks for the field in force, `C FORM content` holds a content alone to a form.

use std::io::{self, BufRead, Write};

use crate::alphabet::{at_space, number};
use crate::cause::Refused;
use crate::escapes::{escaped, unescaped};
use crate::forms::{field_fits, Form};
use crate::message::{read, LONGEST};
use crate::refusal::Refusal;
use crate::state::State;
use crate::strip::{field_in_force, offer, update, InForce, Updated};

/// The most bytes of a line that is answered.
pub const LONGEST_LINE: usize = 8192;

/// The strip that is held from line to line, before the first an empty one.
pub struct Vectors {
    held: Updated,
}

impl Default for Vectors {
    fn default() -> Self {
        Vectors { held: Updated { strip: Vec::new(), state: State::Filed } }
    }
}

impl Vectors {
    /// The answer to a line.
    pub fn answer(&mut self, line: &[u8]) -> Vec<u8> {
        if line.len() > LONGEST_LINE {
            return b"TOO LONG".to_vec();
        }
        self.answer_question(line).unwrap_or_else(|| b"BAD LINE".to_vec())
    }

    /// `None` if the line asks nothing.
    fn answer_question(&mut self, line: &[u8]) -> Option<Vec<u8>> {
        let (kind, rest) = at_space(line)?;
        match kind {
            b"R" => Some(answer_read(&unescaped(rest)?, LONGEST)),
            b"U" => Some(self.offer(&unescaped(rest)?, LONGEST)),
            b"W" => Some(self.cause(&unescaped(rest)?)),
            b"r" | b"u" | b"F" | b"H" | b"C" => self.answer_with(kind, rest),
            _ => None,
        }
    }

    /// The questions that have a word before the message, strip or content.
    fn answer_with(&mut self, kind: &[u8], rest: &[u8]) -> Option<Vec<u8>> {
        let (word, text) = at_space(rest)?;
        let bytes = unescaped(text)?;
        match kind {
            b"r" => Some(answer_read(&bytes, number_to(word, LONGEST)?)),
            b"u" => Some(self.offer(&bytes, number_to(word, LONGEST)?)),
            b"F" => Some(self.ask(&bytes, number_to(word, 255)?)),
            b"C" => answer_content(std::str::from_utf8(word).ok()?, &bytes),
            _ => Some(self.hold(read_state(word)?, bytes)),
        }
    }

    fn hold(&mut self, state: State, strip: Vec<u8>) -> Vec<u8> {
        self.held = Updated { strip, state };
        b"HELD".to_vec()
    }

    fn offer(&mut self, message: &[u8], room: usize) -> Vec<u8> {
        match update(&self.held.strip, self.held.state, message, room) {
            Ok(updated) => {
                self.held = updated;
                with_text(format!("OK {} ", self.held.state), &self.held.strip)
            }
            Err(refusal) => answer_refused(refusal),
        }
    }

    fn cause(&self, message: &[u8]) -> Vec<u8> {
        match offer(&self.held.strip, self.held.state, message, LONGEST) {
            Err(Refused { refusal, cause: Some(cause) }) => format!("CAUSE {} {cause}", refusal.number).into_bytes(),
            _ => b"NONE".to_vec(),
        }
    }

    fn ask(&self, message: &[u8], field: usize) -> Vec<u8> {
        let (name, bytes, range) = match field_in_force(&self.held.strip, self.held.state, message, field as u32) {
            Ok(InForce::Strip(range)) => ("STRIP", &self.held.strip[..], range),
            Ok(InForce::Change(range)) => ("CHG", message, range),
            Err(refusal) => return answer_refused(refusal),
        };
        with_text(format!("IN {name} {} {} ", range.start, range.end), &bytes[range])
    }
}

/// Answers each line of an input of any length.
pub fn vectors(input: impl BufRead, out: &mut impl Write) -> io::Result<()> {
    let mut vectors = Vectors::default();
    for line in input.split(b'\n') {
        out.write_all(&vectors.answer(&line?))?;
        out.write_all(b"\n")?;
    }
    Ok(())
}

fn answer_read(message: &[u8], room: usize) -> Vec<u8> {
    match read(message, room) {
        Ok(accepted) => with_text(format!("OK {} ", accepted.kind.name()), &accepted.spelling),
        Err(refusal) => answer_refused(refusal),
    }
}

/// `None` if no form has this name.
fn answer_content(form: &str, content: &[u8]) -> Option<Vec<u8>> {
    Form::named(form)?;
    Some(if field_fits(form, content) { b"FITS".to_vec() } else { b"NO".to_vec() })
}

fn answer_refused(refusal: Refusal) -> Vec<u8> {
    refusal.to_string().into_bytes()
}

fn with_text(head: String, bytes: &[u8]) -> Vec<u8> {
    [head.into_bytes(), escaped(bytes)].concat()
}

/// One to four digits that say at most `most`.
fn number_to(word: &[u8], most: usize) -> Option<usize> {
    number(word).map(usize::from).filter(|&said| said <= most)
}

/// `F`, `C`, `D` and a minute of the day, or `A`, a minute or `----`, an aerodrome and a minute.
fn read_state(word: &[u8]) -> Option<State> {
    let (kind, rest) = word.split_first()?;
    match (kind, rest) {
        (b'F', []) => Some(State::Filed),
        (b'C', []) => Some(State::Cancelled),
        (b'D', minute) => Some(State::Departed { time: read_minute(minute)? }),
        (b'A', [departed @ .., b'/', a, b, c, d, b'/', h, i, j, k]) => Some(State::Arrived {
            departed: if departed == b"----" { None } else { Some(read_minute(departed)?) },
            aerodrome: [*a, *b, *c, *d],
            time: read_minute(&[*h, *i, *j, *k])?,
        }),
        _ => None,
    }
}

/// Four digits; the minute may be beyond the day.
fn read_minute(digits: &[u8]) -> Option<u16> {
    number(digits).filter(|_| digits.len() == 4)
}
