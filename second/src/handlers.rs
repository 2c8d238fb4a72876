//! The program of two handlers: each line is a call on the board and gets one line.
//!
//! `1 FILE (FPL-..)`, `2 UPDATE 3 (CHG-..)`, `1 CLEAR 0`, `1 LOOK 0` and `1 LIST`: the firm, one space between, and the message to the line's end.

use std::io::{self, BufRead, Write};

use crate::alphabet::at_space;
use crate::board::Board;
use crate::cause::Refused;
use crate::strip::Updated;

/// The most bytes of a line that is answered.
pub const LONGEST_CALL: usize = 4096;

/// A board, empty at first.
#[derive(Default)]
pub struct Handlers {
    board: Board,
}

impl Handlers {
    /// The answer to a line.
    pub fn answer(&mut self, line: &[u8]) -> Vec<u8> {
        if line.len() > LONGEST_CALL {
            return b"TOO LONG".to_vec();
        }
        match self.call(line) {
            Some(Ok(answer)) => answer,
            Some(Err(refused)) => refused.to_string().into_bytes(),
            None => b"BAD LINE".to_vec(),
        }
    }

    /// The board as the calls left it.
    pub fn board(&self) -> &Board {
        &self.board
    }

    /// `None` if the line is no call.
    fn call(&mut self, line: &[u8]) -> Option<Result<Vec<u8>, Refused>> {
        let (firm, call) = at_space(line)?;
        let firm = read_number(firm)?;
        if call == b"LIST" {
            return Some(self.list(firm));
        }
        let (name, rest) = at_space(call)?;
        match name {
            b"FILE" => Some(self.file(firm, rest)),
            b"UPDATE" => {
                let (slot, message) = at_space(rest)?;
                Some(self.update(firm, read_number(slot)?, message))
            }
            b"CLEAR" => Some(self.clear(firm, read_number(rest)?)),
            b"LOOK" => Some(self.look(firm, read_number(rest)?)),
            _ => None,
        }
    }

    fn file(&mut self, firm: usize, message: &[u8]) -> Result<Vec<u8>, Refused> {
        let (slot, held) = self.board.file(firm, message)?;
        Ok(shown(&format!("OK {slot}"), held))
    }

    fn update(&mut self, firm: usize, slot: usize, message: &[u8]) -> Result<Vec<u8>, Refused> {
        Ok(shown("OK", self.board.update(firm, slot, message)?))
    }

    fn clear(&mut self, firm: usize, slot: usize) -> Result<Vec<u8>, Refused> {
        self.board.clear(firm, slot)?;
        Ok(b"OK CLEARED".to_vec())
    }

    fn look(&self, firm: usize, slot: usize) -> Result<Vec<u8>, Refused> {
        Ok(shown("OK", self.board.look(firm, slot)?))
    }

    /// Slot, identification and state of each strip of the firm.
    fn list(&self, firm: usize) -> Result<Vec<u8>, Refused> {
        let mut answer = b"OK".to_vec();
        for (slot, held) in self.board.list(firm)? {
            answer.extend(format!(" {slot} ").into_bytes());
            answer.extend(identification(&held.strip));
            answer.extend(format!(" {}", held.state).into_bytes());
        }
        Ok(answer)
    }
}

/// Answers each line of an input of any length.
pub fn handlers(input: impl BufRead, out: &mut impl Write) -> io::Result<()> {
    let mut handlers = Handlers::default();
    for line in input.split(b'\n') {
        out.write_all(&handlers.answer(&line?))?;
        out.write_all(b"\n")?;
        out.flush()?;
    }
    Ok(())
}

/// State and strip behind a head.
fn shown(head: &str, held: &Updated) -> Vec<u8> {
    [format!("{head} {} ", held.state).as_bytes(), &held.strip].concat()
}

/// Field 7 of a strip, without its code.
fn identification(strip: &[u8]) -> &[u8] {
    let seven = strip.split(|&b| b == b'-').nth(1).unwrap_or_default();
    seven.split(|&b| b == b'/').next().unwrap_or_default()
}

/// The number that a digit says; of more digits one that is no firm and no slot.
fn read_number(word: &[u8]) -> Option<usize> {
    match word {
        [] => None,
        [digit @ b'0'..=b'9'] => Some(usize::from(digit - b'0')),
        _ => word.iter().all(u8::is_ascii_digit).then_some(usize::MAX),
    }
}
