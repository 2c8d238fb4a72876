//! The listing program of document 01, the same with marks, and the desk.

use std::io::{self, Read, Write};

use crate::cause::Refused;
use crate::message::{read, Accepted, LONGEST};
use crate::pieces::{pieces, read_input};
use crate::refusal::Refusal;
use crate::strip::{self, Updated};

/// One line for each piece: `OK`, type, spelling; or `NO`, number, field, place.
pub fn listing(input: impl Read, out: &mut impl Write) -> io::Result<()> {
    match read_input(input)? {
        Some(input) => pieces(&input).try_for_each(|piece| list(piece, out)),
        None => writeln!(out, "TOO LONG"),
    }
}

fn list(piece: &[u8], out: &mut impl Write) -> io::Result<()> {
    say(&read(piece, LONGEST), out)
}

fn say(answer: &Result<Accepted, Refusal>, out: &mut impl Write) -> io::Result<()> {
    match answer {
        Ok(accepted) => {
            write!(out, "OK {} ", accepted.kind.name())?;
            out.write_all(&accepted.spelling)?;
            writeln!(out)
        }
        Err(refusal) => writeln!(out, "{refusal}"),
    }
}

/// The listing; below each refusal but 11, whose place says nothing, the line of the message with the place, and below
/// that `^` under its byte.
pub fn mark(input: impl Read, out: &mut impl Write) -> io::Result<()> {
    let Some(input) = read_input(input)? else { return writeln!(out, "TOO LONG") };
    for piece in pieces(&input) {
        let answer = read(piece, LONGEST);
        say(&answer, out)?;
        if let Err(Refusal { number, place, .. }) = answer {
            if number != 11 {
                point(piece, place, out)?;
            }
        }
    }
    Ok(())
}

/// A CR or LF counts to the line that it ends; so does the end of the message.
fn point(piece: &[u8], place: usize, out: &mut impl Write) -> io::Result<()> {
    let mut before = place;
    for line in piece.split(|b| b"\r\n".contains(b)) {
        if before <= line.len() {
            let shown: String = line.iter().map(|&b| visible(b)).collect();
            return writeln!(out, "{shown}\n{:>1$}", '^', before + 1);
        }
        before -= line.len() + 1;
    }
    unreachable!("place {place} is not in the message, nor just behind it")
}

fn visible(b: u8) -> char {
    match b {
        b'\t' => ' ',
        b' '..=b'~' => char::from(b),
        _ => '?',
    }
}

/// The first accepted FPL becomes the strip, each later piece is offered to it; one line for each:
/// `OK`, state, strip; or `NO`, number, field, place and, of an update, the cause of 12, 10 and 13.
pub fn desk(input: impl Read, out: &mut impl Write) -> io::Result<()> {
    let Some(input) = read_input(input)? else { return writeln!(out, "TOO LONG") };
    let mut held = None;
    for piece in pieces(&input) {
        match offer(&held, piece) {
            Ok(updated) => {
                write!(out, "OK {} ", updated.state)?;
                out.write_all(&updated.strip)?;
                writeln!(out)?;
                held = Some(updated);
            }
            Err(refused) => writeln!(out, "{refused}")?,
        }
    }
    Ok(())
}

/// Offers a piece to the strip; before there is one, only an FPL is fit.
pub fn offer(held: &Option<Updated>, piece: &[u8]) -> Result<Updated, Refused> {
    if let Some(held) = held {
        return strip::offer(&held.strip, held.state, piece, LONGEST);
    }
    Ok(strip::file(piece)?)
}
