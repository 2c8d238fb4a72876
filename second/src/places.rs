//! The place of number 7: the first byte at which no fitting field could go on, or the byte just behind a field that stops too soon.
//!
//! A field that does not fit is gone over once more, from left to right along every way in which it may go on: its place is the
//! farthest that any of them leads to. A way ends at the very byte with which nothing fitting can begin any more, and not at its word's end.

mod other;
mod parts;
mod route;
mod supplement;
mod trail;

use crate::alphabet::{is_digit, is_letter, is_sign};
use crate::forms::Form::{self, *};
use crate::forms::{is_left_code, is_right_code};
use crate::kind::{Kind, UNREAD};
use other::other_information;
use parts::{codes, elapsed_time, four_letters, text_words, time_of_day};
use route::route;
use supplement::supplement;
use trail::Trail;

/// The place of a field that begins behind its `(` or `-`, at `start`; `None` if it fits.
pub fn misfit(form: Form, sent: &[u8], start: usize) -> Option<usize> {
    let mut trail = Trail::of(sent, start);
    let fits = field(&mut trail, form);
    (!fits).then(|| trail.farthest())
}

/// The place in a content, its white space reduced, that does not fit the form of this name; `None` if it fits.
pub fn field_misfit(form: &str, content: &[u8]) -> Option<usize> {
    misfit(Form::named(form)?, content, 0)
}

fn field(trail: &mut Trail, form: Form) -> bool {
    let read = match form {
        F3 => message_type(trail),
        F7 => identification(trail),
        F8 => rules_and_type(trail),
        F9 => aircraft(trail),
        F10 => equipment(trail),
        F13 => four_letters(trail) && time_of_day(trail),
        F13Open => four_letters(trail) && (trail.ended() || time_of_day(trail)),
        F15 => route(trail),
        F16 => four_letters(trail),
        F16Plan => four_letters(trail) && elapsed_and_alternates(trail),
        F16Entry => four_letters(trail) && (trail.ended() || elapsed_and_alternates(trail)),
        F17 => arrival(trail),
        F18 => other_information(trail),
        F19 => supplement(trail),
        F22 => entry(trail),
    };
    read && trail.ended()
}

fn message_type(trail: &mut Trail) -> bool {
    let mut types = Kind::ALL.map(Kind::name).into_iter().chain(UNREAD);
    types.any(|name| trail.way(|trail| trail.word(name.as_bytes())))
        && (trail.ended() || (number(trail) && (trail.ended() || number(trail))))
}

/// A number of field 3.
fn number(trail: &mut Trail) -> bool {
    let units = trail.some(1, 4, is_letter) && trail.byte(b'/') && trail.some(1, 4, is_letter);
    units && trail.some(3, 3, is_digit)
}

fn identification(trail: &mut Trail) -> bool {
    let is_octal = |byte| matches!(byte, b'0'..=b'7');
    trail.some(2, 7, is_sign) && (trail.ended() || (trail.word(b"/A") && trail.some(4, 4, is_octal)))
}

fn rules_and_type(trail: &mut Trail) -> bool {
    let rules = trail.step(|byte| matches!(byte, b'I' | b'V' | b'Y' | b'Z'));
    rules && (trail.ended() || trail.step(|byte| matches!(byte, b'S' | b'N' | b'G' | b'M' | b'X')))
}

fn aircraft(trail: &mut Trail) -> bool {
    let typed = how_many(trail) && trail.step(is_letter) && trail.some(1, 3, is_sign);
    typed && trail.byte(b'/') && trail.step(|byte| matches!(byte, b'H' | b'M' | b'L'))
}

/// Nothing, or a number 2 to 99: a 1 must be followed by a digit.
fn how_many(trail: &mut Trail) -> bool {
    if trail.byte(b'1') {
        return trail.step(is_digit);
    }
    if trail.step(|byte| matches!(byte, b'2'..=b'9')) {
        trail.step(is_digit);
    }
    true
}

fn equipment(trail: &mut Trail) -> bool {
    let left = trail.way(|trail| trail.word(b"N/")) || (codes(trail, is_left_code, 64) && trail.byte(b'/'));
    left && (trail.way(|trail| trail.byte(b'N') && trail.ended()) || codes(trail, is_right_code, 20))
}

/// What a plan's field 16 has behind the destination.
fn elapsed_and_alternates(trail: &mut Trail) -> bool {
    let alternate = |trail: &mut Trail| trail.ended() || (trail.byte(b' ') && four_letters(trail));
    elapsed_time(trail) && alternate(trail) && alternate(trail)
}

/// Behind ZZZZ and its time words must follow, behind any other none may.
fn arrival(trail: &mut Trail) -> bool {
    let start = trail.at();
    if !four_letters(trail) {
        return false;
    }
    let named = trail.since(start) != b"ZZZZ";
    time_of_day(trail) && (named || (trail.byte(b' ') && text_words(trail)))
}

/// The fields that an entry may name.
const NUMBERS: [&[u8]; 8] = [b"7", b"8", b"9", b"10", b"13", b"15", b"16", b"18"];

/// A field's number, an oblique, and that field as an entry has it. Which numbers earlier entries have plays no part.
fn entry(trail: &mut Trail) -> bool {
    let named = NUMBERS.into_iter().find(|number| trail.way(|trail| trail.word(number) && trail.byte(b'/')));
    named.and_then(Form::of_entry).is_some_and(|form| field(trail, form))
}
