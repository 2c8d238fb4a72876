//! The forms of fields 3 to 17; field 15's words, 18 and 19 have modules of their own.

use crate::alphabet::*;
use crate::codes::codes;
use crate::kind::{is_unread, Kind};
use crate::other::other_information;
use crate::route::route;
use crate::supplement::supplement;
use crate::words::Words;

/// A field's form. 13 has two, 16 three.
#[derive(Clone, Copy, Debug, PartialEq, Eq)]
#[allow(missing_docs)]
pub enum Form {
    F3,
    F7,
    F8,
    F9,
    F10,
    F13,
    /// RQP's: the time may be absent.
    F13Open,
    F15,
    F16,
    /// FPL's and SPL's: with elapsed time and alternates.
    F16Plan,
    /// A CHG's entry: FPL's, or the destination alone.
    F16Entry,
    F17,
    F18,
    F19,
    F22,
}

use Form::*;

impl Form {
    /// The forms that a content can be tested against, with their names.
    pub const NAMED: [(&'static str, Form); 13] = [
        ("3", F3),
        ("7", F7),
        ("8", F8),
        ("9", F9),
        ("10", F10),
        ("13", F13),
        ("13open", F13Open),
        ("15", F15),
        ("16", F16),
        ("16plan", F16Plan),
        ("17", F17),
        ("18", F18),
        ("19", F19),
    ];

    /// The form with this name.
    pub fn named(name: &str) -> Option<Form> {
        Form::NAMED.into_iter().find(|(own, _)| *own == name).map(|(_, form)| form)
    }

    /// The form that an entry with this number follows: the field's FPL form, but for 16.
    pub fn of_entry(number: &[u8]) -> Option<Form> {
        match number {
            b"7" => Some(F7),
            b"8" => Some(F8),
            b"9" => Some(F9),
            b"10" => Some(F10),
            b"13" => Some(F13),
            b"15" => Some(F15),
            b"16" => Some(F16Entry),
            b"18" => Some(F18),
            _ => None,
        }
    }

    /// The field's type as a refusal gives it.
    pub fn number(self) -> u32 {
        match self {
            F3 => 3,
            F7 => 7,
            F8 => 8,
            F9 => 9,
            F10 => 10,
            F13 | F13Open => 13,
            F15 => 15,
            F16 | F16Plan | F16Entry => 16,
            F17 => 17,
            F18 => 18,
            F19 => 19,
            F22 => 22,
        }
    }

    /// Takes the field and spells it; false if the field does not fit.
    pub fn take(self, words: &mut Words) -> bool {
        let fits = match self {
            F15 => route(words),
            F16Plan => destination_with_alternates(words),
            F16Entry => new_destination(words),
            F17 => arrival(words),
            F18 => other_information(words),
            F19 => supplement(words),
            _ => words.word().is_some_and(|word| self.fits_word(word)),
        };
        fits && words.ended()
    }

    /// The forms that are a single word.
    fn fits_word(self, word: &[u8]) -> bool {
        match self {
            F3 => message_type(word),
            F7 => identification(word),
            F8 => rules_and_type(word),
            F9 => aircraft(word),
            F10 => equipment(word),
            F13 => aerodrome_and_time(word),
            F13Open => is_four_letters(word) || aerodrome_and_time(word),
            F16 => is_four_letters(word),
            _ => false,
        }
    }
}

/// Whether a content, its white space reduced, fits the form of this name.
pub fn field_fits(form: &str, content: &[u8]) -> bool {
    Form::named(form).is_some_and(|form| spelled(form, content).is_some())
}

/// Field 19's canonical spelling, if the content fits.
pub fn spelling19(content: &[u8]) -> Option<Vec<u8>> {
    spelled(F19, content)
}

fn spelled(form: Form, content: &[u8]) -> Option<Vec<u8>> {
    let mut words = Words::of(content);
    (is_reduced(content) && form.take(&mut words)).then(|| words.into_spelling())
}

/// Whether a content could stand between two hyphens with its white space reduced.
fn is_reduced(content: &[u8]) -> bool {
    let closed = content.iter().any(|b| matches!(b, b'(' | b')' | b'-' | b'\r' | b'\n'));
    let doubled = content.windows(2).any(|pair| pair == b"  ");
    !closed && !doubled && content.last() != Some(&b' ')
}

/// Field 3: one of the sixteen standard types, then at most two numbers, all joined.
fn message_type(word: &[u8]) -> bool {
    let Some((name, rest)) = word.split_at_checked(3) else { return false };
    let two = || past_number(past_number(rest)?);
    (Kind::named(name).is_some() || is_unread(name))
        && (rest.is_empty() || past_number(rest).is_some_and(<[u8]>::is_empty) || two().is_some_and(<[u8]>::is_empty))
}

/// What lies behind one number of field 3: 1 to 4 letters, `/`, 1 to 4 letters, 3 digits.
fn past_number(bytes: &[u8]) -> Option<&[u8]> {
    let (sender, rest) = at_oblique(bytes)?;
    let letters = rest.iter().take_while(|&&b| is_letter(b)).count();
    let (receiver, rest) = rest.split_at(letters);
    let (serial, rest) = rest.split_at_checked(3)?;
    (some_of(sender, 4, is_letter) && some_of(receiver, 4, is_letter) && some_of(serial, 3, is_digit)).then_some(rest)
}

/// Field 7.
fn identification(word: &[u8]) -> bool {
    let (name, code) = at_oblique(word).map_or((word, None), |(name, code)| (name, Some(code)));
    name.len() >= 2 && some_of(name, 7, is_sign) && code.is_none_or(is_code)
}

fn is_code(code: &[u8]) -> bool {
    matches!(code, [b'A', digits @ ..] if digits.len() == 4 && some_of(digits, 4, |b| matches!(b, b'0'..=b'7')))
}

/// Field 8.
fn rules_and_type(word: &[u8]) -> bool {
    matches!(word, [b'I' | b'V' | b'Y' | b'Z'] | [b'I' | b'V' | b'Y' | b'Z', b'S' | b'N' | b'G' | b'M' | b'X'])
}

/// Field 9. Its number is the digits before the type's first letter.
fn aircraft(word: &[u8]) -> bool {
    let Some((aircraft, wake)) = at_oblique(word) else { return false };
    let digits = aircraft.iter().take_while(|&&b| is_digit(b)).count();
    let (count, kind) = aircraft.split_at(digits);
    let counted = matches!(count, [] | [b'2'..=b'9'] | [b'1'..=b'9', _]);
    counted && kind.len() >= 2 && some_of(kind, 4, is_sign) && matches!(wake, b"H" | b"M" | b"L")
}

/// Field 10.
fn equipment(word: &[u8]) -> bool {
    at_oblique(word)
        .is_some_and(|(left, right)| equipment_side(left, 64, is_left_code) && equipment_side(right, 20, is_right_code))
}

fn equipment_side(side: &[u8], most: usize, known: fn(u8, u8) -> bool) -> bool {
    side == b"N" || (side.len() <= most && codes(side, known).is_some())
}

/// Left of the oblique; the digit 0 stands for none.
pub fn is_left_code(letter: u8, digit: u8) -> bool {
    match letter {
        b'E' | b'M' => matches!(digit, 1..=3),
        b'J' => matches!(digit, 1..=7),
        b'P' => matches!(digit, 1..=9),
        b'A'..=b'D' | b'F'..=b'I' | b'K' | b'L' | b'O' | b'R'..=b'Z' => digit == 0,
        _ => false,
    }
}

/// Right of the oblique; the digit 0 stands for none.
pub fn is_right_code(letter: u8, digit: u8) -> bool {
    match letter {
        b'B' | b'U' | b'V' => matches!(digit, 1 | 2),
        b'D' | b'G' => digit == 1,
        b'A' | b'C' | b'E' | b'H' | b'I' | b'L' | b'P' | b'S' | b'X' => digit == 0,
        _ => false,
    }
}

/// Four letters and a time of day: field 13, and the first word of 17.
fn aerodrome_and_time(word: &[u8]) -> bool {
    word.split_at_checked(4).is_some_and(|(aerodrome, time)| is_four_letters(aerodrome) && time_of_day(time).is_some())
}

/// Four letters and an elapsed time: the first word of 16.
fn aerodrome_and_elapsed(word: &[u8]) -> bool {
    word.split_at_checked(4).is_some_and(|(aerodrome, time)| is_four_letters(aerodrome) && elapsed_time(time).is_some())
}

/// Field 16 of FPL and SPL: the destination, then at most two alternates.
fn destination_with_alternates(words: &mut Words) -> bool {
    words.word().is_some_and(aerodrome_and_elapsed) && alternates(words)
}

/// An entry of 16: the destination alone, or all of field 16.
fn new_destination(words: &mut Words) -> bool {
    words.word().is_some_and(|word| is_four_letters(word) || (aerodrome_and_elapsed(word) && alternates(words)))
}

fn alternates(words: &mut Words) -> bool {
    let alternate = |words: &mut Words| words.word().is_none_or(is_four_letters);
    alternate(words) && alternate(words)
}

/// Field 17: a name is due after ZZZZ and after no other.
fn arrival(words: &mut Words) -> bool {
    match words.word() {
        Some(word) if aerodrome_and_time(word) => !word.starts_with(b"ZZZZ") || text_words(words),
        _ => false,
    }
}

/// One or more text words up to the field's end.
fn text_words(words: &mut Words) -> bool {
    let mut some = false;
    while let Some(word) = words.word() {
        if !is_text_word(word) {
            return false;
        }
        some = true;
    }
    some
}
