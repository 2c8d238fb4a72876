//! Parts that several forms have.

use super::trail::Trail;
use crate::alphabet::{is_letter, is_text};

/// Four letters.
pub fn four_letters(trail: &mut Trail) -> bool {
    trail.some(4, 4, is_letter)
}

/// A time of day.
pub fn time_of_day(trail: &mut Trail) -> bool {
    hours_and_minutes(trail, 23)
}

/// An elapsed time.
pub fn elapsed_time(trail: &mut Trail) -> bool {
    hours_and_minutes(trail, 99)
}

fn hours_and_minutes(trail: &mut Trail, most_hours: u32) -> bool {
    trail.number(2, 0, most_hours).is_some() && trail.number(2, 0, 59).is_some()
}

/// A text word.
pub fn text_word(trail: &mut Trail) -> bool {
    trail.some(1, usize::MAX, is_text) && trail.word_ended()
}

/// One or more text words; it stops before a space with no text word behind it.
pub fn text_words(trail: &mut Trail) -> bool {
    let some = text_word(trail);
    while some && trail.way(|trail| trail.byte(b' ') && text_word(trail)) {}
    some
}

/// One or more joined codes, none twice, of at most so many bytes together: each is one of those still to be had.
pub fn codes(trail: &mut Trail, known: fn(u8, u8) -> bool, most_bytes: usize) -> bool {
    let mut left = all_codes(known);
    let mut room = most_bytes;
    let mut some = false;
    while let Some(next) = left.iter().position(|code| code.len() <= room && trail.way(|trail| trail.word(code))) {
        room -= left.swap_remove(next).len();
        some = true;
    }
    some
}

/// Each code that is known: a letter, and its digit unless that is 0.
fn all_codes(known: fn(u8, u8) -> bool) -> Vec<Vec<u8>> {
    let pairs = (b'A'..=b'Z').flat_map(|letter| (0..=9).map(move |digit| (letter, digit)));
    let spelled = |(letter, digit)| if digit == 0 { vec![letter] } else { vec![letter, b'0' + digit] };
    pairs.filter(|&(letter, digit)| known(letter, digit)).map(spelled).collect()
}
