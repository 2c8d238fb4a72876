//! Field 19, which alone is rewritten.

use crate::alphabet::{at_oblique, elapsed_time, is_digit, is_letter, is_text_word, some_of};
use crate::words::Words;

/// The items in their order.
pub const ITEMS: &[u8] = b"EPRSJDANC";

/// One or more items, each at most once, in order.
pub fn supplement(words: &mut Words) -> bool {
    let mut due = ITEMS;
    while let Some(word) = words.take() {
        let Some(([item], first)) = at_oblique(word) else { return false };
        let Some(rank) = due.iter().position(|own| own == item) else { return false };
        due = &due[rank + 1..];
        words.spell_key(*item);
        if !take_item(*item, first, words) {
            return false;
        }
    }
    // The first word of a field is always there, so one item at least was taken.
    true
}

fn take_item<'a>(item: u8, first: &'a [u8], words: &mut Words<'a>) -> bool {
    match item {
        b'E' => elapsed_time(first).is_some() && spelled(first, words),
        b'P' => spell_count(first, 3, words),
        b'R' => spell_letters(first, b"UVE", words),
        b'S' => spell_letters(first, b"PDMJ", words),
        b'J' => spell_letters(first, b"LF", words) && spell_frequencies(words),
        b'D' => spell_dinghies(first, words),
        _ => spell_text(first, words),
    }
}

fn spelled(word: &[u8], words: &mut Words) -> bool {
    words.spell(word);
    true
}

/// Digits without leading zeros; zero is `0`.
fn spell_count(digits: &[u8], most: usize, words: &mut Words) -> bool {
    let zeros = digits.iter().take_while(|&&b| b == b'0').count();
    let kept = zeros.min(digits.len().saturating_sub(1));
    some_of(digits, most, is_digit) && spelled(&digits[kept..], words)
}

/// A set of letters, none twice, sent in any order and spelled in this one.
fn spell_letters(letters: &[u8], order: &[u8], words: &mut Words) -> bool {
    let mut ordered = [0; 4];
    let mut count = 0;
    for letter in order.iter().filter(|letter| letters.contains(letter)) {
        ordered[count] = *letter;
        count += 1;
    }
    // Each letter found once accounts for all letters sent, or one is foreign or repeated.
    count > 0 && count == letters.len() && spelled(&ordered[..count], words)
}

/// Behind J/'s first set a second one may stand.
fn spell_frequencies(words: &mut Words) -> bool {
    words.take_plain().is_none_or(|letters| spell_letters(letters, b"UV", words))
}

/// D/: a pair of counts, the word C, colours; each may be absent, but the first word is one of them.
fn spell_dinghies<'a>(first: &'a [u8], words: &mut Words<'a>) -> bool {
    let mut next = Some(first);
    if first.first().is_some_and(|&b| is_digit(b)) {
        if !spell_pair(first, words) {
            return false;
        }
        next = words.take_plain();
    }
    if next == Some(b"C") {
        words.spell(b"C");
        next = words.take_plain();
    }
    spell_colours(next, words)
}

fn spell_pair(first: &[u8], words: &mut Words) -> bool {
    spell_count(first, 2, words) && words.take_plain().is_some_and(|second| spell_count(second, 3, words))
}

fn spell_colours<'a>(mut next: Option<&'a [u8]>, words: &mut Words<'a>) -> bool {
    while let Some(colour) = next {
        if colour.len() < 2 || !some_of(colour, usize::MAX, is_letter) {
            return false;
        }
        words.spell(colour);
        next = words.take_plain();
    }
    true
}

fn spell_text<'a>(first: &'a [u8], words: &mut Words<'a>) -> bool {
    let mut next = Some(first);
    while let Some(word) = next {
        if !is_text_word(word) {
            return false;
        }
        words.spell(word);
        next = words.take_plain();
    }
    true
}
