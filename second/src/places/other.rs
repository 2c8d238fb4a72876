//! Field 18.

use super::parts::{codes, elapsed_time, four_letters, text_word};
use super::trail::Trail;
use crate::alphabet::is_sign;
use crate::other::{days_of, is_one_word, is_pbn_code, KEYS, STATUSES};

/// `0` alone, or items.
pub fn other_information(trail: &mut Trail) -> bool {
    trail.way(|trail| trail.byte(b'0') && trail.ended()) || items(trail)
}

/// Each item's key stands behind the last one's in the order.
fn items(trail: &mut Trail) -> bool {
    let mut next = key(trail, 0);
    while let Some(rank) = next {
        if !item_words(trail, KEYS[rank]) {
            return false;
        }
        if trail.ended() {
            return true;
        }
        next = key(trail, rank + 1);
    }
    false
}

/// One of the keys from this rank on, with its oblique.
fn key(trail: &mut Trail, from: usize) -> Option<usize> {
    (from..KEYS.len()).find(|&rank| trail.way(|trail| trail.word(KEYS[rank]) && trail.byte(b'/')))
}

/// An item's words, up to the field's end or to a word that is none of its own: only a later key may stand there.
fn item_words(trail: &mut Trail, key: &[u8]) -> bool {
    let mut goes_on = word(trail, key);
    let some = goes_on;
    while goes_on {
        // Behind every item something may follow: RMK, the last, takes any number of words.
        goes_on = trail.byte(b' ') && !is_one_word(key) && trail.way(|trail| word(trail, key));
    }
    some
}

fn word(trail: &mut Trail, key: &[u8]) -> bool {
    let fits = match key {
        b"STS" => return STATUSES.iter().any(|status| trail.way(|trail| trail.word(status) && trail.word_ended())),
        b"PBN" => codes(trail, is_pbn_code, 16),
        b"DOF" => date(trail),
        b"SEL" => four_letters(trail),
        b"CODE" => trail.some(6, 6, |byte| matches!(byte, b'0'..=b'9' | b'A'..=b'F')),
        b"EET" | b"DLE" => return (2..=11).any(|signs| trail.way(|trail| place_and_elapsed(trail, signs))),
        _ => return text_word(trail),
    };
    fits && trail.word_ended()
}

fn place_and_elapsed(trail: &mut Trail, signs: usize) -> bool {
    trail.some(signs, signs, is_sign) && elapsed_time(trail) && trail.word_ended()
}

/// Year, month and a day that the month has.
fn date(trail: &mut Trail) -> bool {
    let Some(year) = trail.number(2, 0, 99) else { return false };
    let Some(month) = trail.number(2, 1, 12) else { return false };
    trail.number(2, 1, u32::from(days_of(year as u16, month as u16))).is_some()
}
