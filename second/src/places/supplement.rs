//! Field 19.

use super::parts::{elapsed_time, text_words};
use super::trail::Trail;
use crate::alphabet::{is_digit, is_letter};
use crate::supplement::ITEMS;

/// One or more items, each behind the last one in the order.
pub fn supplement(trail: &mut Trail) -> bool {
    let mut due = ITEMS;
    while let Some(rank) = due.iter().position(|&key| trail.way(|trail| trail.word(&[key, b'/']))) {
        if !item(trail, due[rank]) {
            return false;
        }
        if trail.ended() {
            return true;
        }
        due = &due[rank + 1..];
        // Behind every item something may follow: C, the last, takes any number of words.
        if !trail.byte(b' ') {
            return false;
        }
    }
    false
}

/// What stands behind an item's oblique.
fn item(trail: &mut Trail, key: u8) -> bool {
    match key {
        b'E' => elapsed_time(trail),
        b'P' => trail.some(1, 3, is_digit),
        b'R' => letters(trail, b"UVE"),
        b'S' => letters(trail, b"PDMJ"),
        b'J' => jackets(trail),
        b'D' => dinghies(trail),
        _ => text_words(trail),
    }
}

/// One or more letters of a set, none twice: each is one of those still to be had.
fn letters(trail: &mut Trail, set: &[u8]) -> bool {
    let mut left = set.to_vec();
    while let Some(next) = left.iter().position(|&letter| trail.byte(letter)) {
        left.swap_remove(next);
    }
    left.len() < set.len()
}

/// Letters of L F; then there may be a space and letters of U V.
fn jackets(trail: &mut Trail) -> bool {
    let lights = letters(trail, b"LF");
    if lights {
        trail.way(|trail| trail.byte(b' ') && letters(trail, b"UV") && trail.word_ended());
    }
    lights
}

/// A pair of counts, the word C, colours: in this order, and one of them at least.
fn dinghies(trail: &mut Trail) -> bool {
    let mut some = part(trail, false, pair);
    some |= part(trail, some, |trail| trail.byte(b'C'));
    while part(trail, some, |trail| trail.some(2, usize::MAX, is_letter)) {
        some = true;
    }
    some
}

/// One part of D/, with a space before it if another stands before it.
fn part(trail: &mut Trail, behind_another: bool, own: fn(&mut Trail) -> bool) -> bool {
    trail.way(|trail| (!behind_another || trail.byte(b' ')) && own(trail) && trail.word_ended())
}

fn pair(trail: &mut Trail) -> bool {
    trail.some(1, 2, is_digit) && trail.byte(b' ') && trail.some(1, 3, is_digit)
}
