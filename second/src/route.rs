//! Field 15.

use crate::alphabet::{at_oblique, is_digit, is_sign, number, some_of};
use crate::words::Words;

/// Speed and level, then one or more words.
pub fn route(words: &mut Words) -> bool {
    let opened = words.word().and_then(past_speed).is_some_and(is_level_or_vfr);
    opened && route_words(words)
}

/// One or more route words up to the field's end; `T` only last.
fn route_words(words: &mut Words) -> bool {
    let (mut some, mut truncated) = (false, false);
    while let Some(word) = words.word() {
        if truncated || !is_route_word(word) {
            return false;
        }
        some = true;
        truncated = word == b"T";
    }
    some
}

fn is_route_word(word: &[u8]) -> bool {
    match at_oblique(word) {
        Some((b"C", climb)) => is_climb(climb),
        Some((point, change)) => is_point(point) && past_speed(change).is_some_and(is_level),
        None => word == b"T" || is_indicator(word) || is_point(word) || is_long_name(word),
    }
}

/// Behind `C/`: a point, `/`, speed, level, then a second level or PLUS.
fn is_climb(climb: &[u8]) -> bool {
    let Some((point, change)) = at_oblique(climb) else { return false };
    let upper = past_speed(change).and_then(past_level);
    is_point(point) && upper.is_some_and(|upper| upper == b"PLUS" || is_level(upper))
}

/// DCT, VFR and IFR are no names.
pub fn is_indicator(word: &[u8]) -> bool {
    matches!(word, b"DCT" | b"VFR" | b"IFR")
}

/// A coordinate, a point with bearing, or a name of at most 5 signs.
fn is_point(word: &[u8]) -> bool {
    match coordinate(word) {
        Some(in_range) => in_range,
        None => is_point_with_bearing(word) || is_short_name(word),
    }
}

fn is_short_name(word: &[u8]) -> bool {
    word.len() >= 2 && some_of(word, 5, is_sign) && !is_indicator(word)
}

/// A name of 6 or 7 signs, which a coordinate's shape is not.
fn is_long_name(word: &[u8]) -> bool {
    word.len() >= 6 && some_of(word, 7, is_sign) && coordinate(word).is_none()
}

fn is_point_with_bearing(word: &[u8]) -> bool {
    if !(8..=11).contains(&word.len()) {
        return false;
    }
    let (name, rest) = word.split_at(word.len() - 6);
    let (bearing, distance) = rest.split_at(3);
    some_of(name, 5, is_sign) && number(bearing).is_some_and(|bearing| bearing <= 360) && number(distance).is_some()
}

/// `None` if the word has no coordinate's shape, else whether it is in range.
fn coordinate(word: &[u8]) -> Option<bool> {
    let degrees = match word.len() {
        7 => 2,
        11 => 4,
        _ => return None,
    };
    let (latitude, rest) = word.split_at(degrees);
    let (longitude, east_or_west) = rest.get(1..)?.split_at(degrees + 1);
    let shaped = matches!(rest, [b'N' | b'S', ..])
        && matches!(east_or_west, b"E" | b"W")
        && some_of(latitude, 4, is_digit)
        && some_of(longitude, 5, is_digit);
    shaped.then(|| in_range(latitude, 2, 90) && in_range(longitude, 3, 180))
}

/// Degrees and, if there are more digits, minutes; at the most degrees no minutes are left.
fn in_range(digits: &[u8], width: usize, most: u16) -> bool {
    let (degrees, minutes) = digits.split_at(width);
    let minutes = number(minutes).unwrap_or(0);
    number(degrees).is_some_and(|degrees| minutes <= 59 && (degrees < most || (degrees == most && minutes == 0)))
}

/// What lies behind a speed.
fn past_speed(bytes: &[u8]) -> Option<&[u8]> {
    match bytes.first()? {
        b'K' | b'N' => past_digits(bytes, 4),
        b'M' => past_digits(bytes, 3),
        _ => None,
    }
}

/// What lies behind a level other than VFR.
fn past_level(bytes: &[u8]) -> Option<&[u8]> {
    match bytes.first()? {
        b'F' | b'A' => past_digits(bytes, 3),
        b'S' | b'M' => past_digits(bytes, 4),
        _ => None,
    }
}

fn past_digits(bytes: &[u8], count: usize) -> Option<&[u8]> {
    let digits = bytes.get(1..=count)?;
    some_of(digits, count, is_digit).then(|| &bytes[count + 1..])
}

fn is_level(bytes: &[u8]) -> bool {
    past_level(bytes).is_some_and(<[u8]>::is_empty)
}

fn is_level_or_vfr(bytes: &[u8]) -> bool {
    bytes == b"VFR" || is_level(bytes)
}
