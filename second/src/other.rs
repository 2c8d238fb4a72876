//! Field 18.

use crate::alphabet::*;
use crate::codes::codes;
use crate::words::Words;

/// The keys in their order.
pub const KEYS: [&[u8]; 23] = [
    b"STS", b"PBN", b"NAV", b"COM", b"DAT", b"SUR", b"DEP", b"DEST", b"DOF", b"REG", b"EET", b"SEL", b"TYP", b"CODE",
    b"DLE", b"OPR", b"ORGN", b"PER", b"ALTN", b"RALT", b"TALT", b"RIF", b"RMK",
];

/// The words that STS may have.
pub const STATUSES: [&[u8]; 13] = [
    b"ALTRV", b"ATFMX", b"FFR", b"FLTCK", b"HAZMAT", b"HEAD", b"HOSP", b"HUM", b"MARSA", b"MEDEVAC", b"NONRVSM",
    b"SAR", b"STATE",
];

/// `0` alone, or items.
pub fn other_information(words: &mut Words) -> bool {
    let Some(first) = words.word() else { return false };
    first == b"0" || items(first, words)
}

/// A word with an oblique ends the item before it and begins the next; any other goes on with it.
fn items(first: &[u8], words: &mut Words) -> bool {
    let mut rank = None;
    let mut next = Some(first);
    while let Some(word) = next {
        let fits = match at_oblique(word) {
            Some((key, value)) => begins(&mut rank, key) && fits_key(key, value),
            None => rank.is_some_and(|rank: usize| !is_one_word(KEYS[rank]) && fits_key(KEYS[rank], word)),
        };
        if !fits {
            return false;
        }
        next = words.word();
    }
    true
}

/// Goes on to a key, which must stand behind the last one in the order.
fn begins(rank: &mut Option<usize>, key: &[u8]) -> bool {
    let found = KEYS.iter().position(|own| *own == key);
    let in_order = found > *rank;
    *rank = found;
    in_order
}

/// The date in a field 18 as spelled.
pub fn date_of(content: &[u8]) -> Option<&[u8]> {
    content.split(|&b| b == b' ').find_map(|word| word.strip_prefix(b"DOF/"))
}

/// A field 18 as spelled, with this date for its own, or put in at its place in the order of keys.
pub fn with_date(content: &[u8], date: &[u8]) -> Vec<u8> {
    let item = [b"DOF/", date].concat();
    if content == b"0" {
        return item;
    }
    let mut words: Vec<&[u8]> = content.split(|&b| b == b' ').filter(|word| !word.starts_with(b"DOF/")).collect();
    let place = words.iter().position(|word| stands_behind_date(word)).unwrap_or(words.len());
    words.insert(place, &item);
    words.join(&b' ')
}

/// Whether a word begins an item that stands behind the date.
fn stands_behind_date(word: &[u8]) -> bool {
    let rank = |key: &[u8]| KEYS.iter().position(|own| *own == key);
    at_oblique(word).is_some_and(|(key, _)| rank(key) > rank(b"DOF"))
}

/// The keys that have a single word.
pub fn is_one_word(key: &[u8]) -> bool {
    matches!(key, b"PBN" | b"DOF" | b"SEL" | b"CODE")
}

/// Whether a word may stand in an item with this key. No such word holds an oblique.
fn fits_key(key: &[u8], word: &[u8]) -> bool {
    match key {
        b"STS" => STATUSES.contains(&word),
        b"PBN" => codes(word, is_pbn_code).is_some_and(|count| count <= 8),
        b"DOF" => is_date(word),
        b"SEL" => is_four_letters(word),
        b"CODE" => word.len() == 6 && some_of(word, 6, |b| matches!(b, b'0'..=b'9' | b'A'..=b'F')),
        b"EET" | b"DLE" => is_place_and_elapsed(word),
        _ => is_text_word(word),
    }
}

/// A code of PBN.
pub fn is_pbn_code(letter: u8, digit: u8) -> bool {
    match letter {
        b'A' | b'L' => digit == 1,
        b'B' => matches!(digit, 1..=6),
        b'C' | b'D' | b'O' => matches!(digit, 1..=4),
        b'S' | b'T' => matches!(digit, 1 | 2),
        _ => false,
    }
}

/// YYMMDD in 2000 to 2099, where every fourth year is a leap year.
fn is_date(word: &[u8]) -> bool {
    let part = |from: usize| word.get(from..from + 2).and_then(number);
    let (Some(year), Some(month), Some(day)) = (part(0), part(2), part(4)) else { return false };
    word.len() == 6 && (1..=days_of(year, month)).contains(&day)
}

/// The days of a month; none if there is no such month.
pub fn days_of(year: u16, month: u16) -> u16 {
    match month {
        2 if year.is_multiple_of(4) => 29,
        2 => 28,
        4 | 6 | 9 | 11 => 30,
        1..=12 => 31,
        _ => 0,
    }
}

/// 6 to 15 signs, the last four an elapsed time.
fn is_place_and_elapsed(word: &[u8]) -> bool {
    word.len() >= 6 && some_of(word, 15, is_sign) && elapsed_time(&word[word.len() - 4..]).is_some()
}
