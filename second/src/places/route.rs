//! Field 15.

use super::trail::Trail;
use crate::alphabet::{is_digit, is_sign};
use crate::route::is_indicator;

/// What may stand behind a point.
type Behind = fn(&mut Trail) -> bool;

/// Speed and level, then one or more words.
pub fn route(trail: &mut Trail) -> bool {
    let opened = speed(trail) && (trail.way(level) || trail.word(b"VFR"));
    let mut fits = opened && trail.byte(b' ') && word(trail);
    while fits && trail.byte(b' ') {
        fits = word(trail);
    }
    fits
}

/// One word, in each of its ways.
fn word(trail: &mut Trail) -> bool {
    trail.way(last) || trail.way(name) || trail.way(|trail| point(trail, alone_or_with_change)) || trail.way(climb)
}

/// `T`, behind which nothing stands.
fn last(trail: &mut Trail) -> bool {
    trail.byte(b'T') && trail.ended()
}

/// 2 to 7 signs without a coordinate's shape. The indicators are among them.
fn name(trail: &mut Trail) -> bool {
    let start = trail.at();
    if !trail.some(2, 6, is_sign) {
        return false;
    }
    let shaped = is_coordinate_but_last(trail.since(start));
    let seventh = |byte| is_sign(byte) && !(shaped && matches!(byte, b'E' | b'W'));
    trail.word_ended() || (trail.step(seventh) && trail.word_ended())
}

/// 99N999, so that E or W would make it a coordinate.
fn is_coordinate_but_last(signs: &[u8]) -> bool {
    matches!(signs, [a, b, b'N' | b'S', c, d, e] if [a, b, c, d, e].into_iter().all(|&sign| is_digit(sign)))
}

fn alone_or_with_change(trail: &mut Trail) -> bool {
    trail.word_ended() || (trail.byte(b'/') && speed(trail) && level(trail) && trail.word_ended())
}

fn climb(trail: &mut Trail) -> bool {
    trail.word(b"C/") && point(trail, between_levels)
}

fn between_levels(trail: &mut Trail) -> bool {
    let lower = trail.byte(b'/') && speed(trail) && level(trail);
    lower && (trail.way(level) || trail.word(b"PLUS")) && trail.word_ended()
}

/// A point in each of its ways, and what stands behind it.
fn point(trail: &mut Trail, behind: Behind) -> bool {
    let coordinate = trail.way(|trail| degrees(trail) && behind(trail))
        || trail.way(|trail| degrees_and_minutes(trail) && behind(trail));
    coordinate
        || (2..=5).any(|signs| trail.way(|trail| with_bearing(trail, signs) && behind(trail)))
        || trail.way(|trail| short_name(trail) && behind(trail))
}

/// 99N999W.
fn degrees(trail: &mut Trail) -> bool {
    let latitude = trail.number(2, 0, 90).is_some() && trail.step(is_north_or_south);
    latitude && trail.number(3, 0, 180).is_some() && trail.step(is_east_or_west)
}

/// 9999N99999W; at the most degrees the minutes are 00.
fn degrees_and_minutes(trail: &mut Trail) -> bool {
    let latitude = with_minutes(trail, 2, 90) && trail.step(is_north_or_south);
    latitude && with_minutes(trail, 3, 180) && trail.step(is_east_or_west)
}

fn with_minutes(trail: &mut Trail, width: u32, most: u32) -> bool {
    let Some(degrees) = trail.number(width, 0, most) else { return false };
    trail.number(2, 0, if degrees == most { 0 } else { 59 }).is_some()
}

fn is_north_or_south(byte: u8) -> bool {
    matches!(byte, b'N' | b'S')
}

fn is_east_or_west(byte: u8) -> bool {
    matches!(byte, b'E' | b'W')
}

/// So many signs, a bearing and a distance.
fn with_bearing(trail: &mut Trail, signs: usize) -> bool {
    trail.some(signs, signs, is_sign) && trail.number(3, 0, 360).is_some() && trail.some(3, 3, is_digit)
}

/// A name of at most 5 signs; an indicator is no point.
fn short_name(trail: &mut Trail) -> bool {
    let start = trail.at();
    trail.some(2, 5, is_sign) && !is_indicator(trail.since(start))
}

fn speed(trail: &mut Trail) -> bool {
    match trail.step(|byte| matches!(byte, b'K' | b'N')) {
        true => trail.some(4, 4, is_digit),
        false => trail.byte(b'M') && trail.some(3, 3, is_digit),
    }
}

/// A level other than VFR.
fn level(trail: &mut Trail) -> bool {
    match trail.step(|byte| matches!(byte, b'F' | b'A')) {
        true => trail.some(3, 3, is_digit),
        false => trail.step(|byte| matches!(byte, b'S' | b'M')) && trail.some(4, 4, is_digit),
    }
}
