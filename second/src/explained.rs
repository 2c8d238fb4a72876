//! Number 10: a ZZZZ or AFIL in a plan must be explained in field 18.

use crate::alphabet::at_oblique;
use crate::forms::Form;

/// The leftmost field of a plan that holds an unexplained ZZZZ or AFIL, and the key that explains it.
pub fn unexplained(
    aircraft: &[u8],
    departure: &[u8],
    destination: &[u8],
    other: &[u8],
) -> Option<(Form, &'static str)> {
    let told = |key: &str| other.split(|&b| b == b' ').filter_map(at_oblique).any(|(own, _)| own == key.as_bytes());
    let fields = [
        (Form::F9, "TYP", is_unlisted_type(aircraft)),
        (Form::F13, "DEP", departure.starts_with(b"ZZZZ") || departure.starts_with(b"AFIL")),
        (Form::F16Plan, "DEST", destination.starts_with(b"ZZZZ")),
        (Form::F16Plan, "ALTN", has_unlisted_alternate(destination)),
    ];
    let mut due = fields.into_iter().filter(|(_, _, due)| *due).map(|(form, key, _)| (form, key));
    due.find(|(_, key)| !told(key))
}

/// ZZZZ with or without a number before it.
fn is_unlisted_type(aircraft: &[u8]) -> bool {
    let digits = aircraft.iter().take_while(|b| b.is_ascii_digit()).count();
    aircraft[digits..].starts_with(b"ZZZZ/")
}

fn has_unlisted_alternate(destination: &[u8]) -> bool {
    destination.split(|&b| b == b' ').skip(1).any(|alternate| alternate == b"ZZZZ")
}
