//! Which fields each message type has, in order.

use crate::forms::Form::{self, *};
use crate::kind::Kind;

/// The least and the greatest count of fields.
pub fn counts(kind: Kind) -> (usize, usize) {
    match kind {
        Kind::Fpl => (9, 9),
        Kind::Chg => (6, 13),
        Kind::Arr => (4, 5),
        Kind::Spl => (6, 6),
        _ => (5, 5),
    }
}

/// The form of the field at a position, in a message of `count` fields.
pub fn form_at(kind: Kind, position: usize, count: usize) -> Form {
    let forms: &[Form] = match kind {
        Kind::Fpl => &[F3, F7, F8, F9, F10, F13, F15, F16Plan, F18],
        Kind::Arr if count == 4 => &[F3, F7, F13, F17],
        Kind::Arr => &[F3, F7, F13, F16, F17],
        Kind::Rqp => &[F3, F7, F13Open, F16, F18],
        Kind::Spl => &[F3, F7, F13, F16Plan, F18, F19],
        _ => &[F3, F7, F13, F16, F18],
    };
    // Only a CHG goes on behind its list, with entries.
    forms.get(position).copied().unwrap_or(F22)
}
