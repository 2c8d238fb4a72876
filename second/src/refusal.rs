//! The answer to a message that is not taken.

use std::fmt;

/// Document 01's number, field and place.
#[derive(Clone, Copy, Debug, PartialEq, Eq)]
pub struct Refusal {
    /// 1 to 20.
    pub number: u8,
    /// The field's type, or 0.
    pub field: u32,
    /// The place in the message as sent, or 0.
    pub place: usize,
}

impl Refusal {
    pub(crate) fn new(number: u8, field: u32, place: usize) -> Self {
        Refusal { number, field, place }
    }

    /// A refusal that names no field and no place.
    pub(crate) fn bare(number: u8) -> Self {
        Refusal::new(number, 0, 0)
    }
}

impl fmt::Display for Refusal {
    fn fmt(&self, f: &mut fmt::Formatter<'_>) -> fmt::Result {
        write!(f, "NO {} {} {}", self.number, self.field, self.place)
    }
}
