//! What the listing and the desk share: standard input, and how it is cut.

use std::io::{self, Read};

use crate::alphabet::is_white;

/// The most bytes that are read.
const MOST: usize = 65_536;

/// All of the input, or `None` if it is too long.
pub fn read_input(input: impl Read) -> io::Result<Option<Vec<u8>>> {
    let mut bytes = Vec::new();
    input.take(MOST as u64 + 1).read_to_end(&mut bytes)?;
    Ok((bytes.len() <= MOST).then_some(bytes))
}

/// Skips white space, then takes bytes up to the next `)` or the end; and so on.
pub fn pieces(input: &[u8]) -> impl Iterator<Item = &[u8]> {
    let mut rest = input;
    std::iter::from_fn(move || {
        let start = rest.iter().position(|&b| !is_white(b))?;
        let ahead = &rest[start..];
        let length = ahead.iter().position(|&b| b == b')').map_or(ahead.len(), |place| place + 1);
        let (piece, behind) = ahead.split_at(length);
        rest = behind;
        Some(piece)
    })
}
