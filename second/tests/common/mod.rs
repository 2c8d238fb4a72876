//! What the tests share.

#![allow(dead_code)]

use second::programs::{desk, listing, mark};

/// The listing's output for an input.
pub fn list(input: &[u8]) -> String {
    let mut out = Vec::new();
    listing(input, &mut out).expect("memory takes all output");
    String::from_utf8(out).expect("an accepted spelling is ASCII")
}

/// The listing's output with marks.
pub fn marked(input: &[u8]) -> String {
    let mut out = Vec::new();
    mark(input, &mut out).expect("memory takes all output");
    String::from_utf8(out).expect("what is shown is ASCII")
}

/// The listing's one line for one piece.
pub fn line(piece: &[u8]) -> String {
    let lines = list(piece);
    assert_eq!(lines.matches('\n').count(), 1, "one line for {lines:?}");
    lines.trim_end_matches('\n').to_string()
}

/// The desk's lines for an input.
pub fn desk_lines(input: &str) -> Vec<String> {
    let mut out = Vec::new();
    desk(input.as_bytes(), &mut out).expect("memory takes all output");
    String::from_utf8(out).expect("a strip is ASCII").lines().map(str::to_string).collect()
}
