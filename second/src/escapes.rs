//! Bytes as printable text: a backslash and two hexadecimal digits stand for a byte.

const DIGITS: &[u8; 16] = b"0123456789abcdef";

/// The text of some bytes: a byte that is not printable, and the backslash, as an escape.
pub fn escaped(bytes: &[u8]) -> Vec<u8> {
    let mut text = Vec::with_capacity(bytes.len());
    for &byte in bytes {
        if is_plain(byte) {
            text.push(byte);
        } else {
            text.extend([b'\\', DIGITS[usize::from(byte / 16)], DIGITS[usize::from(byte % 16)]]);
        }
    }
    text
}

/// The bytes that a text stands for; `None` if an escape is bad or a byte is not printable.
pub fn unescaped(text: &[u8]) -> Option<Vec<u8>> {
    let mut bytes = Vec::with_capacity(text.len());
    let mut rest = text;
    while let [first, behind @ ..] = rest {
        let (byte, next) = match (first, behind) {
            (b'\\', [high, low, next @ ..]) => (16 * digit(*high)? + digit(*low)?, next),
            _ if is_plain(*first) => (*first, behind),
            _ => return None,
        };
        bytes.push(byte);
        rest = next;
    }
    Some(bytes)
}

/// A byte that stands for itself.
fn is_plain(byte: u8) -> bool {
    matches!(byte, b' '..=b'~') && byte != b'\\'
}

fn digit(byte: u8) -> Option<u8> {
    DIGITS.iter().position(|&digit| digit == byte).map(|value| value as u8)
}
