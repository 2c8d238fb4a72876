//! Codes joined without spaces, as in field 10 and in PBN/.

/// How many codes there are, if there is one or more, all are known and none stands twice.
///
/// A code is a letter and, if one follows, a digit; a code without digit is given digit 0.
pub fn codes(bytes: &[u8], known: fn(u8, u8) -> bool) -> Option<usize> {
    let mut seen = [0u16; 26];
    let mut rest = bytes;
    let mut count = 0;
    while let [letter, behind @ ..] = rest {
        let (digit, next) = leading_digit(behind);
        let bit = 1 << digit;
        let others = seen.get_mut(usize::from(letter.checked_sub(b'A')?))?;
        if !known(*letter, digit) || *others & bit != 0 {
            return None;
        }
        *others |= bit;
        count += 1;
        rest = next;
    }
    (count > 0).then_some(count)
}

/// The digit 1 to 9 that bytes begin with, or 0 for none, and what follows.
fn leading_digit(bytes: &[u8]) -> (u8, &[u8]) {
    match bytes {
        [digit @ b'1'..=b'9', rest @ ..] => (digit - b'0', rest),
        _ => (0, bytes),
    }
}
