//! The alphabet, and document 01's names for parts of it.

const LETTER: u8 = 1;
const DIGIT: u8 = 2;
const MARK: u8 = 4;
const WHITE: u8 = 8;
const DIVIDER: u8 = 16;

/// The sort of each byte value; 0 for a byte that is not in the alphabet.
static SORTS: [u8; 256] = sorts();

const fn sorts() -> [u8; 256] {
    let mut sorts = [0; 256];
    let mut value = 0;
    while value < 256 {
        sorts[value] = match value as u8 {
            b'A'..=b'Z' => LETTER,
            b'0'..=b'9' => DIGIT,
            b'?' | b':' | b'.' | b',' | b'\'' | b'=' | b'+' => MARK,
            b' ' | b'\r' | b'\n' => WHITE,
            b'(' | b')' | b'-' | b'/' => DIVIDER,
            _ => 0,
        };
        value += 1;
    }
    sorts
}

fn is_of(byte: u8, sorts: u8) -> bool {
    SORTS[usize::from(byte)] & sorts != 0
}

/// A to Z.
pub fn is_letter(byte: u8) -> bool {
    is_of(byte, LETTER)
}

/// 0 to 9.
pub fn is_digit(byte: u8) -> bool {
    is_of(byte, DIGIT)
}

/// A letter or digit.
pub fn is_sign(byte: u8) -> bool {
    is_of(byte, LETTER | DIGIT)
}

/// Space, CR or LF.
pub fn is_white(byte: u8) -> bool {
    is_of(byte, WHITE)
}

/// A byte that may stand in a text word.
pub fn is_text(byte: u8) -> bool {
    is_of(byte, LETTER | DIGIT | MARK)
}

/// A byte that may stand in a message at all.
pub fn in_alphabet(byte: u8) -> bool {
    is_of(byte, !0)
}

/// One or more bytes, all of one sort, at most `most`.
pub fn some_of(bytes: &[u8], most: usize, sort: impl Fn(u8) -> bool) -> bool {
    (1..=most).contains(&bytes.len()) && bytes.iter().all(|&b| sort(b))
}

/// Exactly four letters.
pub fn is_four_letters(bytes: &[u8]) -> bool {
    bytes.len() == 4 && some_of(bytes, 4, is_letter)
}

/// A text word.
pub fn is_text_word(bytes: &[u8]) -> bool {
    some_of(bytes, usize::MAX, is_text)
}

/// The number that some digits say; `None` for other bytes or more than four.
pub fn number(digits: &[u8]) -> Option<u16> {
    some_of(digits, 4, is_digit).then(|| digits.iter().fold(0, |sum, d| sum * 10 + u16::from(d - b'0')))
}

/// The minutes of a time of day: four digits, hours to 23, minutes to 59.
pub fn time_of_day(time: &[u8]) -> Option<u16> {
    minutes(time).filter(|minutes| *minutes < 24 * 60)
}

/// The minutes of an elapsed time: four digits, hours to 99, minutes to 59.
pub fn elapsed_time(time: &[u8]) -> Option<u16> {
    minutes(time)
}

fn minutes(time: &[u8]) -> Option<u16> {
    let (hours, minutes) = time.split_at_checked(2)?;
    match (time.len(), number(hours)?, number(minutes)?) {
        (4, hours, minutes @ 0..=59) => Some(hours * 60 + minutes),
        _ => None,
    }
}

/// What stands before and behind the first oblique.
pub fn at_oblique(word: &[u8]) -> Option<(&[u8], &[u8])> {
    at_byte(word, b'/')
}

/// What stands before and behind the first space.
pub fn at_space(line: &[u8]) -> Option<(&[u8], &[u8])> {
    at_byte(line, b' ')
}

fn at_byte(bytes: &[u8], byte: u8) -> Option<(&[u8], &[u8])> {
    let place = bytes.iter().position(|&b| b == byte)?;
    Some((&bytes[..place], &bytes[place + 1..]))
}
