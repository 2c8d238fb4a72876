//! Drafts of messages, and writing one out.

use super::dice::Dice;

/// A message before it is written out: its fields, the first with the type.
pub type Draft = Vec<Vec<u8>>;

/// With runs of white space where they may stand: for a space, and before `-` and `)`.
pub fn write(dice: &mut Dice, draft: &Draft) -> Vec<u8> {
    if dice.chance(50) {
        return plain(draft);
    }
    let mut written = Vec::new();
    for (position, field) in draft.iter().enumerate() {
        written.push(if position == 0 { b'(' } else { b'-' });
        for &byte in field {
            if byte == b' ' {
                run(dice, 1, &mut written);
            } else {
                written.push(byte);
            }
        }
        run(dice, 0, &mut written);
    }
    written.push(b')');
    written
}

/// As the canonical spelling has it.
pub fn plain(draft: &Draft) -> Vec<u8> {
    let mut written = draft.join(&b'-');
    written.insert(0, b'(');
    written.push(b')');
    written
}

fn run(dice: &mut Dice, least: usize, written: &mut Vec<u8>) {
    let length = if dice.chance(75) { least } else { dice.from_to(1, 4) };
    for _ in 0..length {
        written.push(*dice.pick(b"  \r\n"));
    }
}
