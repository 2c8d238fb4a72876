//! Damage: to a draft's fields, to the bytes of a message, to a content.

use super::dice::Dice;
use super::drafts::Draft;
use crate::message::LONGEST;

/// Bytes that damage puts in: of the alphabet mostly.
const PUT_IN: &[u8] = b"ABCEFIJMNOPRSTVXZ0123456789  \r\n()-?:.,'=/+//--a\t\0\x80\xff*";

/// Damages a message before it is written out.
pub fn draft(dice: &mut Dice, draft: &mut Draft) {
    let kind = draft.first().and_then(|three| three.get(..3)).map(<[u8]>::to_vec);
    match kind.as_deref() {
        Some(b"CHG") if dice.chance(40) => entry(dice, draft),
        Some(b"FPL") if dice.chance(30) => unname(dice, draft),
        _ => any_field(dice, draft),
    }
}

fn any_field(dice: &mut Dice, draft: &mut Draft) {
    match dice.below(10) {
        _ if dice.chance(3) => lengthen(dice, draft, LONGEST + 1),
        0 => swap(dice, draft),
        1 => drop_field(dice, draft),
        2 => add_field(dice, draft),
        3 => change_type(dice, draft),
        4 => replace_four_digits(dice, draft),
        5 => lead_with_white(dice, draft),
        6 => spoil_code(draft),
        7 => draft.truncate(dice.from_to(1, draft.len())),
        _ => in_some_field(dice, draft, content),
    }
}

fn entry(dice: &mut Dice, draft: &mut Draft) {
    match dice.below(10) {
        0..=3 => change_entry_number(dice, draft),
        4..=6 => repeat_entry(dice, draft),
        _ => cut_destination(dice, draft),
    }
}

/// Damages a message as written.
pub fn bytes(dice: &mut Dice, written: &mut Vec<u8>) {
    match dice.below(12) {
        // A relay cut the message; the next one's head may become its tail.
        0 => written.truncate(dice.below(written.len())),
        1 | 2 => {
            written.truncate(dice.below(written.len()));
            written.push(b')');
        }
        3 => drop(written.drain(..dice.below(written.len()))),
        4 => {
            let twice = written.clone();
            written.splice(1..1, twice);
        }
        _ => {
            for _ in 0..dice.from_to(1, 2) {
                content(dice, written);
            }
        }
    }
}

/// Damages a content: a byte or word changed, put in, dropped or doubled.
pub fn content(dice: &mut Dice, content: &mut Vec<u8>) {
    let place = dice.below(content.len());
    match dice.below(7) {
        0 | 1 => content[place..].iter_mut().take(1).for_each(|byte| *byte = *dice.pick(PUT_IN)),
        2 | 3 => content.insert(place, *dice.pick(PUT_IN)),
        4 => drop(content.drain(place..content.len().min(place + 1))),
        5 => {
            let end = content.len().min(place + dice.from_to(1, 6));
            content.drain(place..end);
        }
        _ => {
            let end = content.len().min(place + dice.from_to(1, 6));
            let twice = content[place..end].to_vec();
            content.splice(place..place, twice);
        }
    }
}

/// Damages one field deep in its form, a long one more often: the type stays, and an entry's number mostly.
pub fn deep(dice: &mut Dice, draft: &mut Draft) {
    let position = if dice.chance(30) { dice.below(draft.len()) } else { position_of_some_byte(dice, draft) };
    let has_entries = draft.first().is_some_and(|three| three.starts_with(b"CHG"));
    let Some(field) = draft.get_mut(position) else { return };
    let head = match position {
        0 => 3,
        5.. if has_entries && dice.chance(80) => field.iter().position(|&b| b == b'/').map_or(0, |oblique| oblique + 1),
        _ => 0,
    };
    let mut form = field.split_off(head.min(field.len()));
    for _ in 0..dice.from_to(1, 1 + form.len() / 40) {
        one_byte(dice, &mut form);
    }
    field.extend(form);
}

/// The position of the field that holds one of all bytes.
fn position_of_some_byte(dice: &mut Dice, draft: &Draft) -> usize {
    let mut byte = dice.below(draft.iter().map(Vec::len).sum());
    let holds = |field: &Vec<u8>| {
        let holds = byte < field.len();
        byte = byte.saturating_sub(field.len());
        holds
    };
    draft.iter().position(holds).unwrap_or(0)
}

/// One byte changed to another of its sort or to any, exchanged with the next, dropped or doubled; white space put in; or the rest cut off.
fn one_byte(dice: &mut Dice, content: &mut Vec<u8>) {
    let place = dice.below(content.len());
    let Some(&byte) = content.get(place) else {
        content.push(*dice.pick(PUT_IN));
        return;
    };
    let next = (place + 1).min(content.len() - 1);
    match dice.below(9) {
        0..=2 => content[place] = *dice.pick(same_sort(byte)),
        3 => content[place] = *dice.pick(PUT_IN),
        4 => content.swap(place, next),
        5 => drop(content.remove(place)),
        6 => content.insert(place, byte),
        7 => drop(content.splice(place..place, dice.pick(&[" ", "  ", "\r\n", " \n "]).bytes())),
        _ => content.truncate(place),
    }
}

/// Bytes that a byte may be mistaken for.
fn same_sort(byte: u8) -> &'static [u8] {
    match byte {
        b'0'..=b'9' => b"0123456789",
        b'A'..=b'Z' => b"ABCDEFGHIJKLMNOPQRSTUVWXYZ",
        _ => b" /.,?+",
    }
}

/// Makes a draft so long that the message written has at least so many bytes.
pub fn lengthen(dice: &mut Dice, draft: &mut Draft, least: usize) {
    let word = *dice.pick(&[" LONG", " REMARK", " NO OBLIQUE IN IT"]);
    let Some((last, others)) = draft.split_last_mut() else { return };
    if last == b"0" {
        last.splice(.., *b"RMK/X");
    }
    // One byte stands before each field, and `)` behind the last.
    let before: usize = others.iter().map(|field| 1 + field.len()).sum();
    while before + 1 + last.len() + 1 < least {
        last.extend(word.bytes());
    }
}

fn in_some_field(dice: &mut Dice, draft: &mut Draft, damage: fn(&mut Dice, &mut Vec<u8>)) {
    let position = dice.below(draft.len());
    if let Some(field) = draft.get_mut(position) {
        damage(dice, field);
    }
}

fn swap(dice: &mut Dice, draft: &mut Draft) {
    let (one, other) = (dice.below(draft.len()), dice.below(draft.len()));
    draft.swap(one, other);
}

fn drop_field(dice: &mut Dice, draft: &mut Draft) {
    draft.remove(dice.below(draft.len()));
}

fn add_field(dice: &mut Dice, draft: &mut Draft) {
    let again = dice.pick(draft).clone();
    for _ in 0..dice.from_to(1, 2) {
        draft.insert(dice.from_to(1, draft.len()), again.clone());
    }
}

fn change_type(dice: &mut Dice, draft: &mut Draft) {
    let types: [&[u8]; 20] = [
        b"ALR", b"RCF", b"CPL", b"EST", b"CDN", b"ACP", b"LAM", b"FPL", b"CHG", b"CNL", b"DLA", b"DEP", b"ARR", b"RQP",
        b"RQS", b"SPL", b"XXX", b"CN", b" CNL", b"",
    ];
    let changed = *dice.pick(&types);
    if let Some(first) = draft.first_mut() {
        first.splice(..3.min(first.len()), changed.iter().copied());
    }
}

/// A time that is no time, of day at least, wherever four digits stand.
fn replace_four_digits(dice: &mut Dice, draft: &mut Draft) {
    let wrong = **dice.pick(&[b"2400", b"2460", b"2360", b"0060", b"9999"]);
    let mut fields: Vec<usize> = (0..draft.len()).collect();
    dice.shuffle(&mut fields);
    for position in fields {
        let field = &mut draft[position];
        let place = field.windows(4).rposition(|four| four.iter().all(u8::is_ascii_digit));
        if let Some(place) = place {
            field.splice(place..place + 4, wrong);
            return;
        }
    }
}

fn lead_with_white(dice: &mut Dice, draft: &mut Draft) {
    in_some_field(dice, draft, |dice, field| {
        field.insert(0, b' ');
        if dice.chance(30) {
            field.truncate(1);
        }
    });
}

/// A squawk with an 8 in it.
fn spoil_code(draft: &mut Draft) {
    if let Some(seven) = draft.get_mut(1) {
        if !seven.contains(&b'/') {
            seven.extend(b"/A7777");
        }
        seven.pop();
        seven.push(b'8');
    }
}

fn change_entry_number(dice: &mut Dice, draft: &mut Draft) {
    let numbers: [&[u8]; 14] =
        [b"07", b"0", b"14", b"99", b"123", b"3", b"19", b"22", b"8 ", b"", b"16", b"7", b"08", b" 8"];
    let changed = *dice.pick(&numbers);
    if let Some(entry) = draft.get_mut(5) {
        if let Some(oblique) = entry.iter().position(|&b| b == b'/') {
            entry.splice(..oblique, changed.iter().copied());
        }
    }
}

fn repeat_entry(dice: &mut Dice, draft: &mut Draft) {
    if draft.len() > 5 {
        let position = dice.from_to(5, draft.len() - 1);
        let mut again = draft[position].clone();
        if dice.chance(30) {
            content(dice, &mut again);
        }
        draft.push(again);
    }
}

/// An entry of 16, mostly cut off in its aerodrome or elapsed time; now and then another before it.
fn cut_destination(dice: &mut Dice, draft: &mut Draft) {
    let mut entry = b"16/EDDN0100 EDDK".to_vec();
    entry.truncate(dice.from_to(b"16/ED".len(), b"16/EDDN0100 E".len()));
    if dice.chance(25) {
        draft.push(b"16/EDDM".to_vec());
        draft.push(entry);
        return;
    }
    match draft.iter().skip(5).position(|entry| entry.starts_with(b"16/")) {
        Some(position) => draft[5 + position] = entry,
        None => draft.push(entry),
    }
}

/// ZZZZ in a field of a plan that may have to explain it.
fn unname(dice: &mut Dice, draft: &mut Draft) {
    let position = *dice.pick(&[3, 5, 7, 7]);
    let Some(field) = draft.get_mut(position) else { return };
    if position == 3 {
        *field = dice.pick(&["ZZZZ/M", "3ZZZZ/L", "12ZZZZ/H"]).as_bytes().to_vec();
        return;
    }
    let places: Vec<usize> = (0..field.len()).filter(|&place| is_four_letters_at(field, place)).collect();
    if !places.is_empty() {
        let place = *dice.pick(&places);
        let name = if position == 5 { *dice.pick(&[*b"ZZZZ", *b"AFIL"]) } else { *b"ZZZZ" };
        field.splice(place..place + 4, name);
    }
}

fn is_four_letters_at(field: &[u8], place: usize) -> bool {
    let opens = place == 0 || field[place - 1] == b' ';
    opens && field.get(place..place + 4).is_some_and(|four| four.iter().all(u8::is_ascii_uppercase))
}

#[test]
fn a_lengthened_message_has_its_length() {
    let mut dice = Dice::new(1);
    for last in ["0", "RMK/A REMARK OF SOME LENGTH", ""] {
        for least in [0, 60, 61, 62, 63, 1740, 1801] {
            let mut draft = ["CNL", "ABC12", "EHAM0930", "EDDF", last].map(|field| field.as_bytes().to_vec()).to_vec();
            lengthen(&mut dice, &mut draft, least);
            let length = super::drafts::plain(&draft).len();
            assert!(least <= length && length < least.max(52) + 18, "{last} {least}: {length}");
        }
    }
}
