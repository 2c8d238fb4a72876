//! Reading a whole message: numbers 1 to 11.

use std::ops::Range;

use crate::alphabet::in_alphabet;
use crate::explained::unexplained;
use crate::forms::Form;
use crate::kind::{is_unread, Kind};
use crate::outline::{counts, form_at};
use crate::places::misfit;
use crate::refusal::Refusal;
use crate::words::Words;

/// The most bytes that a message may have.
pub const LONGEST: usize = 1800;

/// The most fields that a message may have.
const MOST_FIELDS: usize = 13;

/// The fields of a CHG before its entries.
const HEAD_OF_CHG: usize = 5;

/// An accepted message.
#[derive(Clone, Debug, PartialEq, Eq)]
pub struct Accepted {
    /// Its type.
    pub kind: Kind,
    /// Its canonical spelling.
    pub spelling: Vec<u8>,
}

/// Reads a message into at most `room` bytes of spelling.
pub fn read(msg: &[u8], room: usize) -> Result<Accepted, Refusal> {
    let reading = Reading::of(msg)?;
    if reading.kind == Kind::Fpl {
        reading.check_explained()?;
    }
    if reading.spelling.len() > room {
        return Err(Refusal::bare(11));
    }
    Ok(Accepted { kind: reading.kind, spelling: reading.spelling })
}

/// A field that fits: where it stands as sent, and where its content is spelled.
#[derive(Clone, Default)]
struct Field {
    /// The field's type; for an entry of field 22 its number.
    number: u32,
    place: usize,
    content: Range<usize>,
}

/// A message whose fields all fit; number 10 is not asked yet.
pub struct Reading {
    pub kind: Kind,
    pub spelling: Vec<u8>,
    fields: [Field; MOST_FIELDS],
    count: usize,
}

impl Reading {
    /// Numbers 1 to 9.
    pub fn of(msg: &[u8]) -> Result<Reading, Refusal> {
        let (kind, count) = check_outline(msg)?;
        let mut words = Words::of(msg);
        let mut fields: [Field; MOST_FIELDS] = Default::default();
        for position in 0..count {
            let form = form_at(kind, position, count);
            let (before, rest) = fields.split_at_mut(position);
            let field = take_field(form, before, &mut words)?;
            if let Some(slot) = rest.first_mut() {
                *slot = field;
            }
        }
        words.step_over(b')');
        Ok(Reading { kind, spelling: words.into_spelling(), fields, count })
    }

    /// Number 10, at the field's place as sent.
    fn check_explained(&self) -> Result<(), Refusal> {
        let [nine, thirteen, sixteen, eighteen] = [9, 13, 16, 18].map(|number| self.own(number));
        match unexplained(nine, thirteen, sixteen, eighteen) {
            Some((form, _)) => Err(Refusal::new(10, form.number(), self.place(form.number()))),
            None => Ok(()),
        }
    }

    /// Whether this is an FPL that lacks nothing.
    pub fn is_plan(&self) -> bool {
        self.kind == Kind::Fpl && self.check_explained().is_ok()
    }

    /// The content of the message's own field of this type; empty if it has none.
    pub fn own(&self, number: u32) -> &[u8] {
        self.own_field(number).map_or(b"", |field| &self.spelling[field.content.clone()])
    }

    /// Where that content stands in the spelling.
    pub fn own_range(&self, number: u32) -> Range<usize> {
        self.own_field(number).map_or(0..0, |field| field.content.clone())
    }

    /// Where the content of the entry with this number stands in the spelling.
    pub fn entry_range(&self, number: u32) -> Option<Range<usize>> {
        let mut entries = self.fields[..self.count].iter().skip(self.own_count());
        entries.find(|field| field.number == number).map(|field| field.content.clone())
    }

    /// The content of that entry.
    pub fn entry(&self, number: u32) -> Option<&[u8]> {
        self.entry_range(number).map(|range| &self.spelling[range])
    }

    fn place(&self, number: u32) -> usize {
        self.own_field(number).map_or(0, |field| field.place)
    }

    fn own_field(&self, number: u32) -> Option<&Field> {
        self.fields[..self.own_count()].iter().find(|field| field.number == number)
    }

    /// The fields before a CHG's entries; all fields of the others.
    fn own_count(&self) -> usize {
        if self.kind == Kind::Chg {
            HEAD_OF_CHG
        } else {
            self.count
        }
    }
}

/// Takes one field with the `(` or `-` before it: numbers 7, 8 and 9. The place of 8 and 9 is the `-`, that of 7 in the field.
fn take_field(form: Form, before: &[Field], words: &mut Words) -> Result<Field, Refusal> {
    let (sent, place) = (words.sent(), words.place());
    words.step_over(if form == Form::F3 { b'(' } else { b'-' });
    let (number, content) = take_content(form, before, words).map_err(|number| {
        let place = if number == 7 { place_of_misfit(form, sent, place + 1) } else { place };
        Refusal::new(number, form.number(), place)
    })?;
    Ok(Field { number, place, content })
}

/// The field's number, or that of the field that an entry names, and where its content is spelled; else 7, 8 or 9.
fn take_content(form: Form, before: &[Field], words: &mut Words) -> Result<(u32, Range<usize>), u8> {
    let content_form = if form == Form::F22 { take_entry_number(before, words)? } else { form };
    let start = words.spelled();
    let fits = content_form.take(words);
    fits.then(|| (content_form.number(), start..words.spelled())).ok_or(7)
}

fn place_of_misfit(form: Form, sent: &[u8], start: usize) -> usize {
    misfit(form, sent, start).expect("a field that does not fit goes wrong somewhere")
}

/// The form that an entry's number asks for; else 7 (no readable number), 8 or 9.
fn take_entry_number(before: &[Field], words: &mut Words) -> Result<Form, u8> {
    let form = Form::of_entry(words.entry_number().ok_or(7)?).ok_or(8)?;
    let mut entries = before.iter().skip(HEAD_OF_CHG);
    if entries.any(|field| field.number == form.number()) {
        return Err(9);
    }
    Ok(form)
}

/// Numbers 1 to 6: the type, and how many fields there are.
fn check_outline(msg: &[u8]) -> Result<(Kind, usize), Refusal> {
    if msg.len() > LONGEST {
        return Err(Refusal::new(1, 0, LONGEST));
    }
    let hyphens = check_bytes(msg)?;
    let kind = check_type(msg.get(1..4).unwrap_or_default())?;
    let count = hyphens + 1;
    let (least, greatest) = counts(kind);
    if count < least {
        return Err(Refusal::new(6, 0, msg.len() - 1));
    }
    if count > greatest {
        return Err(Refusal::new(6, 0, hyphen_place(msg, greatest)));
    }
    Ok((kind, count))
}

/// Numbers 2 and 3 in one go over the message; gives back the count of hyphens.
fn check_bytes(msg: &[u8]) -> Result<usize, Refusal> {
    if msg.first() != Some(&b'(') {
        return Err(Refusal::new(2, 0, 0));
    }
    let (mut hyphens, mut strange) = (0, None);
    for (place, &byte) in msg.iter().enumerate().skip(1) {
        match byte {
            b'-' => hyphens += 1,
            b')' if place + 1 == msg.len() => {
                return strange.map_or(Ok(hyphens), |place| Err(Refusal::new(3, 0, place)));
            }
            b'(' | b')' => return Err(Refusal::new(2, 0, place)),
            _ if !in_alphabet(byte) => strange = strange.or(Some(place)),
            _ => {}
        }
    }
    Err(Refusal::new(2, 0, msg.len()))
}

/// Numbers 4 and 5.
fn check_type(name: &[u8]) -> Result<Kind, Refusal> {
    let unread = if is_unread(name) { 5 } else { 4 };
    Kind::named(name).ok_or(Refusal::new(unread, 3, 0))
}

/// The place of the hyphen with this number, counted from 1.
fn hyphen_place(msg: &[u8], number: usize) -> usize {
    let mut places = msg.iter().enumerate().filter(|(_, &b)| b == b'-').map(|(place, _)| place);
    places.nth(number - 1).unwrap_or(0)
}
