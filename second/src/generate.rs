//! A deterministic generator of messages and field contents, valid, nearly valid and damaged.

pub mod boards;
pub mod bundles;
mod contents;
mod damage;
mod dice;
mod drafts;
pub mod neighbours;
pub mod offers;
pub mod probes;
pub mod questions;

use std::io::{self, Write};
use std::process::ExitCode;

use crate::forms::Form;
use crate::kind::Kind;
use crate::message::LONGEST;
use crate::programs::offer;
use crate::state::State;
use crate::strip::Updated;
use contents::Flight;
pub use dice::Dice;
use drafts::Draft;

/// One piece for the listing: a message, valid one time in two at least.
pub fn piece(dice: &mut Dice) -> Vec<u8> {
    use Kind::*;
    let kind = *dice.pick(&[Fpl, Fpl, Fpl, Chg, Chg, Chg, Spl, Spl, Arr, Arr, Cnl, Dla, Dep, Rqp, Rqs]);
    let flight = Flight::any(dice);
    offered(dice, kind, &flight)
}

/// A valid message of this type.
pub fn valid(dice: &mut Dice, kind: Kind) -> Vec<u8> {
    let flight = Flight::any(dice);
    let draft = contents::draft(dice, kind, &flight);
    drafts::write(dice, &draft)
}

/// Valid one time in two, else damaged.
fn offered(dice: &mut Dice, kind: Kind, flight: &Flight) -> Vec<u8> {
    if dice.chance(50) {
        let draft = contents::draft(dice, kind, flight);
        return drafts::write(dice, &draft);
    }
    damaged(dice, kind, flight)
}

/// Damaged while it is made, before it is written out, as written, or mostly deep in one field; now and then valid all the same.
fn damaged(dice: &mut Dice, kind: Kind, flight: &Flight) -> Vec<u8> {
    match dice.below(8) {
        0 | 1 => {
            let percent = *dice.pick(&[1, 3, 8, 15]);
            let draft = dice.wildly(percent, |dice| contents::draft(dice, kind, flight));
            drafts::write(dice, &draft)
        }
        2 | 3 => {
            let mut draft = contents::draft(dice, kind, flight);
            damage::draft(dice, &mut draft);
            drafts::write(dice, &draft)
        }
        4 => {
            let draft = contents::draft(dice, kind, flight);
            let mut written = drafts::write(dice, &draft);
            damage::bytes(dice, &mut written);
            written
        }
        _ => damaged_deep(dice, kind, flight),
    }
}

/// Damaged deep in one field.
fn damaged_deep(dice: &mut Dice, kind: Kind, flight: &Flight) -> Vec<u8> {
    let mut draft = contents::draft(dice, kind, flight);
    damage::deep(dice, &mut draft);
    drafts::write(dice, &draft)
}

/// The name of a form and a content for it: valid, damaged while it is made, or damaged afterwards.
pub fn form_and_content(dice: &mut Dice) -> (&'static str, Vec<u8>) {
    let named = if dice.chance(40) { &Form::NAMED[10..] } else { &Form::NAMED[..] };
    let (name, form) = if dice.chance(15) { ("15", Form::F15) } else { *dice.pick(named) };
    let content = match dice.below(10) {
        0..=3 => contents::content(dice, form),
        4..=7 => {
            let percent = *dice.pick(&[1, 3, 6, 15, 25]);
            dice.wildly(percent, |dice| contents::content(dice, form))
        }
        _ => {
            let mut content = contents::content(dice, form);
            damage::content(dice, &mut content);
            content
        }
    };
    (name, content)
}

/// A run of messages for the desk: a plan, then messages that are mostly for its flight.
pub struct DeskRun {
    held: Option<Updated>,
}

impl DeskRun {
    /// A run that has no strip yet.
    pub fn new() -> Self {
        DeskRun { held: None }
    }

    /// The next message; the run follows the strip, so as to be for its flight.
    pub fn next(&mut self, dice: &mut Dice) -> Vec<u8> {
        let message = match &self.held {
            None => long_plan(dice),
            Some(held) => {
                let flight = Flight::of_strip(dice, &held.strip);
                let kinds = kinds_for(dice, held.state);
                match *dice.pick(kinds) {
                    Kind::Chg if dice.chance(15) => long_change(dice, &flight),
                    kind => offered(dice, kind, &flight),
                }
            }
        };
        self.follow(&message);
        message
    }

    fn follow(&mut self, message: &[u8]) {
        if let Ok(updated) = offer(&self.held, message) {
            self.held = Some(updated);
        }
    }
}

impl Default for DeskRun {
    fn default() -> Self {
        DeskRun::new()
    }
}

/// Mostly types that the state allows and that leave it as it is.
fn kinds_for(dice: &mut Dice, state: State) -> &'static [Kind] {
    use Kind::*;
    match state {
        _ if dice.chance(3) => &Kind::ALL,
        State::Filed => &[Chg, Chg, Dla],
        State::Departed { .. } => &[Chg, Chg, Chg, Chg, Chg, Dla],
        State::Arrived { .. } | State::Cancelled => &[Chg, Cnl, Dla, Dep, Arr],
    }
}

/// A plan, now and then one that leaves little room below 1,800 bytes.
fn long_plan(dice: &mut Dice) -> Vec<u8> {
    let flight = Flight::any(dice);
    let mut draft = contents::draft(dice, Kind::Fpl, &flight);
    if dice.chance(25) {
        end_with_remark(&mut draft);
        damage::lengthen(dice, &mut draft, LONGEST - 60);
    }
    drafts::plain(&draft)
}

/// Words put behind field 18 go to its remark.
fn end_with_remark(draft: &mut Draft) {
    if let Some(eighteen) = draft.last_mut() {
        if eighteen != b"0" && !eighteen.windows(4).any(|part| part == b"RMK/") {
            eighteen.extend(b" RMK/X");
        }
    }
}

/// A CHG with a long last entry, which may make the plan too long.
fn long_change(dice: &mut Dice, flight: &Flight) -> Vec<u8> {
    let mut draft = contents::draft(dice, Kind::Chg, flight);
    let least = dice.from_to(LONGEST / 2, LONGEST - 60);
    damage::lengthen(dice, &mut draft, least);
    drafts::plain(&draft)
}

/// What the generating programs share: `PROGRAM SEED COUNT`, each thing made on a line.
pub fn write_lines(program: &str, make: impl FnMut(&mut Dice) -> Vec<u8>) -> ExitCode {
    let numbers: Vec<u64> = std::env::args().skip(1).filter_map(|word| word.parse().ok()).collect();
    let [seed, count] = numbers[..] else {
        eprintln!("usage: {program} SEED COUNT");
        return ExitCode::FAILURE;
    };
    match write_all(&mut Dice::new(seed), count, make) {
        Ok(()) => ExitCode::SUCCESS,
        Err(_) => ExitCode::FAILURE,
    }
}

fn write_all(dice: &mut Dice, count: u64, mut make: impl FnMut(&mut Dice) -> Vec<u8>) -> io::Result<()> {
    let mut out = io::BufWriter::new(io::stdout().lock());
    for _ in 0..count {
        out.write_all(&make(dice))?;
        out.write_all(b"\n")?;
    }
    out.flush()
}
