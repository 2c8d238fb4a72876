//! Questions for the vectors program: single messages and contents, and runs of messages offered to a strip.

use std::collections::VecDeque;

use super::bundles::Bundle;
use super::contents::Flight;
use super::dice::Dice;
use super::offers::message_for;
use super::{contents, damage, drafts, end_with_remark, long_plan};
use super::{damaged, damaged_deep, form_and_content, offered, valid};
use crate::escapes::escaped;
use crate::kind::Kind;
use crate::message::{read, LONGEST};
use crate::state::State;
use crate::strip::{update, Updated, PLAN_FIELDS};

/// A line for the vectors program.
pub type Line = Vec<u8>;

/// A mix of all questions without an end: the lines that are still to be asked of the last run.
#[derive(Default)]
pub struct Questions {
    ahead: VecDeque<Line>,
}

impl Questions {
    /// The next line.
    pub fn next(&mut self, dice: &mut Dice) -> Line {
        if self.ahead.is_empty() {
            self.ahead.extend(some_questions(dice));
        }
        self.ahead.pop_front().unwrap_or_default()
    }
}

fn some_questions(dice: &mut Dice) -> Vec<Line> {
    match dice.below(132) {
        0..=7 => {
            let kind = *dice.pick(&Kind::ALL);
            vec![read_valid(dice, kind)]
        }
        8..=27 => vec![read_damaged(dice)],
        28..=97 => vec![read_damaged_deep(dice)],
        98..=100 => read_in_short_rooms(dice),
        101..=103 => read_in_promised_room(dice),
        104..=113 => update_run(dice, 8),
        114..=117 => in_force_run(dice, 4),
        118..=119 => bundle_run(dice),
        _ => vec![content_alone(dice)],
    }
}

/// Reading a valid message of this type.
pub fn read_valid(dice: &mut Dice, kind: Kind) -> Line {
    ask("R", &valid(dice, kind))
}

/// Reading a damaged message.
pub fn read_damaged(dice: &mut Dice) -> Line {
    let kind = *dice.pick(&Kind::ALL);
    let flight = Flight::any(dice);
    ask("R", &damaged(dice, kind, &flight))
}

/// A content alone, held to a form.
pub fn content_alone(dice: &mut Dice) -> Line {
    let (form, content) = form_and_content(dice);
    ask(&format!("C {form}"), &content)
}

/// Reading a message that is damaged deep in one field, mostly of a type with many forms.
pub fn read_damaged_deep(dice: &mut Dice) -> Line {
    use Kind::*;
    let kind = *dice.pick(&[Fpl, Fpl, Fpl, Fpl, Fpl, Fpl, Chg, Chg, Chg, Spl, Spl, Arr, Arr, Cnl, Dla, Dep, Rqp, Rqs]);
    let flight = Flight::any(dice);
    ask("R", &damaged_deep(dice, kind, &flight))
}

/// Reading a message into its spelling's length, one byte less, and some other room.
pub fn read_in_short_rooms(dice: &mut Dice) -> Vec<Line> {
    let kind = *dice.pick(&Kind::ALL);
    let message = valid(dice, kind);
    let due = read(&message, LONGEST).map_or(0, |accepted| accepted.spelling.len());
    let rooms = [due, due.saturating_sub(1), dice.below(LONGEST + 1)];
    rooms.map(|room| ask(&format!("r {room}"), &message)).to_vec()
}

/// Reading a message, valid or damaged, into as much room as it has bytes, which is enough, and into one byte less than it needs.
pub fn read_in_promised_room(dice: &mut Dice) -> Vec<Line> {
    let kind = *dice.pick(&Kind::ALL);
    let flight = Flight::any(dice);
    let message = offered(dice, kind, &flight);
    let needed = read(&message, LONGEST).ok().map(|accepted| accepted.spelling.len());
    let rooms = [Some(message.len().min(LONGEST)), needed.map(|needed| needed - 1)];
    rooms.into_iter().flatten().map(|room| ask(&format!("r {room}"), &message)).collect()
}

/// A strip, and about so many messages offered to it.
pub fn update_run(dice: &mut Dice, length: usize) -> Vec<Line> {
    let mut held = some_strip(dice);
    let mut lines = vec![hold(&held)];
    for _ in 0..dice.from_to(length / 2, length + length / 2) {
        let message = message_for(dice, &held);
        if asks_why(dice, &held, &message) {
            lines.push(ask("W", &message));
        }
        let (line, room) = offer(dice, &held, &message);
        lines.push(line);
        if let Ok(updated) = update(&held.strip, held.state, &message, room) {
            held = updated;
        }
        if matches!(held.state, State::Arrived { .. } | State::Cancelled) && dice.chance(40) {
            break;
        }
    }
    lines
}

/// A strip and a CHG of several entries; then the strip again, and the entries one by one in some order.
pub fn bundle_run(dice: &mut Dice) -> Vec<Line> {
    let bundle = Bundle::some(dice);
    let mut order: Vec<&Vec<u8>> = bundle.entries.iter().collect();
    dice.shuffle(&mut order);
    let mut lines = vec![hold(&bundle.held), ask("U", &bundle.whole()), hold(&bundle.held)];
    lines.extend(bundle.singles(order).iter().map(|single| ask("U", single)));
    lines
}

/// Whether the cause of an update is asked for: of a refusal by 10, which is rare, always.
fn asks_why(dice: &mut Dice, held: &Updated, message: &[u8]) -> bool {
    let refusal = update(&held.strip, held.state, message, LONGEST).err();
    refusal.is_some_and(|refusal| refusal.number == 10) || dice.chance(40)
}

/// A strip, and about so many questions for a field in force.
pub fn in_force_run(dice: &mut Dice, length: usize) -> Vec<Line> {
    let held = some_strip(dice);
    let mut lines = vec![hold(&held)];
    for _ in 0..dice.from_to(length / 2, length + length / 2) {
        let field = if dice.chance(85) { *dice.pick(&PLAN_FIELDS) } else { dice.below(256) as u32 };
        let flight = Flight::of_strip(dice, &held.strip);
        let change = change_asked(dice, &flight);
        lines.push(ask(&format!("F {field}"), &change));
    }
    lines
}

/// A CHG as its spelling, and now and then another message or spelling.
fn change_asked(dice: &mut Dice, flight: &Flight) -> Vec<u8> {
    let kind = if dice.chance(5) { *dice.pick(&Kind::ALL) } else { Kind::Chg };
    if dice.chance(20) {
        return offered(dice, kind, flight);
    }
    drafts::plain(&contents::draft(dice, kind, flight))
}

/// A strip to begin with: mostly a plan as filed, now and then a later state or one that is no strip.
fn some_strip(dice: &mut Dice) -> Updated {
    let strip = match dice.below(25) {
        0 => no_strip(dice),
        1..=4 => long_plan(dice),
        5 => full_plan(dice),
        _ => plan(dice),
    };
    let state = if dice.chance(85) { State::Filed } else { some_state(dice) };
    Updated { strip, state }
}

fn plan(dice: &mut Dice) -> Vec<u8> {
    let flight = Flight::any(dice);
    drafts::plain(&contents::draft(dice, Kind::Fpl, &flight))
}

/// A plan that leaves less room below 1,800 bytes than a date takes, or hardly more.
fn full_plan(dice: &mut Dice) -> Vec<u8> {
    let flight = Flight::any(dice);
    let mut draft = contents::draft(dice, Kind::Fpl, &flight);
    end_with_remark(&mut draft);
    let due = LONGEST - dice.below(16);
    damage::lengthen(dice, &mut draft, due);
    let surplus = drafts::plain(&draft).len().saturating_sub(due);
    if let Some(eighteen) = draft.last_mut() {
        eighteen.truncate(eighteen.len() - surplus);
        // No space stands last.
        if eighteen.ends_with(b" ") {
            eighteen.pop();
            eighteen.push(b'X');
        }
    }
    drafts::plain(&draft)
}

/// A plan that is spelled otherwise or damaged, or another message.
fn no_strip(dice: &mut Dice) -> Vec<u8> {
    let kind = *dice.pick(&[Kind::Fpl, Kind::Fpl, Kind::Fpl, Kind::Chg, Kind::Spl]);
    let flight = Flight::any(dice);
    offered(dice, kind, &flight)
}

fn some_state(dice: &mut Dice) -> State {
    match dice.below(6) {
        0 | 1 => State::Departed { time: some_minute(dice) },
        2 => State::Arrived { departed: None, aerodrome: some_aerodrome(dice), time: some_minute(dice) },
        3 | 4 => {
            let departed = Some(some_minute(dice));
            State::Arrived { departed, aerodrome: some_aerodrome(dice), time: some_minute(dice) }
        }
        _ => State::Cancelled,
    }
}

/// A minute of the day; one time in ten beyond it.
fn some_minute(dice: &mut Dice) -> u16 {
    if dice.chance(10) {
        return *dice.pick(&[1440, 1441, 2400, 9999]);
    }
    dice.below(1440) as u16
}

/// Four letters; one time in ten not.
fn some_aerodrome(dice: &mut Dice) -> [u8; 4] {
    let mut aerodrome = [(); 4].map(|_| *dice.pick(b"ABCDEFGHIJKLMNOPQRSTUVWXYZ"));
    if dice.chance(10) {
        aerodrome[dice.below(4)] = *dice.pick(b"09a?-/");
    }
    aerodrome
}

/// An offer with room enough; or with the room of strip and message together, with the new strip's length, or about it.
fn offer(dice: &mut Dice, held: &Updated, message: &[u8]) -> (Line, usize) {
    if dice.chance(80) {
        return (ask("U", message), LONGEST);
    }
    let due = update(&held.strip, held.state, message, LONGEST).map_or(0, |updated| updated.strip.len());
    let promised = (held.strip.len() + message.len()).min(LONGEST);
    let rooms = [promised, promised, due, due.saturating_sub(1), dice.below(LONGEST + 1)];
    let room = *dice.pick(&rooms);
    (ask(&format!("u {room}"), message), room)
}

fn hold(held: &Updated) -> Line {
    ask(&format!("H {}", state_word(held.state)), &held.strip)
}

/// A state as a question has it.
fn state_word(state: State) -> String {
    match state {
        State::Filed => "F".to_string(),
        State::Departed { time } => format!("D{time:04}"),
        State::Arrived { departed, aerodrome, time } => {
            let departed = departed.map_or("----".to_string(), |time| format!("{time:04}"));
            format!("A{departed}/{}/{time:04}", String::from_utf8_lossy(&aerodrome))
        }
        State::Cancelled => "C".to_string(),
    }
}

/// A line that begins so, and ends with these bytes.
pub fn ask(head: &str, bytes: &[u8]) -> Line {
    [head.as_bytes(), b" ", &escaped(bytes)].concat()
}
