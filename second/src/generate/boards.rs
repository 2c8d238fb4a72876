//! Runs of calls on a board of two firms.

use super::contents::{self, Flight};
use super::dice::Dice;
use super::offers::message_for;
use super::{drafts, offered, valid};
use crate::board::{Board, SLOTS};
use crate::kind::Kind;
use crate::state::State;
use crate::strip::Updated;

/// A call, its firm first.
pub enum Call {
    /// Filing a message.
    File(usize, Vec<u8>),
    /// Offering a message to a slot.
    Update(usize, usize, Vec<u8>),
    /// Clearing a slot.
    Clear(usize, usize),
    /// Looking at a slot.
    Look(usize, usize),
}

/// A board that is filled and used: it follows its own calls, so as to be mostly about strips that are there.
pub struct BoardRun {
    board: Board,
    /// How many calls of a hundred are firm 1's.
    lean: usize,
}

impl BoardRun {
    /// A run that begins with this board.
    pub fn on(board: Board, dice: &mut Dice) -> Self {
        BoardRun { board, lean: *dice.pick(&[10, 30, 50, 50, 70, 90]) }
    }

    /// The next call.
    pub fn next(&mut self, dice: &mut Dice) -> Call {
        let firm = self.firm(dice);
        let filings = if self.strips() < 14 { 55 } else { 25 };
        let call = match dice.below(100) {
            _ if dice.chance(filings) => Call::File(firm, plan(dice)),
            0..=59 => self.update(dice, firm),
            60..=89 => Call::Clear(firm, self.slot(dice, firm, is_over)),
            _ => Call::Look(firm, self.slot(dice, firm, |_| true)),
        };
        self.follow(&call);
        call
    }

    /// How many strips are on the board.
    fn strips(&self) -> usize {
        [1, 2].into_iter().flat_map(|firm| self.board.list(firm)).map(|held| held.len()).sum()
    }

    /// A firm; three times in a hundred a number that is none.
    fn firm(&self, dice: &mut Dice) -> usize {
        match dice.chance(3) {
            true => *dice.pick(&[0, 3, 9, 255]),
            false if dice.chance(self.lean) => 1,
            false => 2,
        }
    }

    fn update(&self, dice: &mut Dice, firm: usize) -> Call {
        let slot = self.slot(dice, firm, |held| !is_over(held));
        let message = match self.board.look(firm, slot) {
            Ok(held) if dice.chance(50) => ending(dice, held),
            Ok(held) => message_for(dice, held),
            Err(_) => valid(dice, Kind::Chg),
        };
        Call::Update(firm, slot, message)
    }

    /// Mostly a slot with such a strip, or at least with one; now and then any slot, or a number that is none.
    fn slot(&self, dice: &mut Dice, firm: usize, is_due: fn(&Updated) -> bool) -> usize {
        let held = self.board.list(firm).unwrap_or_default();
        let due: Vec<usize> = held.iter().filter(|(_, held)| is_due(held)).map(|(slot, _)| *slot).collect();
        match dice.below(20) {
            0 => *dice.pick(&[SLOTS, SLOTS + 1, 99, 255]),
            1 => dice.below(SLOTS),
            2..=16 if !due.is_empty() => *dice.pick(&due),
            _ if !held.is_empty() => dice.pick(&held).0,
            _ => dice.below(SLOTS),
        }
    }

    fn follow(&mut self, call: &Call) {
        match call {
            Call::File(firm, message) => drop(self.board.file(*firm, message)),
            Call::Update(firm, slot, message) => drop(self.board.update(*firm, *slot, message)),
            Call::Clear(firm, slot) => drop(self.board.clear(*firm, *slot)),
            Call::Look(..) => {}
        }
    }
}

fn is_over(held: &Updated) -> bool {
    matches!(held.state, State::Arrived { .. } | State::Cancelled)
}

/// A message with which a flight is over, or departs.
fn ending(dice: &mut Dice, held: &Updated) -> Vec<u8> {
    let kind = match held.state {
        State::Filed => *dice.pick(&[Kind::Cnl, Kind::Arr, Kind::Dep]),
        _ => Kind::Arr,
    };
    let flight = Flight::of_strip(dice, &held.strip);
    drafts::plain(&contents::draft(dice, kind, &flight))
}

/// Mostly a plan; now and then a damaged one or another message.
fn plan(dice: &mut Dice) -> Vec<u8> {
    if dice.chance(80) {
        return valid(dice, Kind::Fpl);
    }
    let kind = if dice.chance(60) { Kind::Fpl } else { *dice.pick(&Kind::ALL) };
    let flight = Flight::any(dice);
    offered(dice, kind, &flight)
}

/// A line for the program of two handlers; a line feed in a message is a space there.
pub fn handlers_line(dice: &mut Dice, run: &mut BoardRun) -> Vec<u8> {
    if dice.chance(8) {
        return format!("{} LIST", run.firm(dice)).into_bytes();
    }
    let (head, message) = match run.next(dice) {
        Call::File(firm, message) => (format!("{firm} FILE "), message),
        Call::Update(firm, slot, message) => (format!("{firm} UPDATE {slot} "), message),
        Call::Clear(firm, slot) => (format!("{firm} CLEAR {slot}"), Vec::new()),
        Call::Look(firm, slot) => (format!("{firm} LOOK {slot}"), Vec::new()),
    };
    let message = message.into_iter().map(|byte| if byte == b'\n' { b' ' } else { byte });
    head.into_bytes().into_iter().chain(message).collect()
}

/// Lines for the program of two handlers that end each flight of a board and clear its strip.
pub fn emptying(board: &Board) -> Vec<Vec<u8>> {
    let mut lines = Vec::new();
    for firm in [1, 2] {
        for (slot, held) in board.list(firm).unwrap_or_default() {
            if !is_over(held) {
                lines.push([format!("{firm} UPDATE {slot} ").as_bytes(), &last_message(held)].concat());
            }
            lines.push(format!("{firm} CLEAR {slot}").into_bytes());
        }
    }
    lines
}

/// A CNL for a filed strip, an ARR for a departed one.
fn last_message(held: &Updated) -> Vec<u8> {
    let strip = String::from_utf8_lossy(&held.strip);
    let fields: Vec<&str> = strip.split('-').collect();
    let identification = fields[1].split('/').next().unwrap_or_default();
    let (departure, destination) = (fields[5], &fields[7][..4]);
    match held.state {
        State::Filed => format!("(CNL-{identification}-{departure}-{destination}-0)").into_bytes(),
        _ => format!("(ARR-{identification}-{departure}-{destination}-EDDF0100)").into_bytes(),
    }
}
