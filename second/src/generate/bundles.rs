//! A strip with a CHG of several entries, and the same entries as single CHGs.

use super::contents::{self, Flight};
use super::dice::Dice;
use super::drafts;
use crate::kind::Kind;
use crate::message::LONGEST;
use crate::other::date_of;
use crate::state::State;
use crate::strip::{update, Updated};

/// A strip, and the entries that change it together.
pub struct Bundle {
    /// The strip, filed or departed.
    pub held: Updated,
    /// Two to four entries, none of them with the number of another.
    pub entries: Vec<Vec<u8>>,
}

impl Bundle {
    /// Any strip and entries.
    pub fn some(dice: &mut Dice) -> Self {
        let flight = Flight::any(dice);
        let strip = drafts::plain(&contents::draft(dice, Kind::Fpl, &flight));
        let state = if dice.chance(70) { State::Filed } else { State::Departed { time: dice.below(1440) as u16 } };
        let count = dice.from_to(2, 4);
        Bundle { held: Updated { strip, state }, entries: contents::entries(dice, &flight, count) }
    }

    /// The CHG that has all the entries.
    pub fn whole(&self) -> Vec<u8> {
        change(&self.held.strip, &self.entries.join(&b'-'))
    }

    /// The entries in an order, each as a CHG of its own for the strip as the accepted ones before it left it.
    pub fn singles<'a>(&self, order: impl IntoIterator<Item = &'a Vec<u8>>) -> Vec<Vec<u8>> {
        let mut held = self.held.clone();
        let mut messages = Vec::new();
        for entry in order {
            let message = change(&held.strip, entry);
            if let Ok(updated) = update(&held.strip, held.state, &message, LONGEST) {
                held = updated;
            }
            messages.push(message);
        }
        messages
    }
}

/// A CHG with a head that suits the strip: its identification, aerodromes, time and, if it has one, date.
fn change(strip: &[u8], entries: &[u8]) -> Vec<u8> {
    let fields: Vec<&[u8]> = strip.split(|b| b"-)".contains(b)).collect();
    let [_, seven, _, _, _, thirteen, _, sixteen, eighteen, ..] = fields[..] else { return Vec::new() };
    let identification = seven.split(|&b| b == b'/').next().unwrap_or_default();
    let own = date_of(eighteen).map_or(b"0".to_vec(), |date| [b"DOF/", date].concat());
    [b"(CHG", identification, thirteen, &sixteen[..4], &own, &[entries, b")"].concat()].join(&b'-')
}
