//! Messages that are offered to a strip.

use super::contents::{self, Flight};
use super::dice::Dice;
use super::{drafts, long_change, offered};
use crate::kind::Kind;
use crate::message::LONGEST;
use crate::state::State;
use crate::strip::Updated;

/// A message that is mostly for the strip's flight and mostly allowed.
pub fn message_for(dice: &mut Dice, held: &Updated) -> Vec<u8> {
    let flight = Flight::of_strip(dice, &held.strip);
    let kinds = if dice.chance(3) { &Kind::ALL } else { kinds_for(held.state) };
    let is_full = held.strip.len() + 16 > LONGEST;
    match *dice.pick(kinds) {
        _ if is_full && dice.chance(30) => offered(dice, Kind::Dla, &flight),
        Kind::Chg if dice.chance(1) => long_change(dice, &flight),
        Kind::Chg if dice.chance(5) => edge_change(dice, &flight, &held.strip),
        kind => offered(dice, kind, &flight),
    }
}

fn kinds_for(state: State) -> &'static [Kind] {
    use Kind::*;
    match state {
        State::Filed => &[Chg, Chg, Chg, Chg, Chg, Chg, Dla, Dla, Dla, Dep, Dep, Arr, Cnl],
        State::Departed { .. } => &[Chg, Chg, Chg, Chg, Arr, Arr, Dla, Dep, Cnl],
        State::Arrived { .. } | State::Cancelled => &[Chg, Cnl, Dla, Dep, Arr],
    }
}

/// A CHG of the route that leaves a plan of 1,800 bytes, or some bytes more or less.
fn edge_change(dice: &mut Dice, flight: &Flight, strip: &[u8]) -> Vec<u8> {
    let mut draft = contents::draft(dice, Kind::Chg, flight);
    let route = strip.split(|&b| b == b'-').nth(6).unwrap_or_default();
    let due = (LONGEST + dice.below(9)).saturating_sub(1 + strip.len() - route.len());
    let mut longer = b"15/N0440F310".to_vec();
    while longer.len() + 6 < due {
        longer.extend(b" DCT");
    }
    longer.extend(&b" DCTDC"[..due.saturating_sub(longer.len())]);
    draft.truncate(5);
    draft.push(longer);
    drafts::plain(&draft)
}
