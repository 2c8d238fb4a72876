//! One board of strips that two firms work from.

use crate::cause::{Cause, Refused};
use crate::message::LONGEST;
use crate::refusal::Refusal;
use crate::state::State;
use crate::strip::{file, offer, Updated};

/// The slots of a firm.
pub const SLOTS: usize = 10;

/// The strips that each firm is sure of.
const SURE: usize = 6;

/// The strips beyond these, for whoever asks first.
const SHARED: usize = 4;

type Rack = [Option<Updated>; SLOTS];

/// What each firm holds, by slot.
#[derive(Default)]
pub struct Board {
    racks: [Rack; 2],
}

impl Board {
    /// Files a plan for a firm, in its lowest empty slot.
    pub fn file(&mut self, firm: usize, msg: &[u8]) -> Result<(usize, &Updated), Refusal> {
        let rack = rack_of(firm)?;
        let slot = self.slot_for_filing(rack).ok_or(Refusal::bare(20))?;
        Ok((slot, self.racks[rack][slot].insert(file(msg)?)))
    }

    /// Offers a message to a strip of a firm.
    pub fn update(&mut self, firm: usize, slot: usize, msg: &[u8]) -> Result<&Updated, Refused> {
        let place = self.place(firm, slot)?;
        let held = place.as_ref().ok_or(Refusal::bare(19))?;
        let updated = offer(&held.strip, held.state, msg, LONGEST)?;
        Ok(place.insert(updated))
    }

    /// Clears a strip of a firm whose flight is over.
    pub fn clear(&mut self, firm: usize, slot: usize) -> Result<(), Refused> {
        let place = self.place(firm, slot)?;
        let held = place.as_ref().ok_or(Refusal::bare(19))?;
        if matches!(held.state, State::Filed | State::Departed { .. }) {
            return Err(Refused::by(Refusal::bare(13), Cause::Found(held.state)));
        }
        *place = None;
        Ok(())
    }

    /// A strip of a firm.
    pub fn look(&self, firm: usize, slot: usize) -> Result<&Updated, Refusal> {
        let held = self.racks[rack_of(firm)?].get(slot).and_then(Option::as_ref);
        held.ok_or(Refusal::bare(19))
    }

    /// The strips of a firm by rising slot.
    pub fn list(&self, firm: usize) -> Result<Vec<(usize, &Updated)>, Refusal> {
        let rack = self.racks[rack_of(firm)?].iter().enumerate();
        Ok(rack.filter_map(|(slot, place)| Some((slot, place.as_ref()?))).collect())
    }

    /// A slot's place: 18, and 19 for a slot that there is not.
    fn place(&mut self, firm: usize, slot: usize) -> Result<&mut Option<Updated>, Refusal> {
        self.racks[rack_of(firm)?].get_mut(slot).ok_or(Refusal::bare(19))
    }

    /// The lowest empty slot; `None` if the firm has all that it is sure of and no shared room is free.
    fn slot_for_filing(&self, rack: usize) -> Option<usize> {
        let beyond: usize = self.racks.iter().map(|rack| held(rack).saturating_sub(SURE)).sum();
        let has_room = held(&self.racks[rack]) < SURE || beyond < SHARED;
        self.racks[rack].iter().position(Option::is_none).filter(|_| has_room)
    }
}

/// How many strips a firm holds.
fn held(rack: &Rack) -> usize {
    rack.iter().flatten().count()
}

/// Number 18.
fn rack_of(firm: usize) -> Result<usize, Refusal> {
    match firm {
        1 | 2 => Ok(firm - 1),
        _ => Err(Refusal::bare(18)),
    }
}
