//! The strip: one plan and the state of its flight.

use std::borrow::Cow;
use std::ops::Range;

use crate::alphabet::time_of_day;
use crate::cause::{Cause, Refused};
use crate::explained::unexplained;
use crate::flight::differences;
use crate::kind::Kind;
use crate::message::{read, Reading, LONGEST};
use crate::other::{date_of, with_date};
use crate::refusal::Refusal;
use crate::state::State;

/// The strip after an accepted message.
#[derive(Clone, Debug, PartialEq, Eq)]
pub struct Updated {
    /// The plan's spelling.
    pub strip: Vec<u8>,
    /// The flight's state.
    pub state: State,
}

/// The fields of a plan behind field 3, in their order; each may be named by an entry.
pub(crate) const PLAN_FIELDS: [u32; 8] = [7, 8, 9, 10, 13, 15, 16, 18];

type Contents<'a> = [Cow<'a, [u8]>; PLAN_FIELDS.len()];

/// The strip that an FPL makes; 14 for another type.
pub fn file(msg: &[u8]) -> Result<Updated, Refusal> {
    let accepted = read(msg, LONGEST)?;
    match accepted.kind {
        Kind::Fpl => Ok(Updated { strip: accepted.spelling, state: State::Filed }),
        _ => Err(Refusal::bare(14)),
    }
}

/// Offers a message to a strip; `room` is what the new strip may take.
pub fn update(strip: &[u8], state: State, msg: &[u8], room: usize) -> Result<Updated, Refusal> {
    offer(strip, state, msg, room).map_err(|refused| refused.refusal)
}

/// Offers a message to a strip; a refusal comes with its cause.
pub fn offer(strip: &[u8], state: State, msg: &[u8], room: usize) -> Result<Updated, Refused> {
    let plan = read_strip(strip, state)?;
    let message = Reading::of(msg)?;
    if !matches!(message.kind, Kind::Chg | Kind::Dla | Kind::Cnl | Kind::Dep | Kind::Arr) {
        return Err(Refusal::bare(14).into());
    }
    let differences = differences(&message, &plan);
    if !differences.is_empty() {
        return Err(Refused::by(Refusal::bare(12), Cause::Differs(differences)));
    }
    let found = || Refused::by(Refusal::bare(13), Cause::Found(state));
    let new_state = next_state(state, &message).ok_or_else(found)?;
    let contents = amended(&plan, &message);
    check_amended(&contents)?;
    let new_strip = spell_plan(plan.own(3), &contents);
    if new_strip.len() > LONGEST {
        return Err(Refusal::bare(16).into());
    }
    if new_strip.len() > room {
        return Err(Refusal::bare(11).into());
    }
    Ok(Updated { strip: new_strip, state: new_state })
}

/// Where the content of a field in force stands.
#[derive(Clone, Debug, PartialEq, Eq)]
pub enum InForce {
    /// In the strip.
    Strip(Range<usize>),
    /// In the CHG, which names the field.
    Change(Range<usize>),
}

/// The content of a field in force: a part of the CHG or of the strip.
pub fn in_force<'a>(strip: &'a [u8], state: State, chg: &'a [u8], field: u32) -> Result<&'a [u8], Refusal> {
    Ok(match field_in_force(strip, state, chg, field)? {
        InForce::Strip(range) => &strip[range],
        InForce::Change(range) => &chg[range],
    })
}

/// Where a field in force stands: in the CHG if an entry names it, else in the strip.
pub fn field_in_force(strip: &[u8], state: State, chg: &[u8], field: u32) -> Result<InForce, Refusal> {
    let plan = read_strip(strip, state)?;
    let message = Reading::of(chg)?;
    if message.kind != Kind::Chg {
        return Err(Refusal::bare(14));
    }
    if message.spelling != chg {
        return Err(Refusal::bare(17));
    }
    if !differences(&message, &plan).is_empty() {
        return Err(Refusal::bare(12));
    }
    if field == 16 && new_destination(&message).is_some() {
        return Err(Refusal::bare(17));
    }
    if !PLAN_FIELDS.contains(&field) {
        return Err(Refusal::new(8, field, 0));
    }
    // Both spellings are the bytes lent, so a range of one is a range of the other.
    Ok(message.entry_range(field).map_or_else(|| InForce::Strip(plan.own_range(field)), InForce::Change))
}

/// Number 15.
fn read_strip(strip: &[u8], state: State) -> Result<Reading, Refusal> {
    let plan = Reading::of(strip).ok().filter(|plan| plan.is_plan() && plan.spelling == strip);
    plan.filter(|_| state.is_sound()).ok_or(Refusal::bare(15))
}

/// The state that the message brings about; `None` if the present one forbids it.
fn next_state(state: State, message: &Reading) -> Option<State> {
    match (message.kind, state) {
        (Kind::Chg, State::Filed | State::Departed { .. }) | (Kind::Dla, State::Filed) => Some(state),
        (Kind::Cnl, State::Filed) => Some(State::Cancelled),
        (Kind::Dep, State::Filed) => Some(State::Departed { time: time_of(message.own(13))? }),
        (Kind::Arr, State::Filed) => arrived(None, message.own(17)),
        (Kind::Arr, State::Departed { time }) => arrived(Some(time), message.own(17)),
        _ => None,
    }
}

fn arrived(departed: Option<u16>, arrival: &[u8]) -> Option<State> {
    let aerodrome = arrival.get(..4)?.try_into().ok()?;
    Some(State::Arrived { departed, aerodrome, time: time_of(arrival)? })
}

/// The time behind an aerodrome.
fn time_of(content: &[u8]) -> Option<u16> {
    time_of_day(content.get(4..8)?)
}

/// The plan's contents as the message leaves them.
fn amended<'a>(plan: &'a Reading, message: &'a Reading) -> Contents<'a> {
    PLAN_FIELDS.map(|field| match message.kind {
        Kind::Chg => changed(plan, message, field),
        Kind::Dla => delayed(plan, message, field),
        _ => plan.own(field).into(),
    })
}

/// A field as a DLA leaves it: its time and, if it has one, its date are the plan's.
fn delayed<'a>(plan: &'a Reading, message: &'a Reading, field: u32) -> Cow<'a, [u8]> {
    match (field, date_of(message.own(18))) {
        // The aerodromes are equal, so the whole field 13 brings the time alone.
        (13, _) => message.own(13).into(),
        (18, Some(date)) => with_date(plan.own(18), date).into(),
        _ => plan.own(field).into(),
    }
}

/// A field as a CHG leaves it: as its entry has it if there is one; of a bare new destination the rest stays.
fn changed<'a>(plan: &'a Reading, message: &'a Reading, field: u32) -> Cow<'a, [u8]> {
    match (field, new_destination(message)) {
        (16, Some(destination)) => [destination, &plan.own(16)[4..]].concat().into(),
        _ => message.entry(field).unwrap_or_else(|| plan.own(field)).into(),
    }
}

/// The destination that a CHG's entry has alone.
fn new_destination(message: &Reading) -> Option<&[u8]> {
    message.entry(16).filter(|content| content.len() == 4)
}

/// Number 10 for the amended plan.
fn check_amended(contents: &Contents) -> Result<(), Refused> {
    let [_, _, nine, _, thirteen, _, sixteen, eighteen] = contents;
    match unexplained(nine, thirteen, sixteen, eighteen) {
        Some((form, key)) => Err(Refused::by(Refusal::new(10, form.number(), 0), Cause::Lacks(key))),
        None => Ok(()),
    }
}

fn spell_plan(three: &[u8], contents: &Contents) -> Vec<u8> {
    let mut spelling = b"(".to_vec();
    spelling.extend_from_slice(three);
    for content in contents {
        spelling.push(b'-');
        spelling.extend_from_slice(content);
    }
    spelling.push(b')');
    spelling
}
