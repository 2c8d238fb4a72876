//! Whether a message is for the flight of a plan: the values that are compared for its type.

use std::fmt;

use crate::kind::Kind;
use crate::message::Reading;
use crate::other::date_of;

/// A value in which a message and a plan differ.
#[derive(Clone, Copy, Debug, PartialEq, Eq)]
#[allow(missing_docs)]
pub enum Difference {
    Identification,
    Aerodrome,
    Time,
    Destination,
    Date,
}

use Difference::*;

impl fmt::Display for Difference {
    fn fmt(&self, f: &mut fmt::Formatter<'_>) -> fmt::Result {
        f.write_str(match self {
            Identification => "IDENTIFICATION",
            Aerodrome => "AERODROME",
            Time => "TIME",
            Destination => "DESTINATION",
            Date => "DATE",
        })
    }
}

/// The differences between a message and the plan as it stands before the message, in their order.
pub fn differences(message: &Reading, plan: &Reading) -> Vec<Difference> {
    let all = [
        (Identification, identification(message) != identification(plan)),
        (Aerodrome, message.own(13).get(..4) != plan.own(13).get(..4)),
        (Time, compares_time(message.kind) && message.own(13).get(4..) != plan.own(13).get(4..)),
        (Destination, destination(message) != destination(plan)),
        (Date, on_another_day(message, plan)),
    ];
    all.into_iter().filter(|(_, differs)| *differs).map(|(difference, _)| difference).collect()
}

/// Field 7 without its code.
fn identification(reading: &Reading) -> Option<&[u8]> {
    reading.own(7).split(|&b| b == b'/').next()
}

/// The time of a DLA is the new one, that of a DEP the actual one.
fn compares_time(kind: Kind) -> bool {
    !matches!(kind, Kind::Dla | Kind::Dep)
}

/// The aerodrome of 16, or of 17 where 16 is absent.
fn destination(reading: &Reading) -> Option<&[u8]> {
    reading.own(16).get(..4).or_else(|| reading.own(17).get(..4))
}

/// Whether the message and the plan have dates that differ. A DLA's is not compared, and an ARR has none.
fn on_another_day(message: &Reading, plan: &Reading) -> bool {
    match (date_of(message.own(18)), date_of(plan.own(18))) {
        (Some(date), Some(planned)) => message.kind != Kind::Dla && date != planned,
        _ => false,
    }
}
