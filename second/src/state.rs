//! The state of a flight.

use std::fmt;

use crate::alphabet::is_four_letters;

/// The flight's state; times are minutes of the day.
#[derive(Clone, Copy, Debug, PartialEq, Eq)]
pub enum State {
    /// As the plan stands.
    Filed,
    /// Departed at a time.
    Departed {
        /// When.
        time: u16,
    },
    /// Arrived at an aerodrome and time.
    Arrived {
        /// When it departed, if known.
        departed: Option<u16>,
        /// Where it arrived.
        aerodrome: [u8; 4],
        /// When it arrived.
        time: u16,
    },
    /// Cancelled.
    Cancelled,
}

impl State {
    /// Times to 1,439 minutes, an aerodrome of four letters.
    pub(crate) fn is_sound(&self) -> bool {
        let timely = |time: u16| time <= 1439;
        match self {
            State::Filed | State::Cancelled => true,
            State::Departed { time } => timely(*time),
            State::Arrived { departed, aerodrome, time } => {
                departed.is_none_or(timely) && is_four_letters(aerodrome) && timely(*time)
            }
        }
    }
}

impl fmt::Display for State {
    fn fmt(&self, f: &mut fmt::Formatter<'_>) -> fmt::Result {
        let clock = |time: u16| format!("{:02}{:02}", time / 60, time % 60);
        match self {
            State::Filed => write!(f, "FILED"),
            State::Departed { time } => write!(f, "DEPARTED {}", clock(*time)),
            State::Arrived { departed, aerodrome, time } => {
                let departed = departed.map_or("----".to_string(), clock);
                let aerodrome = String::from_utf8_lossy(aerodrome);
                write!(f, "ARRIVED {departed} {aerodrome} {}", clock(*time))
            }
            State::Cancelled => write!(f, "CANCELLED"),
        }
    }
}
