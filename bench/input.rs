//! One input of the benchmark.

use second::{Kind, State};

/// A message to be read; where there is a state, it is offered to a strip.
#[derive(Clone, Copy, PartialEq)]
pub struct Input {
    pub strip: &'static [u8],
    pub state: Option<State>,
    pub message: &'static [u8],
}

impl Input {
    pub fn message(message: Vec<u8>) -> Input {
        Input { strip: b"", state: None, message: message.leak() }
    }

    pub fn offer(strip: Vec<u8>, state: State, message: Vec<u8>) -> Input {
        Input { strip: strip.leak(), state: Some(state), message: message.leak() }
    }

    pub fn bytes(&self) -> usize {
        self.strip.len() + self.message.len()
    }

    /// Whether the yardstick answers it: it is offered to no strip, and of no other type that is read.
    pub fn is_plan(&self) -> bool {
        let named = |kind: &Kind| self.message.get(1..4) == Some(kind.name().as_bytes());
        self.state.is_none() && Kind::ALL.into_iter().find(named).is_none_or(|kind| kind == Kind::Fpl)
    }
}
