//! A second reader of nine ATS messages, written from document 01 with its open points as decided,
//! and without the proved reader's code.
//!
//! It reads the message as sent, word by word, and spells each word as it goes: there is no
//! buffer of reduced white space and no cutting into fields beforehand.

mod alphabet;
mod board;
mod cause;
mod codes;
pub mod corpus;
mod escapes;
mod explained;
mod flight;
mod forms;
pub mod generate;
pub mod handlers;
mod kind;
mod message;
mod other;
mod outline;
mod pieces;
mod places;
pub mod programs;
mod refusal;
mod route;
mod state;
mod strip;
mod supplement;
pub mod tally;
pub mod vectors;
mod words;

pub use board::{Board, SLOTS};
pub use cause::{Cause, Refused};
pub use flight::Difference;
pub use forms::{field_fits, spelling19, Form};
pub use kind::Kind;
pub use message::{read, Accepted, LONGEST};
pub use places::field_misfit;
pub use refusal::Refusal;
pub use state::State;
pub use strip::{field_in_force, in_force, offer, update, InForce, Updated};
