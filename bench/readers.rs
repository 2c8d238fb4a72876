//! The readers that are measured: the proved reader through the static library, the second reader, and the yardstick, which reads plans alone, with its table
//! and with comparisons in its place.

use std::hint::black_box;

use second::{State, Updated};

use crate::beechdoublet::{self, Numbers, MOST};
use crate::input::Input;

type Read = unsafe extern "C" fn(*const u8, usize, *mut u8, usize, &mut [u64; 4]) -> i32;

extern "C" {
    fn yardstick_read(message: *const u8, length: usize, out: *mut u8, room: usize, answer: &mut [u64; 4]) -> i32;
    fn yardstick_read_by_comparisons(
        message: *const u8,
        length: usize,
        out: *mut u8,
        room: usize,
        answer: &mut [u64; 4],
    ) -> i32;
}

#[derive(Clone, Copy)]
pub enum Reader {
    Proved,
    Second,
    Yardstick,
    ByComparisons,
}

/// The spelling or the new strip, with its state; else number, field and place.
pub type Answer = Result<(Vec<u8>, Option<Numbers>), (u64, u64, usize)>;

impl Reader {
    pub fn named(name: &str) -> Option<Reader> {
        match name {
            "proved" => Some(Reader::Proved),
            "second" => Some(Reader::Second),
            "yardstick" => Some(Reader::Yardstick),
            "comparisons" => Some(Reader::ByComparisons),
            _ => None,
        }
    }

    /// Answers each input; what is measured.
    pub fn read_all(self, inputs: &[Input], out: &mut [u8; MOST]) {
        for input in inputs {
            black_box(match self {
                Reader::Proved => proved(black_box(input), out).is_ok(),
                Reader::Second => second(black_box(input)).is_ok(),
                Reader::Yardstick => yardstick(yardstick_read, black_box(input), out).is_ok(),
                Reader::ByComparisons => yardstick(yardstick_read_by_comparisons, black_box(input), out).is_ok(),
            });
        }
    }

    /// The answer to one input, to be compared with another reader's.
    pub fn answer(self, input: &Input) -> Answer {
        let mut out = [0; MOST];
        match self {
            Reader::Proved => proved(input, &mut out)
                .map(|(spelling, state)| (spelling.to_vec(), state))
                .map_err(|r| (u64::from(r.number), r.field, r.place)),
            Reader::Second => second(input)
                .map(|(spelling, state)| (spelling, state.map(numbers)))
                .map_err(|r| (u64::from(r.number), u64::from(r.field), r.place)),
            Reader::Yardstick => yardstick(yardstick_read, input, &mut out).map(|spelling| (spelling.to_vec(), None)),
            Reader::ByComparisons => {
                yardstick(yardstick_read_by_comparisons, input, &mut out).map(|spelling| (spelling.to_vec(), None))
            }
        }
    }
}

fn proved<'a>(input: &Input, out: &'a mut [u8]) -> Result<(&'a [u8], Option<Numbers>), beechdoublet::Refusal> {
    let Some(state) = input.state else {
        return beechdoublet::read(input.message, out).map(|(_, spelling)| (spelling, None));
    };
    let mut state = numbers(state);
    beechdoublet::update(input.strip, &mut state, input.message, out).map(|strip| (strip, Some(state)))
}

fn second(input: &Input) -> Result<(Vec<u8>, Option<State>), second::Refusal> {
    match input.state {
        None => second::read(input.message, MOST).map(|accepted| (accepted.spelling, None)),
        Some(state) => {
            second::update(input.strip, state, input.message, MOST).map(|Updated { strip, state }| (strip, Some(state)))
        }
    }
}

fn yardstick<'a>(read: Read, input: &Input, out: &'a mut [u8]) -> Result<&'a [u8], (u64, u64, usize)> {
    let mut answer = [0; 4];
    unsafe { read(input.message.as_ptr(), input.message.len(), out.as_mut_ptr(), out.len(), &mut answer) };
    match answer {
        [0, _, _, length] => Ok(&out[..length as usize]),
        [number, field, place, _] => Err((number, field, place as usize)),
    }
}

/// A state as the proved library takes it.
fn numbers(state: State) -> Numbers {
    let same = |time: u16| u64::from(time);
    match state {
        State::Filed => beechdoublet::State::Filed,
        State::Departed { time } => beechdoublet::State::Departed { time: same(time) },
        State::Arrived { departed, aerodrome, time } => {
            beechdoublet::State::Arrived { departed: departed.map(same), aerodrome, time: same(time) }
        }
        State::Cancelled => beechdoublet::State::Cancelled,
    }
    .numbers()
}
