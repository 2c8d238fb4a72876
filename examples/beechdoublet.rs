//! Beechdoublet for Rust: the functions of include/beechdoublet.h, and a safe function over each.
//!
//! What the C caller has to see to, Rust's references see to here: none is null, each slice is as long as it says, and what is written overlaps
//! nothing else. So the library's functions are called as they are, and 255, with which the header refuses what is not a call, does not come up.

use std::ops::Range;

/// The most bytes of a message and of a strip.
pub const MOST: usize = 1800;

/// A state as numbers: kind, departure known, departure, the aerodrome's four bytes, arrival.
pub type Numbers = [u64; 8];

/// A board's numbers: for each of 20 places whether a strip stands there, its state, and its length.
pub type Places = [u64; 200];

/// A board's strips: 1,800 bytes for each place.
pub type Strips = [u8; 36000];

extern "C" {
    fn beechdoublet_read(message: *const u8, length: usize, out: *mut u8, room: usize, answer: &mut [u64; 5]) -> u8;
    fn beechdoublet_update(
        strip: *const u8,
        strip_length: usize,
        state: &mut Numbers,
        message: *const u8,
        length: usize,
        out: *mut u8,
        room: usize,
        answer: &mut [u64; 4],
    ) -> u8;
    fn beechdoublet_cause(
        strip: *const u8,
        strip_length: usize,
        state: &Numbers,
        message: *const u8,
        length: usize,
        cause: &mut [u64; 9],
    ) -> u8;
    fn beechdoublet_in_force(
        strip: *const u8,
        strip_length: usize,
        state: &Numbers,
        change: *const u8,
        length: usize,
        field: u64,
        answer: &mut [u64; 6],
    ) -> u8;
    fn beechdoublet_sound(state: &Numbers) -> bool;
    fn beechdoublet_field(message: *const u8, length: usize, field: u64, answer: &mut [u64; 6]) -> u8;
    fn beechdoublet_plan(strip: *const u8, length: usize, answer: &mut [u64; 19]) -> u8;
    fn beechdoublet_board_empty(places: &mut Places) -> u8;
    fn beechdoublet_board_file(
        places: &mut Places,
        strips: &mut Strips,
        firm: u64,
        message: *const u8,
        length: usize,
        answer: &mut [u64; 4],
    ) -> u8;
    fn beechdoublet_board_update(
        places: &mut Places,
        strips: &mut Strips,
        firm: u64,
        slot: u64,
        message: *const u8,
        length: usize,
        answer: &mut [u64; 4],
    ) -> u8;
    fn beechdoublet_board_clear(places: &mut Places, firm: u64, slot: u64, answer: &mut [u64; 4]) -> u8;
    fn beechdoublet_board_look(places: &Places, strips: &Strips, firm: u64, slot: u64, answer: &mut [u64; 13]) -> u8;
}

/// Why a message was not taken: document 01's number, field and place.
#[derive(Clone, Copy, Debug, PartialEq, Eq)]
pub struct Refusal {
    pub number: u8,
    pub field: u64,
    pub place: usize,
}

/// The flight's state; times are minutes of the day.
#[derive(Clone, Copy, Debug, PartialEq, Eq)]
pub enum State {
    Filed,
    Departed { time: u64 },
    Arrived { departed: Option<u64>, aerodrome: [u8; 4], time: u64 },
    Cancelled,
}

impl State {
    pub fn numbers(self) -> Numbers {
        match self {
            State::Filed => [0; 8],
            State::Departed { time } => [1, 1, time, 0, 0, 0, 0, 0],
            State::Arrived { departed, aerodrome, time } => {
                let [a, b, c, d] = aerodrome.map(u64::from);
                [2, u64::from(departed.is_some()), departed.unwrap_or(0), a, b, c, d, time]
            }
            State::Cancelled => [3, 0, 0, 0, 0, 0, 0, 0],
        }
    }

    /// The state of sound numbers; of others there is none.
    pub fn of(numbers: &Numbers) -> Option<State> {
        let [kind, known, departure, a, b, c, d, time] = *numbers;
        match kind {
            _ if !is_sound(numbers) => None,
            0 => Some(State::Filed),
            1 => Some(State::Departed { time: departure }),
            2 => {
                let departed = (known == 1).then_some(departure);
                Some(State::Arrived { departed, aerodrome: [a, b, c, d].map(|byte| byte as u8), time })
            }
            _ => Some(State::Cancelled),
        }
    }
}

/// Reads a message into `out`: its type's number, 1 to 9, and its spelling.
pub fn read<'a>(message: &[u8], out: &'a mut [u8]) -> Result<(u64, &'a [u8]), Refusal> {
    let mut answer = [0; 5];
    let number =
        unsafe { beechdoublet_read(message.as_ptr(), message.len(), out.as_mut_ptr(), out.len(), &mut answer) };
    let [_, field, place, kind, length] = answer;
    refused(number, field, place)?;
    Ok((kind, &out[..length as usize]))
}

/// Offers a message to a strip; the new strip is written to `out`, and `state` moves on.
pub fn update<'a>(strip: &[u8], state: &mut Numbers, message: &[u8], out: &'a mut [u8]) -> Result<&'a [u8], Refusal> {
    let mut answer = [0; 4];
    let number = unsafe {
        beechdoublet_update(
            strip.as_ptr(),
            strip.len(),
            state,
            message.as_ptr(),
            message.len(),
            out.as_mut_ptr(),
            out.len(),
            &mut answer,
        )
    };
    let [_, field, place, length] = answer;
    refused(number, field, place)?;
    Ok(&out[..length as usize])
}

/// What is shown of a refused update: what differs, the missing key of field 18, or the state found.
#[derive(Clone, Copy, Debug, PartialEq, Eq)]
pub enum Cause {
    NothingMore,
    Another { identification: bool, aerodrome: bool, time: bool, destination: bool, date: bool },
    Missing(&'static str),
    Forbidden(Numbers),
}

/// Why an update of a strip by a message is refused, however much room is lent to it.
pub fn cause(strip: &[u8], state: &Numbers, message: &[u8]) -> Cause {
    let mut shown = [0; 9];
    let number = unsafe {
        beechdoublet_cause(strip.as_ptr(), strip.len(), state, message.as_ptr(), message.len(), &mut shown)
    };
    let [_, a, b, c, d, e, f, g, h] = shown;
    match number {
        12 => Cause::Another {
            identification: a == 1,
            aerodrome: b == 1,
            time: c == 1,
            destination: d == 1,
            date: e == 1,
        },
        10 => Cause::Missing(["TYP", "DEP", "DEST", "ALTN"][a as usize - 1]),
        13 => Cause::Forbidden([a, b, c, d, e, f, g, h]),
        _ => Cause::NothingMore,
    }
}

/// A field in force, and where it stands.
pub enum Part<'a> {
    InStrip { from: usize, to: usize, content: &'a [u8] },
    InChange { from: usize, to: usize, content: &'a [u8] },
}

/// Asks where the content of a field in force stands.
pub fn in_force<'a>(strip: &'a [u8], state: &Numbers, change: &'a [u8], field: u64) -> Result<Part<'a>, Refusal> {
    let mut answer = [0; 6];
    let number = unsafe {
        beechdoublet_in_force(strip.as_ptr(), strip.len(), state, change.as_ptr(), change.len(), field, &mut answer)
    };
    let [_, field, place, source, from, to] = answer;
    refused(number, field, place)?;
    let (from, to) = (from as usize, to as usize);
    Ok(match source {
        1 => Part::InStrip { from, to, content: &strip[from..to] },
        _ => Part::InChange { from, to, content: &change[from..to] },
    })
}

/// The content of a message's field, by the field's number, and where it stands; of several entries the first.
pub fn field(message: &[u8], field: u64) -> Result<(Range<usize>, &[u8]), Refusal> {
    let mut answer = [0; 6];
    let number = unsafe { beechdoublet_field(message.as_ptr(), message.len(), field, &mut answer) };
    let [_, field, place, _, from, to] = answer;
    refused(number, field, place)?;
    let at = from as usize..to as usize;
    Ok((at.clone(), &message[at]))
}

/// The parts of a plan. The off-block time is a minute of the day, 0 to 1439, the elapsed time 0 to 5999 minutes, the date year, month and day.
#[derive(Clone, Debug, PartialEq, Eq)]
pub struct Plan<'a> {
    pub identification: &'a [u8],
    pub aircraft: u64,
    pub kind: &'a [u8],
    pub departure: &'a [u8],
    pub off_block: u64,
    pub destination: &'a [u8],
    pub elapsed: u64,
    pub alternates: Vec<&'a [u8]>,
    pub date: Option<(u64, u64, u64)>,
}

/// The parts of a strip, or of any accepted FPL's spelling.
pub fn plan(strip: &[u8]) -> Result<Plan<'_>, Refusal> {
    let mut n = [0; 19];
    let number = unsafe { beechdoublet_plan(strip.as_ptr(), strip.len(), &mut n) };
    refused(number, n[1], n[2])?;
    let bytes = |from: u64, to: u64| &strip[from as usize..to as usize];
    let four = |from: u64| bytes(from, from + 4);
    Ok(Plan {
        identification: bytes(n[3], n[4]),
        aircraft: n[5],
        kind: bytes(n[6], n[7]),
        departure: four(n[8]),
        off_block: n[9],
        destination: four(n[10]),
        elapsed: n[11],
        alternates: n[13..13 + n[12] as usize].iter().map(|&from| four(from)).collect(),
        date: (n[15] == 1).then_some((n[16], n[17], n[18])),
    })
}

/// A board of strips for two handlers. Slots 0 to 9 of firm 1 are places 0 to 9, those of firm 2 places 10 to 19. Whoever changes the numbers may leave
/// some that are no board's: then every call is refused with 15.
pub struct Board {
    pub places: Places,
    strips: Box<Strips>,
}

impl Board {
    /// A board on which nothing stands.
    pub fn empty() -> Board {
        let mut places = [0; 200];
        unsafe { beechdoublet_board_empty(&mut places) };
        Board { places, strips: Box::new([0; 36000]) }
    }

    /// Files a message for a firm: the slot that it got.
    pub fn file(&mut self, firm: u64, message: &[u8]) -> Result<u64, Refusal> {
        let mut answer = [0; 4];
        let number = unsafe {
            beechdoublet_board_file(
                &mut self.places,
                &mut self.strips,
                firm,
                message.as_ptr(),
                message.len(),
                &mut answer,
            )
        };
        let [_, field, place, slot] = answer;
        refused(number, field, place)?;
        Ok(slot)
    }

    /// Offers a message to the strip in a firm's slot.
    pub fn update(&mut self, firm: u64, slot: u64, message: &[u8]) -> Result<(), Refusal> {
        let mut answer = [0; 4];
        let number = unsafe {
            beechdoublet_board_update(
                &mut self.places,
                &mut self.strips,
                firm,
                slot,
                message.as_ptr(),
                message.len(),
                &mut answer,
            )
        };
        refused(number, answer[1], answer[2])
    }

    /// Clears a firm's slot, whose strip has arrived or was cancelled.
    pub fn clear(&mut self, firm: u64, slot: u64) -> Result<(), Refusal> {
        let mut answer = [0; 4];
        let number = unsafe { beechdoublet_board_clear(&mut self.places, firm, slot, &mut answer) };
        refused(number, answer[1], answer[2])
    }

    /// The state and the strip in a firm's slot.
    pub fn look(&self, firm: u64, slot: u64) -> Result<(Numbers, &[u8]), Refusal> {
        let mut answer = [0; 13];
        let number = unsafe { beechdoublet_board_look(&self.places, &self.strips, firm, slot, &mut answer) };
        let [_, field, place, a, b, c, d, e, f, g, h, from, length] = answer;
        refused(number, field, place)?;
        Ok(([a, b, c, d, e, f, g, h], &self.strips[from as usize..][..length as usize]))
    }
}

/// Whether a strip may be handed in with these numbers.
pub fn is_sound(state: &Numbers) -> bool {
    unsafe { beechdoublet_sound(state) }
}

fn refused(number: u8, field: u64, place: u64) -> Result<(), Refusal> {
    match number {
        0 => Ok(()),
        _ => Err(Refusal { number, field, place: place as usize }),
    }
}
