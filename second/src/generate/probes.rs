//! Bad input: of a message of each type every prefix, every byte changed to some others and the room one byte short; then runs of one byte.

use super::questions::{ask, Line};
use crate::message::{read, LONGEST};

/// One message of each type, and an ARR with its destination.
const MESSAGES: [&[u8]; 10] = [
    b"(FPL-ABC12/A4321-IS-2FK27/M-SE2FG/SB1-EHAM0930-N0440F310 PAM/K0430S0990 46N078W C/FOJ180040/M082F290PLUS T-EDDF0100 ZZZA-PBN/A1 DOF/240229 RMK/A)",
    b"(CHGA/F016A/F014-ABC12-EHAM0930-EDDF-DOF/240229-7/ABC13/A0123-9/B39M/M-8/VG-10/SDFG/S-13/EHAM1000-15/N0440F310 DCT-16/EDDF0110 EDDK-18/RMK/LATE)",
    b"(CNL-ABC12-EHAM0930-EDDF-RMK/NO  CREW)",
    b"(DLA\r\n-ABC12/A0123 -EHAM1015 -EDDF-0 \r\n)",
    b"(DEP-ABC12-EHAM0935-EDDF-DOF/240229)",
    b"(ARR-ABC12-EHAM0930-EDDF1028)",
    b"(ARR-ABC12-EHAM0930-EDDF-ZZZZ1620 DEN HELDER)",
    b"(RQP-ABC12-EHAM-EDDF-0)",
    b"(RQS-ABC12-EHAM0930-EDDF-0)",
    b"(SPL-ABC12-EHAM0930-EDDF0100 EDDK-REG/PHABC-E/0745 P/006 R/VE S/MD J/FL VU D/02 008 C YELLOW A/WHITE N/NO RADIO C/SMITH)",
];

/// What a byte is changed to.
const VALUES: &[u8; 11] = b"\0 ()-/9ACZ\xff";

/// How long a run of one byte is.
const RUNS: [usize; 4] = [1, 2, LONGEST, LONGEST + 1];

/// All the probes.
pub fn probes() -> Vec<Line> {
    let of_messages = MESSAGES.into_iter().flat_map(probes_of);
    let runs = (0..=255).flat_map(|value| RUNS.map(|length| ask("R", &vec![value; length])));
    of_messages.chain(runs).collect()
}

fn probes_of(message: &[u8]) -> Vec<Line> {
    let prefixes = (0..=message.len()).map(|end| ask("R", &message[..end]));
    let changes = (0..message.len()).flat_map(|place| VALUES.map(|value| ask("R", &changed(message, place, value))));
    prefixes.chain(changes).chain([in_room_short(message)]).collect()
}

fn changed(message: &[u8], place: usize, value: u8) -> Vec<u8> {
    let mut changed = message.to_vec();
    changed[place] = value;
    changed
}

/// Reading into a room one byte shorter than the spelling.
fn in_room_short(message: &[u8]) -> Line {
    let spelling = read(message, LONGEST).expect("a probe is a valid message").spelling;
    ask(&format!("r {}", spelling.len() - 1), message)
}
