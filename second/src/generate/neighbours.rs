//! Every message that differs from a valid one by little: each prefix, each field cut off at each byte, each byte changed, dropped or doubled.

use crate::escapes::escaped;

/// Valid messages of all types that have every form between them, some with runs of white space.
pub const MESSAGES: [&[u8]; 31] = [
    b"(FPL-ABC12/A4321-IS-2FK27/M-SE2FG/SB1-EHAM0930-N0440F310 PAM/K0430S0990 46N078W T-EDDF0100 ZZZA-PBN/A1 RMK/A)",
    b"(FPLA/BC016-AB-V-ZZZZ/L-N/N-AFIL2359-K0200VFR 9000N18000E C/FOJ180040/M082F290PLUS-LFPG2359 EGLL EGKK-DEP/X TYP/Y)",
    b"(FPL-ABC-YG-10AB/H-J1J2P9/U1V2D1-ZZZZ0000-M082A045 DCT 4620N07805W/N0450M0840 12345678-ZZZZ1000-STS/HOSP DEP/A DEST/B)",
    b"(FPL-N1  -IM\r\n-B738/M -S/C-EHAM1200-N0440S1130  FOJAX360999 DCT\r\nC/LN/K0284F290A310 VFR -EDDF0010  EDDK -0 )",
    b"(FPL-ZX9-Z-99Z9/L-E1E2E3M3/ACEHILPSB1B2U1U2V1V2-EGLL2200-N0100A010 T-EHAM0030-SEL/ABCD CODE/0A9F00)",
    b"(CHGA/F016A/F014-ABC12-EHAM0930-EDDF-DOF/240229-7/ABC13/A0123-9/B39M/M-8/VG)",
    b"(CHG-ABC12-EHAM0930-EDDF-0-10/SDE3FG/SB2-13/EHAM1000-16/EDDF0110 EDDK EDDL-18/RMK/LATE)",
    b"(CHG-ABC12 -EHAM0930-EDDF-0-15/N0440F310\r\n DCT 90N180E/M082F350  KODAP2A -8/I\r\n)",
    b"(CHG-ABC12-EHAM0930-EDDF-REG/PHABC-18/EET/AB0100 XYZ2359 DLE/AB0001-16/ZZZZ2359)",
    b"(CHG-ABC12-EHAM0930-EDDF-0-16/EDDN -8/I)",
    b"(CNL-ABC12-EHAM0930-EDDF-RMK/NO  CREW)",
    b"(CNLAB/CD123EFGH/IJKL456-ABCDEFG/A7777-EHAM2359-EDDF-0)",
    b"(CNL-A1-EHAM0930-EDDF-PBN/A1B1B2C1D4L1O2T2 NAV/GBAS DOF/000229 REG/X ORGN/Y PER/A)",
    b"(DLA\r\n-ABC12/A0123 -EHAM1015 -EDDF-0 \r\n)",
    b"(DLA-AB-EHAM2000-EDDF-STS/FFR NONRVSM STATE COM/X=1 DAT/'Y' SUR/:0 RIF/Z)",
    b"(DEP-ABC12-EHAM0935-EDDF-DOF/240229)",
    b"(DEP-ABC12-EHAM0935-EDDF-DOF/231130 EET/EDGG0010 020W0337  SEL/FJEL)",
    b"(ARR-ABC12-EHAM0930-EDDF1028)",
    b"(ARR-ABC12-EHAM0930-EDDF-ZZZZ1620 DEN  HELDER)",
    b"(ARR-ABC12-EHAM0930-ZZZZ1620\r\nA.B, C)",
    b"(ARR-ABC12-EHAM0930-EDDK-EDDF2359 )",
    b"(RQP-ABC12-EHAM-EDDF-0)",
    b"(RQP-ABC12-EHAM0930 -EDDF-OPR/X ALTN/A B RALT/C TALT/D)",
    b"(RQS-ABC12-EHAM0930-EDDF-0)",
    b"(RQSA/B001-5A5912-ZZZZ0001-ZZZZ-DEP/X  Y DEST/Z)",
    b"(SPL-ABC12-EHAM0930-EDDF0100 EDDK-REG/PHABC-E/0745 P/006 R/VE S/MD J/FL VU D/02 008 C YELLOW A/WHITE N/NO RADIO C/SMITH)",
    b"(SPL-ABC12-EHAM0930-EDDF0100-0-R/UVE S/PDMJ J/L D/C RED BLUE C/C)",
    b"(SPL-AB-EHAM0930-EDDF2300 EDDK\r\nEDDL-0-P/1  D/11 330\r\nA/X )",
    b"(SPL-AB-EHAM0930-EDDF0100-TYP/2F15 5F5-J/F D/RED N/A)",
    b"(SPL-AB-EHAM0930-EDDF0100-0-E/2359 D/9 9 ORANGE)",
    b"(FPL-AB-I-A1/H-H/A-EHAM0000-N0000F000 AB-EDDF0000-0)",
];

/// The questions for all messages.
pub fn questions() -> Vec<Vec<u8>> {
    MESSAGES
        .iter()
        .flat_map(|message| neighbours(message))
        .map(|message| [b"R ", &escaped(&message)[..]].concat())
        .collect()
}

fn neighbours(message: &[u8]) -> Vec<Vec<u8>> {
    let mut all = Vec::new();
    for place in 0..message.len() {
        let (before, behind) = message.split_at(place);
        let field_end = behind.iter().position(|b| b"-)".contains(b)).unwrap_or(0);
        all.push(before.to_vec());
        if field_end > 0 {
            all.push([before, &behind[field_end..]].concat());
        }
        all.push([before, &[changed(place)], &behind[1..]].concat());
        all.push([before, &behind[1..]].concat());
        all.push([before, &behind[..1], behind].concat());
    }
    all
}

/// A letter, digit, space, oblique or hyphen in turn; not the same letter or digit each time.
fn changed(place: usize) -> u8 {
    let turn = place / 5;
    match place % 5 {
        0 => b'A' + (turn * 7 % 26) as u8,
        1 => b'0' + (turn * 3 % 10) as u8,
        2 => b' ',
        3 => b'/',
        _ => b'-',
    }
}

#[cfg(test)]
mod tests {
    use super::MESSAGES;
    use crate::message::{read, LONGEST};

    #[test]
    fn the_messages_are_valid() {
        for message in MESSAGES {
            assert!(read(message, LONGEST).is_ok(), "{}", String::from_utf8_lossy(message));
        }
    }
}
