//! The lines of the vectors program: escapes, what is kept from line to line, and where a field in force stands.

use second::vectors::{vectors, Vectors, LONGEST_LINE};
use second::{field_in_force, InForce, State};

const STRIP: &str = "(FPL-ABC12-IS-B738/M-SDFG/S-EHAM0930-N0440F310 DCT-EDDF0100-0)";

fn answers(input: &[u8]) -> String {
    let mut out = Vec::new();
    vectors(input, &mut out).expect("memory takes all output");
    String::from_utf8(out).expect("answers are printable")
}

#[test]
fn one_line_for_each() {
    assert_eq!(answers(b""), "");
    assert_eq!(answers(b"\n"), "BAD LINE\n");
    assert_eq!(answers(b"R (\n\nR ("), "NO 2 0 1\nBAD LINE\nNO 2 0 1\n");
    assert_eq!(answers(b"R (\r\n"), "BAD LINE\n");
}

/// Each byte by itself, as `second/data/lines.txt` cannot have it: as an escape it is read, raw only if it is printable.
#[test]
fn every_byte() {
    for byte in 0..=255u8 {
        let mut vectors = Vectors::default();
        let escaped = format!("R (\\{byte:02x}");
        let read = vectors.answer(escaped.as_bytes());
        assert!(read.starts_with(b"NO "), "{escaped}");
        let raw = [&b"R ("[..], &[byte]].concat();
        let is_plain = (32..=126).contains(&byte) && byte != b'\\';
        assert_eq!(vectors.answer(&raw), if is_plain { read } else { b"BAD LINE".to_vec() }, "{byte}");
    }
}

#[test]
fn the_longest_line() {
    let mut vectors = Vectors::default();
    assert_eq!(vectors.answer(&vec![b'R'; LONGEST_LINE]), b"BAD LINE");
    assert_eq!(vectors.answer(&vec![b'R'; LONGEST_LINE + 1]), b"TOO LONG");
}

#[test]
fn only_an_accepted_message_moves_the_strip() {
    let input = format!("H F {STRIP}\nR (\nU (\nu 61 (CNL-ABC12-EHAM0930-EDDF-0)\nU (CNL-ABC12-EHAM0930-EDDF-0)\nU (DLA-ABC12-EHAM1000-EDDF-0)");
    let due = format!("HELD\nNO 2 0 1\nNO 2 0 1\nNO 11 0 0\nOK CANCELLED {STRIP}\nNO 13 0 0\n");
    assert_eq!(answers(input.as_bytes()), due);
}

#[test]
fn asking_for_a_cause_moves_nothing() {
    let chg = "(CHG-ABC12-EHAM0930-EDDF-0-8/IN)";
    let input = format!("H F {STRIP}\nW {chg}\nW (DLA-ABC13-EHAM1000-EDDF-0)\nU (DLA-ABC12-EHAM1000-EDDF-0)\nW {chg}");
    let due =
        format!("HELD\nNONE\nCAUSE 12 IDENTIFICATION\nOK FILED {}\nCAUSE 12 TIME\n", STRIP.replace("0930", "1000"));
    assert_eq!(answers(input.as_bytes()), due);
}

#[test]
fn where_a_field_stands() {
    let chg = b"(CHG-ABC12-EHAM0930-EDDF-0-9/B39M/M)";
    let asked = |field| field_in_force(STRIP.as_bytes(), State::Filed, chg, field).ok();
    assert_eq!(asked(9), Some(InForce::Change(29..35)));
    assert_eq!(asked(18), Some(InForce::Strip(60..61)));
    assert_eq!(asked(3), None);
}
