//! Document 01's examples, and the places and order of its numbers.

mod common;

use common::{line, list, marked};
use second::{read, Kind, Refusal};

#[test]
fn the_listing() {
    let input = b"(CNL-ABC12-EHAM0930-EDDF-0)\n(DLA-ABC12-EHAM2460-EDDF-0)\n(ACP-ABC12)\n";
    let output = "OK CNL (CNL-ABC12-EHAM0930-EDDF-0)\nNO 7 13 16\nNO 5 3 0\n";
    assert_eq!(list(input), output);
}

#[test]
fn pieces_of_the_listing() {
    assert_eq!(list(b""), "");
    assert_eq!(list(b" \r\n "), "");
    assert_eq!(list(b")"), "NO 2 0 0\n");
    assert_eq!(list(b"\t(CNL-ABC12-EHAM0930-EDDF-0)"), "NO 2 0 0\n");
    assert_eq!(list(b"(CNL-ABC12\n"), "NO 2 0 11\n");
    assert_eq!(list(b"(CNL-ABC12\n(CNL-ABC12-EHAM0930-EDDF-0)"), "NO 2 0 11\n");
    let stops = b"(CNL-ABC12-EHAM0930-EDDF-0).\n(CNL-ABC12-EHAM0930-EDDF-0)";
    assert_eq!(list(stops), "OK CNL (CNL-ABC12-EHAM0930-EDDF-0)\nNO 2 0 0\n");
}

#[test]
fn marks() {
    let delay = "(DLA-ABC12-EHAM2460-EDDF-0)";
    assert_eq!(marked(delay.as_bytes()), format!("NO 7 13 16\n{delay}\n                ^\n"));
    assert_eq!(marked(b"(CNL-ABC12-EHAM0930-EDDF-0)"), "OK CNL (CNL-ABC12-EHAM0930-EDDF-0)\n");
    assert_eq!(marked(b"(CNL\r\n-ABC12\r\n-EHAM\r\n-EDDF-0)"), "NO 7 13 19\n-EHAM\n     ^\n");
    assert_eq!(marked(b"(CNL-ABC12\n"), "NO 2 0 11\n\n^\n");
    assert_eq!(marked(b"(CNL\t-AB\x00\xff\x7f)"), "NO 3 0 4\n(CNL -AB???)\n    ^\n");
}

#[test]
fn the_longest_input() {
    let mut input = vec![b' '; 65_536 - 27];
    input.extend(b"(CNL-ABC12-EHAM0930-EDDF-0)");
    assert_eq!(list(&input), "OK CNL (CNL-ABC12-EHAM0930-EDDF-0)\n");
    input.push(b'\n');
    assert_eq!(list(&input), "TOO LONG\n");
}

#[test]
fn numbers_and_places() {
    let answers = [
        ("(", "NO 2 0 1"),
        ("((", "NO 2 0 1"),
        ("()", "NO 4 3 0"),
        ("(CN)", "NO 4 3 0"),
        ("( CNL-ABC12-EHAM0930-EDDF-0)", "NO 4 3 0"),
        ("(XXX-\t)", "NO 3 0 5"),
        ("(XXX-\t(", "NO 2 0 6"),
        ("(XXX-\t", "NO 2 0 6"),
        ("(ALR)", "NO 5 3 0"),
        ("(CNLX-ABC12-EHAM0930-EDDF-0)", "NO 7 3 5"),
        ("(CNL -ABC12 -EHAM0930\r\n-EDDF -0 )", "OK CNL (CNL-ABC12-EHAM0930-EDDF-0)"),
        ("(CNL A/B123-ABC12-EHAM0930-EDDF-0)", "NO 7 3 4"),
        ("(CNL-ABC12-EHAM0930- -0)", "NO 7 16 20"),
        ("(CNL-ABC12-EHAM0930--0)", "NO 7 16 20"),
        ("(CNL-ABC12-EHAM0930-EDDF- )", "NO 7 18 25"),
        ("(CNL- ABC12-EHAM0930-EDDF-0)", "NO 7 7 5"),
        ("(CNL-ABC12-EHAM0930-EDDF-RMK/A-B)", "NO 6 0 30"),
        ("(CNL-ABC12-EHAM0930-EDDF)", "NO 6 0 24"),
        ("(CNLX)", "NO 6 0 5"),
        ("(ARR-ABC12-EHAM0930)", "NO 6 0 19"),
        ("(ARR-ABC12-EHAM0930-EDDF)", "NO 7 17 24"),
        ("(ARR-ABC12-EHAM0930-EDDF-EDDF1000)", "OK ARR (ARR-ABC12-EHAM0930-EDDF-EDDF1000)"),
        ("(ARR-ABC12-EHAM0930-EDDF1000-EDDF1000)", "NO 7 16 24"),
        ("(ARR-ABC12-EHAM0930-EDDF-EDDF1000-0)", "NO 6 0 33"),
        ("(CHG-ABC12-EHAM0930-EDDF-0)", "NO 6 0 26"),
        ("(CHG-ABC12-EHAM0930-EDDF-0-8/IN-8/IN)", "NO 9 22 31"),
        ("(CHG-ABC12-EHAM0930-EDDF-0-8/IN-8/QQ)", "NO 9 22 31"),
        ("(CHG-ABC12-EHAM0930-EDDF-0-8/QQ-8/IN)", "NO 7 22 29"),
        ("(CHG-ABC12-EHAM0930-EDDF-0-07/X)", "NO 8 22 26"),
        ("(CHG-ABC12-EHAM0930-EDDF-0-0/X)", "NO 8 22 26"),
        ("(CHG-ABC12-EHAM0930-EDDF-0-14/X)", "NO 8 22 26"),
        ("(CHG-ABC12-EHAM0930-EDDF-0-99/ X)", "NO 8 22 26"),
        ("(CHG-ABC12-EHAM0930-EDDF-0-123/X)", "NO 7 22 28"),
        ("(CHG-ABC12-EHAM0930-EDDF-0-8 /IN)", "NO 7 22 28"),
        ("(CHG-ABC12-EHAM0930-EDDF-0-8/ IN)", "NO 7 22 29"),
        ("(CHG-ABC12-EHAM0930-EDDF-0- 8/IN)", "NO 7 22 27"),
        ("(CHG-ABC12-EHAM0930-EDDF-0-/IN)", "NO 7 22 27"),
        ("(CHG-ABC12-EHAM0930-EDDF-0-8)", "NO 7 22 28"),
        ("(CHG-ABC12-EHAM0930-EDDF-0-8/ -9/B738/M)", "NO 7 22 29"),
        ("(CHG-ABC12-EHAM0930-EDDF-0-8/IN \n-18/RMK/9/M)", "NO 7 22 42"),
        ("(CHG-ABC12-EHAM0930-EDDF-0-8/IN \n-18/RMK/9  M )", "OK CHG (CHG-ABC12-EHAM0930-EDDF-0-8/IN-18/RMK/9 M)"),
        ("(RQP-ABC12-EHAM0930-EDDF-0)", "OK RQP (RQP-ABC12-EHAM0930-EDDF-0)"),
        ("(DLA-ABC12-EHAM-EDDF-0)", "NO 7 13 15"),
        ("(SPL-ABC12-EHAM0930-EDDF0100-0- P/1)", "NO 7 19 31"),
        ("(SPL-ABC12-EHAM0930-EDDF0100-0-P/01  R/VU)", "OK SPL (SPL-ABC12-EHAM0930-EDDF0100-0-P/1 R/UV)"),
    ];
    for (message, answer) in answers {
        assert_eq!(line(message.as_bytes()), answer, "{message}");
    }
    assert_eq!(read(b"", 0), Err(Refusal { number: 2, field: 0, place: 0 }));
    assert_eq!(read(b"(CNL-ABC12-EHAM0930-EDDF-0)\n", 99), Err(Refusal { number: 2, field: 0, place: 26 }));
}

#[test]
fn the_longest_message() {
    let mut message = b"(CNL-ABC12-EHAM0930-EDDF-RMK/".to_vec();
    message.resize(1799, b'X');
    message.push(b')');
    assert!(read(&message, 1800).is_ok());
    assert_eq!(read(&message, 1799), Err(Refusal { number: 11, field: 0, place: 0 }));
    message.insert(40, b'*');
    assert_eq!(read(&message, 1800), Err(Refusal { number: 1, field: 0, place: 1800 }));
}

fn plan(nine: &str, thirteen: &str, sixteen: &str, eighteen: &str) -> String {
    line(format!("(FPL-AB-IS-{nine}-S/S-{thirteen}-N0440F310 DCT-{sixteen}-{eighteen})").as_bytes())
}

#[test]
fn number_10() {
    assert!(plan("B738/M", "EHAM0930", "EDDF0100", "0").starts_with("OK FPL "));
    assert_eq!(plan("ZZZZ/M", "ZZZZ0930", "ZZZZ0100", "0"), "NO 10 9 10");
    assert_eq!(plan("3ZZZZ/L", "EHAM0930", "EDDF0100", "0"), "NO 10 9 10");
    assert_eq!(plan("ZZZZ/M", "ZZZZ0930", "ZZZZ0100", "TYP/X"), "NO 10 13 21");
    assert_eq!(plan("B738/M", "AFIL0930", "EDDF0100", "DEST/X"), "NO 10 13 21");
    assert_eq!(plan("B738/M", "AFIL0930", "ZZZZ0100 ZZZZ", "DEP/X ALTN/Y"), "NO 10 16 44");
    assert_eq!(plan("B738/M", "AFIL0930", "ZZZZ0100 EDDK ZZZZ", "DEP/X DEST/Y"), "NO 10 16 44");
    assert!(plan("B738/M", "AFIL0930", "ZZZZ0100 EDDK ZZZZ", "DEP/X DEST/Y ALTN/Z").starts_with("OK"));
    assert!(plan("B738/M", "EHAM0930", "AFIL0100 AFIL", "0").starts_with("OK"));
    assert_eq!(plan("ZZZZ/M", "EHAM0930", "EDDF0100", "RMK/TYP"), "NO 10 9 10");
    assert!(line(b"(SPL-AB-ZZZZ0930-ZZZZ0100-0-P/1)").starts_with("OK"));
}

#[test]
fn all_kinds_are_named() {
    for kind in Kind::ALL {
        assert_eq!(Kind::named(kind.name().as_bytes()), Some(kind));
    }
}
