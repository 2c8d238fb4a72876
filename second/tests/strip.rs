//! The strip: document 01's example, the table, the order of numbers, the field in force.

mod common;

use common::desk_lines;
use second::{in_force, offer, update, Cause, Difference, Refusal, State};

const STRIP: &str = "(FPL-ABC12-IS-B738/M-SDFG/S-EHAM0930-N0440F310 DCT PAM DCT-EDDF0100 EDDK-0)";
const DEPARTED: State = State::Departed { time: 581 };

/// The number, field and place of a refused update, or 0 0 0.
fn refusal(strip: &str, state: State, message: &str, room: usize) -> (u8, u32, usize) {
    let answer = update(strip.as_bytes(), state, message.as_bytes(), room);
    answer.map_or_else(|r: Refusal| (r.number, r.field, r.place), |_| (0, 0, 0))
}

fn offered(state: State, message: &str) -> Result<(String, State), u8> {
    let answer = update(STRIP.as_bytes(), state, message.as_bytes(), 1800).map_err(|r| r.number)?;
    Ok((String::from_utf8(answer.strip).expect("ASCII"), answer.state))
}

#[test]
fn the_example() {
    let amended = "(FPL-ABC12-IN-B39M/M-SDFG/S-EHAM0930-N0440F310 DCT PAM DCT-EDDF0100 EDDK-0)".to_string();
    let chg = "(CHG-ABC12-EHAM0930-EDDF-0-9/B39M/M-8/IN)";
    assert_eq!(offered(State::Filed, chg), Ok((amended.clone(), State::Filed)));
    assert_eq!(offered(DEPARTED, chg), Ok((amended, DEPARTED)));
}

#[test]
fn effects() {
    let same = STRIP.to_string();
    let later = STRIP.replace("EHAM0930", "EHAM1045");
    let arrived = |departed| State::Arrived { departed, aerodrome: *b"EDDK", time: 630 };
    let effects = [
        (State::Filed, "(DLA-ABC12/A1234-EHAM1045-EDDF-0)", later, State::Filed),
        (State::Filed, "(CNL-ABC12-EHAM0930-EDDF-RMK/X)", same.clone(), State::Cancelled),
        (State::Filed, "(DEP-ABC12-EHAM0941-EDDF-0)", same.clone(), DEPARTED),
        (State::Filed, "(ARR-ABC12-EHAM0930-EDDF-EDDK1030)", same.clone(), arrived(None)),
        (DEPARTED, "(ARR-ABC12-EHAM0930-EDDF -EDDK1030)", same, arrived(Some(581))),
    ];
    for (state, message, strip, next) in effects {
        assert_eq!(offered(state, message), Ok((strip, next)), "{message}");
    }
}

#[test]
fn a_change_of_every_field() {
    let chg = "(CHG-ABC12-EHAM0930-EDDF-0-18/RMK/9/ -16/EGLL0200)";
    assert_eq!(offered(State::Filed, chg), Err(7));
    let chg = "(CHG-ABC12-EHAM0930-EDDF-RMK/OWN-18/RMK/NINE  OF -16/EGLL0200-15/K0830VFR T-13/LFPG2359-10/N/N-9/2FK27/M-8/V-7/XY/A0000)";
    let strip = "(FPL-XY/A0000-V-2FK27/M-N/N-LFPG2359-K0830VFR T-EGLL0200-RMK/NINE OF)".to_string();
    assert_eq!(offered(State::Filed, chg), Ok((strip, State::Filed)));
}

#[test]
fn a_bare_new_destination() {
    let chg = "(CHG-ABC12-EHAM0930-EDDF-0-16/EDDN )";
    let strip = STRIP.replace("EDDF0100 EDDK", "EDDN0100 EDDK");
    assert_eq!(offered(State::Filed, chg), Ok((strip.clone(), State::Filed)));
    assert_eq!(offered(DEPARTED, chg), Ok((strip, DEPARTED)));
    assert_eq!(offered(State::Cancelled, chg), Err(13));
    assert_eq!(offered(State::Filed, "(CHG-ABC12-EHAM0930-EDDN-0-16/EDDN)"), Err(12));
    assert_eq!(offered(State::Filed, "(CHG-ABC12-EHAM0930-EDDF-0-16/EDDN EDDK)"), Err(7));
    assert_eq!(refusal(STRIP, State::Filed, "(CHG-ABC12-EHAM0930-EDDF-DEST/X-16/ZZZZ)", 0), (10, 16, 0));
    let asked = |chg: &'static str, field| in_force(STRIP.as_bytes(), State::Filed, chg.as_bytes(), field);
    let neither = Refusal { number: 17, field: 0, place: 0 };
    assert_eq!(asked("(CHG-ABC12-EHAM0930-EDDF-0-16/EDDN)", 16), Err(neither));
    assert_eq!(asked("(CHG-ABC12-EHAM0930-EDDF-0-16/EDDN)", 13), Ok(&b"EHAM0930"[..]));
    assert_eq!(asked("(CHG-ABC13-EHAM0930-EDDF-0-16/EDDN)", 16).map_err(|refusal| refusal.number), Err(12));
}

#[test]
fn dates() {
    let strip = |eighteen: &str| STRIP.replace("-0)", &format!("-{eighteen})"));
    let on = |eighteen: &str, message: &str| {
        let answer = update(strip(eighteen).as_bytes(), State::Filed, message.as_bytes(), 1800);
        answer.map(|updated| String::from_utf8(updated.strip).expect("ASCII")).map_err(|r| r.number)
    };
    for message in ["(CHG-ABC12-EHAM0930-EDDF-@-8/IS)", "(CNL-ABC12-EHAM0930-EDDF-@)", "(DEP-ABC12-EHAM0930-EDDF-@)"] {
        let of = |eighteen: &str| message.replace('@', eighteen);
        assert_eq!(on("DOF/240229", &of("DOF/240301")), Err(12), "{message}");
        for (planned, sent) in [("DOF/240229", "STS/SAR DOF/240229"), ("DOF/240229", "0"), ("0", "DOF/240229")] {
            assert_eq!(on(planned, &of(sent)), Ok(strip(planned)), "{message}");
        }
    }
    let delayed = |eighteen: &str, own: &str| on(eighteen, &format!("(DLA-ABC12-EHAM0930-EDDF-{own})"));
    for (planned, sent, due) in [
        ("0", "DOF/240301 RMK/X", "DOF/240301"),
        ("DOF/240229", "DOF/240301", "DOF/240301"),
        ("DOF/240229", "RMK/X", "DOF/240229"),
        ("STS/SAR 0 RMK/A", "DOF/240301", ""),
        ("STS/SAR RMK/A 0", "DOF/240301", "STS/SAR DOF/240301 RMK/A 0"),
        ("DEST/A REG", "DOF/240301", "DEST/A REG DOF/240301"),
        ("REG/A B", "DOF/240301", "DOF/240301 REG/A B"),
    ] {
        let due = if due.is_empty() { Err(15) } else { Ok(strip(due)) };
        assert_eq!(delayed(planned, sent), due, "{planned} {sent}");
    }
}

#[test]
fn for_another_flight() {
    let others = [
        "(CHG-ABC13-EHAM0930-EDDF-0-8/IN)",
        "(CHG-ABC12-EHAM0931-EDDF-0-13/EHAM0931)",
        "(CHG-ABC12-EHRD0930-EDDF-0-8/IN)",
        "(CHG-ABC12-EHAM0930-EDDK-0-8/IN)",
        "(CNL-ABC12-EHAM0931-EDDF-0)",
        "(DLA-ABC12-EHRD0930-EDDF-0)",
        "(DEP-ABC12-EHAM0930-EDDK-0)",
        "(ARR-ABC12-EHAM0941-EDDF1030)",
        "(ARR-ABC12-EHAM0930-EDDK1030)",
        "(ARR-ABC12-EHAM0930-EDDK-EDDF1030)",
    ];
    for message in others {
        assert_eq!(offered(State::Filed, message), Err(12), "{message}");
        assert_eq!(offered(State::Cancelled, message), Err(12), "{message}");
    }
}

/// The cause of each refusal of a message of each type, and none where it is accepted.
#[test]
fn causes() {
    use Difference::*;
    let strip = STRIP.replace("-0)", "-DOF/240229)");
    let cause = |message: &str| match offer(strip.as_bytes(), DEPARTED, message.as_bytes(), 1800) {
        Err(refused) => refused.cause,
        Ok(_) => None,
    };
    let differ = |differences: &[Difference]| Some(Cause::Differs(differences.to_vec()));
    for (message, due) in [
        ("(CHG-ABC13-EHRD0931-EDDK-DOF/240301-8/IN)", &[Identification, Aerodrome, Time, Destination, Date][..]),
        ("(CNL-ABC13-EHRD0931-EDDK-DOF/240301)", &[Identification, Aerodrome, Time, Destination, Date]),
        ("(DLA-ABC13-EHRD0931-EDDK-DOF/240301)", &[Identification, Aerodrome, Destination]),
        ("(DEP-ABC13-EHRD0931-EDDK-DOF/240301)", &[Identification, Aerodrome, Destination, Date]),
        ("(ARR-ABC13-EHRD0931-EDDK1030)", &[Identification, Aerodrome, Time, Destination]),
        ("(ARR-ABC13-EHRD0931-EDDK-EDDF1030)", &[Identification, Aerodrome, Time, Destination]),
    ] {
        assert_eq!(cause(message), differ(due), "{message}");
    }
    assert_eq!(cause("(CHG-ABC12-EHAM0930-EDDF-0-16/ZZZZ0100 ZZZZ)"), Some(Cause::Lacks("DEST")));
    assert_eq!(cause("(CHG-ABC12-EHAM0930-EDDF-0-16/ZZZZ0100 ZZZZ-18/DEST/X)"), Some(Cause::Lacks("ALTN")));
    assert_eq!(cause("(DLA-ABC12-EHAM1000-EDDF-0)"), Some(Cause::Found(DEPARTED)));
    for message in ["(CHG-ABC12-EHAM0930-EDDF-0-8/IN)", "(CHG-ABC12-EHAM0930-EDDF-0-14/X)", "(RQP-A1-EHAM-EDDF-0)", ""]
    {
        assert_eq!(cause(message), None, "{message}");
    }
}

#[test]
fn forbidden_by_the_state() {
    let arrived = State::Arrived { departed: None, aerodrome: *b"EDDF", time: 0 };
    let messages = [
        ("(CHG-ABC12-EHAM0930-EDDF-0-8/IN)", true),
        ("(ARR-ABC12-EHAM0930-EDDF1030)", true),
        ("(DLA-ABC12-EHAM0930-EDDF-0)", false),
        ("(CNL-ABC12-EHAM0930-EDDF-0)", false),
        ("(DEP-ABC12-EHAM0930-EDDF-0)", false),
    ];
    for (message, when_departed) in messages {
        assert!(offered(State::Filed, message).is_ok(), "{message}");
        assert_eq!(offered(DEPARTED, message).is_ok(), when_departed, "{message}");
        assert_eq!(offered(arrived, message), Err(13), "{message}");
        assert_eq!(offered(State::Cancelled, message), Err(13), "{message}");
    }
}

#[test]
fn the_order_of_numbers() {
    let bad_states = [
        State::Departed { time: 1440 },
        State::Arrived { departed: Some(1440), aerodrome: *b"EDDF", time: 0 },
        State::Arrived { departed: None, aerodrome: *b"EDD1", time: 0 },
        State::Arrived { departed: None, aerodrome: *b"EDDF", time: 1440 },
    ];
    for state in bad_states {
        assert_eq!(refusal(STRIP, state, "rubbish", 0), (15, 0, 0));
    }
    let no_strips = ["", "(CNL-ABC12-EHAM0930-EDDF-0)", &STRIP.replace("-IS", " -IS"), &STRIP.replace("B738", "ZZZZ")];
    for strip in no_strips {
        assert_eq!(refusal(strip, State::Filed, "rubbish", 0), (15, 0, 0), "{strip}");
    }
    let filed = |message: &str, room| refusal(STRIP, State::Filed, message, room);
    assert_eq!(filed("rubbish", 0), (2, 0, 0));
    assert_eq!(filed("(ALR)", 0), (5, 3, 0));
    assert_eq!(filed("(CHG-ABC12-EHAM0930-EDDF-0-14/X)", 0), (8, 22, 26));
    assert_eq!(filed(&STRIP.replace("B738", "ZZZZ"), 0), (14, 0, 0));
    assert_eq!(filed("(RQP-ABC12-EHAM-EDDF-0)", 0), (14, 0, 0));
    assert_eq!(filed("(CHG-ABC12-EHAM0930-EDDF-0-9/ZZZZ/L)", 0), (10, 9, 0));
    assert_eq!(filed("(CHG-ABC12-EHAM0930-EDDF-0-9/ZZZZ/L-18/TYP/X)", 0), (11, 0, 0));
    assert_eq!(filed("(CHG-ABC12-EHAM0930-EDDF-0-16/ZZZZ0100)", 0), (10, 16, 0));
    assert_eq!(filed("(CNL-ABC12-EHAM0930-EDDF-0)", STRIP.len() - 1), (11, 0, 0));
    assert_eq!(filed("(CNL-ABC12-EHAM0930-EDDF-0)", STRIP.len()), (0, 0, 0));
}

#[test]
fn too_long_when_amended() {
    let strip = STRIP.replace("-0)", &format!("-RMK/{})", "X".repeat(1720)));
    let room = 1800 - strip.len();
    let chg = |extra: usize| format!("(CHG-ABC12-EHAM0930-EDDF-0-15/N0440F310 DCT PAM DCT{})", " PAM".repeat(extra));
    assert_eq!(refusal(&strip, State::Filed, &chg(room / 4), 1800), (0, 0, 0));
    assert_eq!(refusal(&strip, State::Filed, &chg(room / 4 + 1), 0), (16, 0, 0));
    let both = chg(room / 4 + 1).replace(")", "-13/ZZZZ0930)");
    assert_eq!(refusal(&strip, State::Filed, &both, 0), (10, 13, 0));
}

#[test]
fn the_field_in_force() {
    let chg = "(CHG-ABC12/A0000-EHAM0930-EDDF-0-9/B39M/M-18/RMK/8)";
    let asked = |chg: &'static str, field| in_force(STRIP.as_bytes(), State::Cancelled, chg.as_bytes(), field);
    let parts = [
        (7, "ABC12"),
        (8, "IS"),
        (9, "B39M/M"),
        (10, "SDFG/S"),
        (13, "EHAM0930"),
        (16, "EDDF0100 EDDK"),
        (18, "RMK/8"),
    ];
    for (field, part) in parts {
        assert_eq!(asked(chg, field), Ok(part.as_bytes()));
    }
    let part = asked(chg, 9).expect("in force");
    assert_eq!(part.as_ptr(), chg[35..].as_ptr());
    for field in [0, 3, 14, 17, 19, 22, 99, u32::MAX] {
        assert_eq!(asked(chg, field), Err(Refusal { number: 8, field, place: 0 }));
    }
    let number = |chg: &'static str| asked(chg, 99).map_err(|refusal| refusal.number);
    assert_eq!(number("rubbish"), Err(2));
    assert_eq!(number("(CNL-ABC13 -EHAM0930-EDDF-0)"), Err(14));
    assert_eq!(number("(CHG-ABC13-EHAM0930-EDDF-0-9/B39M/M )"), Err(17));
    assert_eq!(number("(CHG-ABC13-EHAM0930-EDDF-0-9/B39M/M)"), Err(12));
    let bad = in_force(b"", State::Filed, b"", 7).map_err(|refusal| refusal.number);
    assert_eq!(bad, Err(15));
    // A change that an update refuses with 10 is shown all the same.
    assert_eq!(asked("(CHG-ABC12-EHAM0930-EDDF-0-9/ZZZZ/L)", 9), Ok(&b"ZZZZ/L"[..]));
}

#[test]
fn the_desk() {
    let input = format!(
        "(CNL-ABC12-EHAM0930-EDDF-0) rubbish) {} (FPL) (DLA-ABC12-EHAM1000-EDDF-0) (DEP-ABC12-EHAM1001-EDDF-0)\n\
         (CHG-ABC12-EHAM1000-EDDF-0-8/IN)(DLA-ABC12-EHAM1000-EDDF-0)(ARR-ABC12-EHAM1000-EDDF1105) {0} (",
        STRIP
    );
    let strip = |time: &str, rules: &str| STRIP.replace("0930", time).replace("-IS-", rules);
    let lines = [
        "NO 14 0 0".to_string(),
        "NO 2 0 0".to_string(),
        format!("OK FILED {STRIP}"),
        "NO 6 0 4".to_string(),
        format!("OK FILED {}", strip("1000", "-IS-")),
        format!("OK DEPARTED 1001 {}", strip("1000", "-IS-")),
        format!("OK DEPARTED 1001 {}", strip("1000", "-IN-")),
        "NO 13 0 0 DEPARTED 1001".to_string(),
        format!("OK ARRIVED 1001 EDDF 1105 {}", strip("1000", "-IN-")),
        "NO 14 0 0".to_string(),
        "NO 2 0 1".to_string(),
    ];
    assert_eq!(desk_lines(&input), lines);
    let short = format!("{STRIP}(ARR-ABC12-EHAM0930-EDDF0005)");
    assert_eq!(desk_lines(&short)[1], format!("OK ARRIVED ---- EDDF 0005 {STRIP}"));
    let cancelled = format!("{STRIP}(CNL-ABC12-EHAM0930-EDDF-0)");
    assert_eq!(desk_lines(&cancelled)[1], format!("OK CANCELLED {STRIP}"));
}

/// The desk prints a cause behind a refusal of an update, and none before it holds a strip.
#[test]
fn the_desk_says_why() {
    let input = format!(
        "(FPL-ABC12-IS-ZZZZ/M-SDFG/S-EHAM0930-N0440F310 DCT-EDDF0100-0) {STRIP} (CHG-ABC12-EHAM0931-EDDK-0-8/IN)\
         (CHG-ABC12-EHAM0930-EDDF-0-16/ZZZZ) (CHG-ABC12-EHAM0930-EDDF-0-14/X) (ARR-ABC12-EHAM0930-EDDF1126)\
         (CNL-ABC12-EHAM0930-EDDF-0) (DLA-ABC13-EHAM1000-EDDF-0)"
    );
    let lines = [
        "NO 10 9 13".to_string(),
        format!("OK FILED {STRIP}"),
        "NO 12 0 0 TIME DESTINATION".to_string(),
        "NO 10 16 0 DEST".to_string(),
        "NO 8 22 26".to_string(),
        format!("OK ARRIVED ---- EDDF 1126 {STRIP}"),
        "NO 13 0 0 ARRIVED ---- EDDF 1126".to_string(),
        "NO 12 0 0 IDENTIFICATION".to_string(),
    ];
    assert_eq!(desk_lines(&input), lines);
}
