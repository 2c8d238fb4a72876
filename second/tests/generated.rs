//! Properties over generated messages; nothing panics.

use second::generate::{form_and_content, piece, valid, DeskRun, Dice};
use second::{field_fits, read, spelling19, update, Kind, State, LONGEST};

#[test]
fn valid_messages_are_accepted() {
    let mut dice = Dice::new(1);
    for kind in Kind::ALL {
        for _ in 0..300 {
            let message = valid(&mut dice, kind);
            let answer = read(&message, LONGEST);
            if message.len() <= LONGEST {
                let text = String::from_utf8_lossy(&message);
                assert_eq!(answer.map(|accepted| accepted.kind), Ok(kind), "{text}");
            }
        }
    }
}

#[test]
fn a_spelling_is_its_own_spelling() {
    let mut dice = Dice::new(2);
    for _ in 0..3000 {
        let message = piece(&mut dice);
        if let Ok(accepted) = read(&message, LONGEST) {
            assert_eq!(read(&accepted.spelling, LONGEST), Ok(accepted));
        }
    }
}

/// A content fits a form exactly when a message with it in that place is accepted.
#[test]
fn contents_fit_as_in_a_message() {
    let mut dice = Dice::new(3);
    for _ in 0..5000 {
        let (form, content) = form_and_content(&mut dice);
        let (before, behind) = match form {
            "3" if content.starts_with(b"CNL") => ("(", "-AB-EHAM0930-EDDF-0)"),
            "7" => ("(CNL-", "-EHAM0930-EDDF-0)"),
            "13" => ("(CNL-AB-", "-EDDF-0)"),
            "13open" => ("(RQP-AB-", "-EDDF-0)"),
            "16" => ("(CNL-AB-EHAM0930-", "-0)"),
            "16plan" => ("(SPL-AB-EHAM0930-", "-0-P/1)"),
            "17" => ("(ARR-AB-EHAM0930-EDDF-", ")"),
            "18" => ("(CNL-AB-EHAM0930-EDDF-", ")"),
            "19" => ("(SPL-AB-EHAM0930-EDDF0100-0-", ")"),
            "8" => ("(CHG-AB-EHAM0930-EDDF-0-8/", ")"),
            "9" => ("(CHG-AB-EHAM0930-EDDF-0-9/", ")"),
            "10" => ("(CHG-AB-EHAM0930-EDDF-0-10/", ")"),
            "15" => ("(CHG-AB-EHAM0930-EDDF-0-15/", ")"),
            _ => continue,
        };
        let message = [before.as_bytes(), &content, behind.as_bytes()].concat();
        let spelled = spelling19(&content).filter(|_| form == "19").unwrap_or(content.clone());
        let due = [before.as_bytes(), &spelled, behind.as_bytes()].concat();
        let same = read(&message, LONGEST).is_ok_and(|accepted| accepted.spelling == due);
        assert_eq!(field_fits(form, &content), same, "{form} {}", String::from_utf8_lossy(&content));
    }
}

#[test]
fn the_strip_stays_canonical() {
    for seed in 0..40 {
        let mut dice = Dice::new(seed);
        let mut run = DeskRun::new();
        let filed = read(&run.next(&mut dice), LONGEST).expect("a plan");
        let (mut strip, mut state) = (filed.spelling, State::Filed);
        for _ in 0..40 {
            if let Ok(updated) = update(&strip, state, &run.next(&mut dice), LONGEST) {
                let again = read(&updated.strip, LONGEST).expect("a plan");
                assert_eq!(again.spelling, updated.strip);
                (strip, state) = (updated.strip, updated.state);
            }
        }
    }
}

#[test]
fn any_bytes_at_all() {
    let mut dice = Dice::new(4);
    for _ in 0..2000 {
        let bytes: Vec<u8> = (0..dice.below(60)).map(|_| dice.below(256) as u8).collect();
        assert!(read(&bytes, LONGEST).is_err());
        let message = piece(&mut dice);
        let cut = dice.below(message.len());
        let _ = read(&message[..cut], LONGEST);
        let _ = read(&message[cut..], LONGEST);
        let _ = update(&message, State::Filed, &message[..cut], 100);
    }
}
