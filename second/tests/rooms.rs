//! How much room is needed: reading never needs more than the message has bytes, an update never more than strip and message together.

use second::generate::{piece, DeskRun, Dice};
use second::{read, update, Refusal, State};

const TOO_SHORT: Refusal = Refusal { number: 11, field: 0, place: 0 };

#[test]
fn reading() {
    let mut dice = Dice::new(11);
    let mut accepted = 0;
    for _ in 0..20_000 {
        let message = piece(&mut dice);
        let answer = read(&message, message.len());
        let text = String::from_utf8_lossy(&message);
        assert_eq!(answer, read(&message, usize::MAX), "{text}");
        assert_ne!(answer, Err(TOO_SHORT), "{text}");
        if let Ok(read_so) = answer {
            let needed = read_so.spelling.len();
            assert_eq!(read(&message, needed), Ok(read_so), "{text}");
            assert_eq!(read(&message, needed - 1), Err(TOO_SHORT), "{text}");
            accepted += 1;
        }
    }
    assert!(accepted > 8_000, "{accepted}");
}

#[test]
fn updates() {
    let mut accepted = 0;
    for seed in 0..300 {
        let mut dice = Dice::new(seed);
        let mut run = DeskRun::new();
        let filed = read(&run.next(&mut dice), usize::MAX).expect("a plan");
        let (mut strip, mut state) = (filed.spelling, State::Filed);
        for _ in 0..40 {
            let message = run.next(&mut dice);
            let text = String::from_utf8_lossy(&message);
            let answer = update(&strip, state, &message, strip.len() + message.len());
            assert_eq!(answer, update(&strip, state, &message, usize::MAX), "{text}");
            assert_ne!(answer, Err(TOO_SHORT), "{text}");
            if let Ok(updated) = answer {
                let needed = updated.strip.len();
                assert_eq!(update(&strip, state, &message, needed).as_ref(), Ok(&updated), "{text}");
                assert_eq!(update(&strip, state, &message, needed - 1), Err(TOO_SHORT), "{text}");
                (strip, state) = (updated.strip, updated.state);
                accepted += 1;
            }
        }
    }
    assert!(accepted > 4_000, "{accepted}");
}
