//! The corpus: the second reader answers the hand-written lists as document 01 does, and the generated questions meet every answer.

use second::corpus::{answered_otherwise, corpus, listed};
use second::generate::questions::Questions;
use second::generate::Dice;
use second::tally::Tally;
use second::vectors::{vectors, Vectors};

#[test]
fn the_lists() {
    for (listed, answer) in answered_otherwise() {
        println!("{}\n  due      {}\n  answered {answer}", listed.question, listed.answer);
    }
    assert!(answered_otherwise().is_empty());
    assert!(listed().len() > 600, "{}", listed().len());
}

/// The gate compares it with a file: it is the same each time, and its last line has no line feed.
#[test]
fn the_corpus() {
    let lines = corpus();
    assert!(lines == corpus());
    assert_ne!(lines.last(), Some(&b'\n'));
    let mut answers = Vec::new();
    vectors(&lines[..], &mut answers).expect("memory takes all output");
    let tally = Tally::of(&answers[..]).expect("answers are text").to_string();
    assert!(tally.ends_with("never met: none\n"), "{tally}");
}

#[test]
fn ten_thousand_questions_meet_every_answer() {
    for seed in [1, 2, 3] {
        let mut dice = Dice::new(seed);
        let (mut questions, mut vectors, mut tally) = (Questions::default(), Vectors::default(), Tally::default());
        for _ in 0..10_000 {
            let answer = vectors.answer(&questions.next(&mut dice));
            tally.count(&String::from_utf8(answer).expect("answers are text"));
        }
        let tally = tally.to_string();
        assert!(tally.contains("cases: 10000\n") && tally.ends_with("other answers: 0\nnever met: none\n"), "{tally}");
    }
}

#[test]
fn what_was_never_met_is_said() {
    let answers =
        b"OK FPL (FPL)\nNO 7 13 10\nNO 7 3 0\nOK ARRIVED ---- EDDF 0100 (FPL)\nIN CHG 1 2 X\nHELD\nFITS\nBAD LINE\n";
    let tally = Tally::of(&answers[..]).expect("text").to_string();
    for part in [
        "cases: 8\n",
        "OK FPL 1,",
        "NO 7 2,",
        "OK ARRIVED 0,",
        "OK ARRIVED ---- 1,",
        "IN CHG 1\n",
        "FITS 1, NO 0\n",
        "other answers: 1\n",
    ] {
        assert!(tally.contains(part), "{part}: {tally}");
    }
    let never = tally.lines().last().expect("a last line");
    assert!(
        never.contains("OK CHG,") && never.contains("NO 17,") && never.ends_with(", NO") && !never.contains("NO 7,"),
        "{never}"
    );
}
