//! The board: what document 02 says of counts, of what a firm is answered, and of each strip from its filing to its clearing.

use second::generate::offers::message_for;
use second::generate::{valid, Dice};
use second::{offer, Board, Kind, Refused, State, Updated, LONGEST, SLOTS};

/// A call of a firm, and what is answered to it as text.
fn file(board: &mut Board, firm: usize, plan: &[u8]) -> String {
    board.file(firm, plan).map_or_else(|refusal| refusal.to_string(), |(slot, held)| format!("{slot} {}", shown(held)))
}

fn shown(held: &Updated) -> String {
    format!("{} {}", held.state, String::from_utf8_lossy(&held.strip))
}

/// The slots in which a firm holds a strip.
fn slots(board: &Board, firm: usize) -> Vec<usize> {
    board.list(firm).expect("a firm").into_iter().map(|(slot, _)| slot).collect()
}

/// A message that ends a strip's flight: a CNL, or an ARR from a departed one.
fn ending(held: &Updated) -> Vec<u8> {
    let strip = String::from_utf8_lossy(&held.strip);
    let fields: Vec<&str> = strip.split('-').collect();
    let identification = fields[1].split('/').next().unwrap_or_default();
    let (departure, destination) = (fields[5], &fields[7][..4]);
    match held.state {
        State::Filed => format!("(CNL-{identification}-{departure}-{destination}-0)").into_bytes(),
        _ => format!("(ARR-{identification}-{departure}-{destination}-EDDF0100)").into_bytes(),
    }
}

/// Updates a strip so that its flight is over, and clears it.
fn end_and_clear(board: &mut Board, firm: usize, slot: usize) {
    let held = board.look(firm, slot).expect("a strip").clone();
    if matches!(held.state, State::Filed | State::Departed { .. }) {
        assert!(board.clear(firm, slot).is_err_and(|refused| refused.refusal.number == 13));
        board.update(firm, slot, &ending(&held)).expect("an end of the flight");
    }
    board.clear(firm, slot).expect("a flight that is over");
}

/// Strips held, and the unused parts of each firm's 6 and of the 4, counted from the accepted filings and clearings, make 16.
#[test]
fn the_counts() {
    let mut dice = Dice::new(6);
    let (mut refused, mut full) = (0, 0);
    for lean in [15, 50, 50, 85, 100] {
        let mut board = Board::default();
        let mut counted = [0usize; 2];
        for _ in 0..400 {
            let firm = if dice.chance(lean) { 1 } else { 2 };
            let (own, other) = (counted[firm - 1], counted[2 - firm]);
            let beyond = |held: usize| held.saturating_sub(6);
            let held = slots(&board, firm);
            if dice.chance(60) || held.is_empty() {
                let lowest = (0..SLOTS).find(|slot| !held.contains(slot));
                let answer = file(&mut board, firm, &valid(&mut dice, Kind::Fpl));
                let is_full = own >= 6 && beyond(own) + beyond(other) == 4;
                assert_eq!(answer == "NO 20 0 0", is_full, "{answer}");
                refused += usize::from(is_full);
                if !is_full {
                    assert!(answer.starts_with(&format!("{} FILED ", lowest.expect("a slot"))), "{answer}");
                    counted[firm - 1] += 1;
                }
            } else {
                end_and_clear(&mut board, firm, *dice.pick(&held));
                counted[firm - 1] -= 1;
            }
            let [one, two] = counted;
            assert_eq!([slots(&board, 1).len(), slots(&board, 2).len()], counted);
            assert!(beyond(one) + beyond(two) <= 4);
            let unused = 6usize.saturating_sub(one) + 6usize.saturating_sub(two) + (4 - beyond(one) - beyond(two));
            assert_eq!(one + two + unused, 16);
            full += usize::from(unused == 0);
        }
    }
    assert!(refused > 100 && full > 50, "{refused} {full}");
}

/// What one firm is answered depends on its own calls and, for filing, on how many of the 4 the other holds: in two runs the other firm holds as many
/// strips at each moment, but others, in other slots and other states.
#[test]
fn one_firm_sees_nothing_of_the_other() {
    let mut dice = Dice::new(7);
    let mut compared = 0;
    for _ in 0..60 {
        let mut boards = [Board::default(), Board::default()];
        for _ in 0..80 {
            if dice.chance(50) {
                let fills = dice.chance(60);
                for board in &mut boards {
                    other_firm(&mut dice, board, fills);
                }
            }
            let [mut one, mut two] = boards;
            let answers = own_call(&mut dice, &mut one, &mut two);
            assert_eq!(answers.0, answers.1);
            assert_eq!(one.list(1), two.list(1));
            compared += 1;
            boards = [one, two];
        }
    }
    assert!(compared > 4000);
}

/// The other firm files or clears, as told, and does something else besides that leaves its count.
fn other_firm(dice: &mut Dice, board: &mut Board, fills: bool) {
    let held = slots(board, 2);
    if fills {
        file(board, 2, &valid(dice, Kind::Fpl));
    } else if !held.is_empty() {
        end_and_clear(board, 2, *dice.pick(&held));
    }
    for _ in 0..dice.below(3) {
        let slot = dice.below(12);
        let message = board.look(2, slot).map(ending).unwrap_or_default();
        let _ = board.update(2, slot, &message);
    }
}

/// The same call of firm 1 on two boards.
fn own_call(dice: &mut Dice, one: &mut Board, two: &mut Board) -> (String, String) {
    let slot = dice.below(12);
    match dice.below(5) {
        0..=2 => {
            let plan = valid(dice, Kind::Fpl);
            (file(one, 1, &plan), file(two, 1, &plan))
        }
        3 => {
            let message = one.look(1, slot).map(ending).unwrap_or_default();
            let [one, two] = [one, two]
                .map(|board| board.update(1, slot, &message).map_or_else(|refused| refused.to_string(), shown));
            (one, two)
        }
        _ => {
            let [one, two] =
                [one, two].map(|board| board.clear(1, slot).map_err(|refused: Refused| refused.to_string()));
            (format!("{one:?}"), format!("{two:?}"))
        }
    }
}

/// A strip on the board goes as a strip by itself, whatever else is on the board.
#[test]
fn each_strip_as_by_itself() {
    let mut dice = Dice::new(8);
    let mut updated = 0;
    for _ in 0..20 {
        let mut board = Board::default();
        let mut alone = Vec::new();
        for slot in 0..SLOTS {
            let (filed, held) = board.file(2, &valid(&mut dice, Kind::Fpl)).expect("a plan and room for it");
            assert_eq!(filed, slot);
            alone.push(held.clone());
        }
        for _ in 0..200 {
            let slot = dice.below(SLOTS);
            let message = message_for(&mut dice, &alone[slot]);
            let due = offer(&alone[slot].strip, alone[slot].state, &message, LONGEST);
            assert_eq!(board.update(2, slot, &message), due.as_ref().map_err(Refused::clone));
            if let Ok(held) = due {
                alone[slot] = held;
                updated += 1;
            }
            assert!(alone.iter().enumerate().all(|(slot, held)| board.look(2, slot) == Ok(held)));
        }
    }
    assert!(updated > 500, "{updated}");
}

#[test]
fn numbers_in_their_order() {
    let plan = b"(FPL-A1-I-A1/H-H/A-EHAM0000-N0000F000 AB-EDDF0000-0)";
    let mut board = Board::default();
    for firm in [0, 3, 99, usize::MAX] {
        assert_eq!(file(&mut board, firm, b""), "NO 18 0 0");
        assert_eq!(board.update(firm, 99, b"").map_err(|refused| refused.refusal.number), Err(18));
        assert_eq!(board.clear(firm, 99).map_err(|refused| refused.refusal.number), Err(18));
        assert_eq!(board.look(firm, 99).map_err(|refusal| refusal.number), Err(18));
        assert_eq!(board.list(firm).map_err(|refusal| refusal.number), Err(18));
    }
    for slot in [0, 9, 10, usize::MAX] {
        assert_eq!(board.update(1, slot, b"").map_err(|refused| refused.refusal.number), Err(19));
        assert_eq!(board.clear(1, slot).map_err(|refused| refused.refusal.number), Err(19));
        assert_eq!(board.look(1, slot).map_err(|refusal| refusal.number), Err(19));
    }
    for _ in 0..SLOTS {
        assert!(board.file(1, plan).is_ok());
    }
    assert_eq!(file(&mut board, 1, b""), "NO 20 0 0");
    assert_eq!(file(&mut board, 2, b""), "NO 2 0 0");
}
