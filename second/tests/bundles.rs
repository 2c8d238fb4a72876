//! Several changes in one CHG, or one by one: the final strip and state are the same if every single CHG is accepted.

use second::generate::bundles::Bundle;
use second::generate::Dice;
use second::{update, Updated, LONGEST};

/// How many bundles are made; four in five are accepted.
const BUNDLES: usize = 4000;

/// All orders of so many things.
fn orders(count: usize) -> Vec<Vec<usize>> {
    if count == 0 {
        return vec![Vec::new()];
    }
    let with_last = |order: Vec<usize>| {
        (0..count).map(move |place| {
            let mut order = order.clone();
            order.insert(place, count - 1);
            order
        })
    };
    orders(count - 1).into_iter().flat_map(with_last).collect()
}

/// What a run of messages leaves; `None` if one is refused.
fn after(held: &Updated, messages: &[Vec<u8>]) -> Option<Updated> {
    let offer = |held: Updated, message: &Vec<u8>| update(&held.strip, held.state, message, LONGEST).ok();
    messages.iter().try_fold(held.clone(), offer)
}

#[test]
fn one_by_one() {
    let mut dice = Dice::new(14);
    let (mut bundles, mut asked, mut accepted, mut in_every_order, mut in_some_only) = (0, 0, 0, 0, 0);
    for _ in 0..BUNDLES {
        let bundle = Bundle::some(&mut dice);
        let Some(due) = after(&bundle.held, &[bundle.whole()]) else { continue };
        let orders = orders(bundle.entries.len());
        let mut taken = 0;
        for order in &orders {
            let messages = bundle.singles(order.iter().map(|&place| &bundle.entries[place]));
            if let Some(left) = after(&bundle.held, &messages) {
                assert_eq!(left, due, "{}", String::from_utf8_lossy(&messages.join(&b'\n')));
                taken += 1;
            }
        }
        bundles += 1;
        asked += orders.len();
        accepted += taken;
        in_every_order += usize::from(taken == orders.len());
        in_some_only += usize::from(taken > 0 && taken < orders.len());
    }
    println!("{bundles} bundles accepted of {BUNDLES}; {asked} orders of single CHGs, every single one accepted in {accepted}");
    println!("{in_every_order} bundles with every single CHG accepted in every order, {in_some_only} in some only");
    assert!(bundles > 3000 && accepted > 20_000 && in_every_order > 2000 && in_some_only > 100);
}

#[test]
fn all_orders() {
    let six = orders(3);
    assert_eq!(six.len(), 6);
    assert!([[0, 1, 2], [0, 2, 1], [1, 0, 2], [1, 2, 0], [2, 0, 1], [2, 1, 0]]
        .iter()
        .all(|order| six.contains(&order.to_vec())));
    assert_eq!(orders(4).len(), 24);
}
