//! Files with thousands of ids in every order, some of them defined again: the library, the model and the Rust answer the same, with a row of the table for each id, with one row less, and with
//! more.
#![cfg(feature = "linked")]

use differential::compare::Comparison;
use differential::linked::Linked;
use differential::report::Tally;
use generate::ids::{mixed, ORDERS};
use generate::Random;

const IDS: usize = 2000;

#[test]
fn no_order_of_ids_changes_an_answer() {
    let mut comparison = Comparison::default();
    comparison.library = Some(Box::new(Linked));
    let mut tally = Tally::default();
    for (stream, (name, _, ids)) in ORDERS.into_iter().enumerate() {
        let mut random = Random::new(1, stream as u64);
        let file = mixed(&ids(IDS), &mut random);
        let check = comparison.whole(&file, &mut random, &mut tally);
        assert!(check.is_ok(), "{name}: {check:?}");
    }
    // Each file is accepted, by its reading and by its text.
    assert_eq!((tally.readings[0], tally.texts[0]), (6, 6));
}
