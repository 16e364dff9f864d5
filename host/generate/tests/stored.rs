//! The stored lists of insertions: they are read whole, and every listed type and every break is
//! among them.

use generate::widening::{lists, stored_lists, text, Sizes, Stored, Widening};
use generate::{Random, LISTED};
use std::collections::BTreeSet;

fn stored_text() -> String {
    let path = concat!(
        env!("CARGO_MANIFEST_DIR"),
        "/../../tests/widening/lists.txt"
    );
    std::fs::read_to_string(path).unwrap()
}

fn stored() -> Vec<Stored> {
    lists(&stored_text()).unwrap()
}

#[test]
fn are_read_whole() {
    assert_eq!(text(&stored()), stored_text());
}

#[test]
fn are_made_again() {
    assert!(
        stored_lists() == stored(),
        "the generator makes other lists: see examples/lists.rs"
    );
}

/// An allowed list as it was made, by its label, `list INDEX of seed SEED`; the empty one is a part of it.
fn made(list: &Stored) -> Widening {
    let words: Vec<&str> = list.label.split(' ').collect();
    let [index, seed] = [1, 4].map(|word| words[word].parse().unwrap());
    Widening::new(&mut Random::new(seed, index), Sizes::SMALL).shorter(list.list.len())
}

/// The types of the values that are inserted, and of those in inserted blocks.
fn inserted_types(is_asked: fn(&Widening) -> bool) -> [BTreeSet<u32>; 2] {
    let stored = stored();
    let made = stored.iter().filter(|list| list.is_allowed).map(made);
    let types = made.filter(is_asked).map(|made| made.inserted_types());
    types.reduce(|[a, b], [c, d]| [&a | &c, &b | &d]).unwrap()
}

#[test]
fn have_every_type() {
    for types in inserted_types(|_| true) {
        assert_eq!(types, BTreeSet::from(LISTED));
    }
    let in_version_1 = inserted_types(|made| made.old.version == 1);
    let in_others = inserted_types(|made| made.old.version != 1);
    for types in in_version_1.iter().chain(&in_others) {
        assert!(types.contains(&0x19) && types.contains(&0x1a));
    }
}

#[test]
fn break_each_word_once() {
    let stored = stored();
    let labels = |is_allowed: bool| {
        let those = stored.iter().filter(|list| list.is_allowed == is_allowed);
        those.map(|list| &list.label).collect::<BTreeSet<_>>()
    };
    assert_eq!((labels(true).len(), labels(false).len()), (216, 72));
    assert_eq!(stored.len(), 288);
}

#[test]
fn damaged_files() {
    let whole = "allowed a\nsave 42\nfield 1 0 27 00 -\nblock 2 01\n\n";
    assert!(lists(whole).is_some());
    for (part, other) in [
        ("allowed a", "allowed"),
        ("allowed", "perhaps"),
        ("save 42", "save 4"),
        ("save 42\n", ""),
        ("field 1 0 27", "field 1 x 27"),
        ("00 -", "00  -"),
        ("block 2 01", "block 2"),
        ("block", "blocks"),
    ] {
        assert!(lists(&whole.replace(part, other)).is_none(), "{part}");
    }
}
