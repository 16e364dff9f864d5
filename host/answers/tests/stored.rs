//! The stored list: it is read whole, and its records have room in the program that reads it.

#[test]
fn stored_list() {
    let stored = concat!(env!("CARGO_MANIFEST_DIR"), "/../../crates/replay/stdin");
    let found = std::fs::read(stored).unwrap();
    let entries = answers::entries(&found).unwrap();
    assert!(answers::list(&entries) == found);
    for entry in &entries {
        let length = answers::record(entry).len();
        assert!(length <= answers::LONGEST_RECORD, "{}", entry.label);
    }
}

#[test]
fn damaged_lists() {
    let stored = concat!(env!("CARGO_MANIFEST_DIR"), "/../../crates/replay/stdin");
    let whole = std::fs::read(stored).unwrap();
    for length in (0..whole.len()).step_by(97).chain([whole.len() - 1]) {
        assert!(answers::entries(&whole[..length]).is_none(), "{length}");
    }
    assert!(answers::entries(&[whole.as_slice(), b"\n"].concat()).is_none());
}
