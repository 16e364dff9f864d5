//! The stored list is what `examples/record.rs` writes, and holds every reply of the Rust's.
//!
//! One test, since the Rust's huge requests are counted for the whole process.

use std::collections::BTreeSet;

#[test]
fn stored_list() {
    let stored = concat!(env!("CARGO_MANIFEST_DIR"), "/../../crates/replay/stdin");
    let entries = record::entries();
    let made = answers::list(&entries);
    let found = std::fs::read(stored).unwrap_or_default();
    assert!(
        found == made,
        "run: cargo run --release --offline --example record -- {stored}"
    );
    let replies: BTreeSet<u32> = entries.iter().map(|entry| entry.answer.reply).collect();
    // 2 is retired.
    assert!(replies.into_iter().eq([0, 1, 3, 4, 5, 6, 7, 8, 9]));
}
