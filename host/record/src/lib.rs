//! Makes the list of small files with the Rust's answers, for a program that has no Rust at hand.
//! `crates/replay/README.md` says what is in it.

mod answer;
mod cases;
mod features;

use answers::{Entry, LONGEST_RECORD};
use features::features;
use generate::bytes;
use std::collections::BTreeSet;

/// The generator's files: this seed, and so many of them, of which few are kept.
const SEED: u64 = 1;
const DRAWN: u64 = 20_000;
/// Drawn files above this length are left out.
const LONGEST_DRAWN: usize = 600;
/// Drawn files that are kept of each refusal.
const REFUSED: usize = 4;

/// The hand-made files; then each drawn file with a text that shows something that no text before
/// it shows, and the first drawn ones of each refusal.
pub fn entries() -> Vec<Entry> {
    let mut seen = BTreeSet::new();
    let mut refused = [0; 10];
    let mut found = Vec::new();
    for (label, file) in cases::cases() {
        let entry = entry(label, file).unwrap_or_else(|label| panic!("{label}: no answer"));
        seen.extend(features(&entry));
        found.push(entry);
    }
    for index in 0..DRAWN {
        let file = generate::file(SEED, index);
        if file.len() > LONGEST_DRAWN {
            continue;
        }
        let Ok(entry) = entry(format!("drawn {index}"), file) else {
            continue;
        };
        let shown = features(&entry);
        let count = &mut refused[entry.answer.reply as usize];
        *count += 1;
        if !shown.is_subset(&seen) || entry.answer.reply != 0 && *count <= REFUSED {
            seen.extend(shown);
            found.push(entry);
        }
    }
    found
}

/// The label alone for a file without an answer, or with one that the list has no room for.
fn entry(label: String, file: Vec<u8>) -> Result<Entry, String> {
    let Some(answer) = answer::answer(&file) else {
        return Err(label);
    };
    let entry = Entry {
        label,
        file,
        answer,
    };
    match answers::record(&entry).len() {
        0..=LONGEST_RECORD => Ok(entry),
        _ => Err(entry.label),
    }
}
