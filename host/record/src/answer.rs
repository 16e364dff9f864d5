//! What the Rust says about a file; of version 1 and of types that its reader stops at, by a stand-in.

use answers::{Answer, LookUp};
use differential::stand_in::StandIn;
use oracle::{BsiiFile, DataBlock};

/// The names that are looked up in one file.
const NAMES: usize = 2;

/// None where the answer is not the same in every build of the Rust, or not comparable: see
/// `crates/replay/README.md`, "What is left out".
pub fn answer(file: &[u8]) -> Option<Answer> {
    let short_header = file.starts_with(b"BSII") && file.len() < 8;
    let reserved = oracle::huge_requests();
    let stand_in = StandIn::of(file);
    let parsed = stand_in.parse();
    if short_header || oracle::huge_requests() > reserved {
        return None;
    }
    let parsed = match parsed {
        Ok(parsed) => parsed,
        Err(fault) => {
            return fault.number().map(|reply| Answer {
                reading: reply,
                reply,
                ..Answer::default()
            })
        }
    };
    if stand_in.has_open_sums(&parsed) {
        return None;
    }
    let (reply, text) = match oracle::to_siin(&parsed) {
        Ok(text) => (0, text),
        Err(fault) => (fault.number()?, String::new()),
    };
    Some(Answer {
        reading: 0,
        reply,
        prototypes: parsed.prototypes.len() as u32,
        blocks: parsed.data_blocks.len() as u32,
        text: text.into_bytes(),
        look_ups: look_ups(&parsed),
    })
}

/// Names that have blocks come first.
fn look_ups(parsed: &BsiiFile<'_>) -> Vec<LookUp> {
    let mut ids: Vec<u32> = parsed.data_blocks.iter().map(|b| b.prototype_id).collect();
    let mut others: Vec<u32> = parsed.prototypes.keys().copied().collect();
    others.sort();
    ids.extend(others);
    let mut found: Vec<LookUp> = Vec::new();
    for id in ids {
        let name = parsed.prototypes[&id].name;
        if found.len() < NAMES && found.iter().all(|one| one.name != name.as_bytes()) {
            let numbers = numbers(parsed, name);
            let name = name.into();
            found.push(LookUp { name, numbers });
        }
    }
    found
}

/// The numbers of the blocks that the Rust gives for a name, by their addresses.
fn numbers(parsed: &BsiiFile<'_>, name: &str) -> Vec<u32> {
    let first = parsed.data_blocks.as_ptr() as usize;
    let size = std::mem::size_of::<DataBlock<'_>>();
    parsed
        .blocks_by_prototype_name(name)
        .map(|block| ((block as *const _ as usize - first) / size) as u32)
        .collect()
}
