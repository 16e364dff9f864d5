//! What a file shows: types carried, and forms of the text.

use answers::Entry;
use differential::stand_in::StandIn;
use oracle::{DataValue, Id};
use std::collections::BTreeSet;

/// Of a file that is not refused.
pub fn features(entry: &Entry) -> BTreeSet<String> {
    let mut found = BTreeSet::new();
    let stand_in = StandIn::of(&entry.file);
    let parsed = match stand_in.parse() {
        Ok(parsed) if entry.answer.reply == 0 => parsed,
        _ => return found,
    };
    found.insert(format!("{} blocks", parsed.data_blocks.len()));
    found.insert(format!("{} prototypes", parsed.prototypes.len()));
    for block in &parsed.data_blocks {
        id(&mut found, "block's", &block.id);
        let last = &parsed.prototypes[&block.prototype_id];
        for (data, definition) in block.data.iter().zip(last.fields()) {
            value(&mut found, definition.type_id(), data);
            if stand_in.is_version_1() {
                placements(&mut found, data);
            }
        }
    }
    found
}

/// The kind in force, whether the last definition is an enum's, the number of elements and their
/// forms.
fn value(found: &mut BTreeSet<String>, last: u32, value: &DataValue<'_>) {
    let debug = format!("{value:?}");
    let kind = debug.split('(').next().unwrap_or("");
    let count = value.get_array_length();
    let last = if last == 0x37 { "an enum" } else { "no enum" };
    found.insert(format!("{kind} under {last}, {count:?} elements"));
    match value {
        DataValue::String(text) => string(found, kind, text),
        DataValue::StringArray(all) => all.iter().for_each(|text| string(found, kind, text)),
        DataValue::EncodedString(word) => encoded(found, kind, word),
        DataValue::EncodedStringArray(all) => all.iter().for_each(|w| encoded(found, kind, w)),
        DataValue::Id(one) => id(found, kind, one),
        DataValue::IdArray(all) => all.iter().for_each(|one| id(found, kind, one)),
        _ => {}
    }
}

/// Of version 1.
fn placements(found: &mut BTreeSet<String>, value: &DataValue<'_>) {
    if let DataValue::FloatVec8(_) | DataValue::FloatVec8Array(_) = value {
        let count = value.get_array_length();
        found.insert(format!("seven floats, {count:?} elements"));
    }
}

fn encoded(found: &mut BTreeSet<String>, kind: &str, word: &str) {
    found.insert(format!("{kind} of {} characters", word.len()));
}

fn string(found: &mut BTreeSet<String>, kind: &str, text: &str) {
    let bare = |c: char| c.is_ascii_alphanumeric() || c == '_';
    let form = match text {
        "" => "empty",
        _ if text.chars().all(bare) => "bare",
        _ if text.bytes().all(|byte| (32..128).contains(&byte)) => "quoted",
        _ if text.is_ascii() => "escaped",
        _ => "not ASCII",
    };
    found.insert(format!("{kind} {form}"));
}

fn id(found: &mut BTreeSet<String>, kind: &str, id: &Id) {
    found.insert(match id {
        Id::Nameless(number) => {
            format!(
                "{kind} id, {} groups",
                number.checked_ilog2().map_or(0, |bit| bit / 16 + 1)
            )
        }
        Id::Named(words) => {
            let empty = words.iter().filter(|word| word.is_empty()).count();
            format!("{kind} id, {} words, {empty} empty", words.len())
        }
    });
}
