//! The lists keep to 01's words, and leave out nothing that these allow.

use generate::save::{Block, Record, Save};
use generate::widening::{widening, Insertion};
use generate::LISTED;
use std::collections::BTreeSet;

const LISTS: u64 = 3000;

/// Calls with each insertion, the save that it is made on, and whether it is the last one of an
/// unlisted type.
fn each(mut look: impl FnMut(&Insertion, &Save, bool)) {
    for index in 0..LISTS {
        let made = widening(7, index);
        let mut save = made.old.clone();
        for insertion in &made.list {
            look(insertion, &save, false);
            insertion.insert(&mut save);
        }
        assert_eq!(save, made.new_save());
        if let Some(last) = &made.last {
            look(last, &save, true);
        }
    }
}

#[test]
fn keep_to_the_words() {
    each(|insertion, save, is_last| match insertion {
        Insertion::Field {
            id,
            position,
            definition,
            values,
        } => {
            let of = save.prototype(*id).unwrap();
            assert!(*position <= of.fields.len());
            assert_eq!(of.position(&definition.name), None);
            assert!(definition.type_id != 0);
            assert_eq!(LISTED.contains(&definition.type_id), !is_last);
            let carriers = save.blocks().filter(|block| block.prototype == *id);
            assert_eq!(values.len(), carriers.count());
        }
        Insertion::Prototype { record, prototype } => {
            assert!(*record <= save.records.len());
            assert!(save.prototype(prototype.id).is_none());
        }
        Insertion::Block { record, block } => {
            assert!(block.prototype != 0 && *record <= save.records.len());
            assert!(save.defined_at(block.prototype).unwrap() < *record);
        }
    });
}

#[test]
fn define_no_id_twice() {
    for index in 0..LISTS {
        let save = widening(7, index).new_save();
        let ids: BTreeSet<u32> = save.prototypes().map(|of| of.id).collect();
        assert_eq!(ids.len(), save.prototypes().count());
    }
}

/// The words of the conditions that hold.
fn those(conditions: &[(bool, &str)]) -> Vec<String> {
    let held = conditions.iter().filter(|(holds, _)| *holds);
    held.map(|(_, word)| word.to_string()).collect()
}

/// The same word for a save of version 1.
fn in_version_1(save: &Save, word: &str) -> Option<String> {
    (save.version == 1).then(|| format!("{word}, in version 1"))
}

/// What an insertion shows of what 01 allows.
fn words(insertion: &Insertion, save: &Save) -> Vec<String> {
    let end = save.records.len();
    match insertion {
        Insertion::Field {
            id,
            position,
            definition,
            values,
        } => {
            let fields = save.prototype(*id).unwrap().fields.len();
            let is_unused = values.is_empty();
            let kind = match (LISTED.contains(&definition.type_id), is_unused) {
                (true, true) => format!("(i) of type {:#x}, unused", definition.type_id),
                (true, false) => format!("(i) of type {:#x}, carried", definition.type_id),
                (false, true) => "unlisted, unused".to_string(),
                (false, false) => "unlisted, carried".to_string(),
            };
            let mut words = those(&[
                (*position == 0, "(i) in front"),
                (0 < *position && *position < fields, "(i) between"),
                (*position == fields, "(i) behind"),
                (*id == 0, "(i) into the prototype 0"),
                (
                    values.iter().any(|value| value.1.is_empty()),
                    "without bytes",
                ),
            ]);
            words.extend(in_version_1(save, &kind));
            words.push(kind);
            words
        }
        Insertion::Prototype { record, prototype } => those(&[
            (*record == 0, "(ii) in front of the first record"),
            (*record == end, "(ii) in front of the end record"),
            (prototype.id == 0, "(ii) under 0"),
        ]),
        Insertion::Block { record, block } => block_words(*record, block, save),
    }
}

fn block_words(record: usize, block: &Block, save: &Save) -> Vec<String> {
    let of = save.of(block);
    let behind = save.records.get(record);
    let right_behind = save.defined_at(of.id) == Some(record - 1);
    let mut words = those(&[
        (of.inserted, "(iii) of an inserted prototype"),
        (!of.inserted, "(iii) of an old prototype"),
        (behind.is_none(), "(iii) in front of the end record"),
        (right_behind, "(iii) right behind its prototype"),
        (
            matches!(behind, Some(Record::Block(_))),
            "(iii) in front of a block",
        ),
    ]);
    let is_first = !save.carries(of.id);
    for field in &of.fields {
        let type_id = field.type_id;
        let word = format!("(iii) of type {type_id:#x}");
        words.extend(in_version_1(save, &word));
        words.push(word);
        if is_first && !field.inserted && !of.inserted {
            words.push(format!("(iii) of type {type_id:#x}, old and unused"));
        }
    }
    words
}

/// All words that the lists show.
fn met() -> BTreeSet<String> {
    let mut met = BTreeSet::new();
    each(|insertion, save, _| {
        met.extend(words(insertion, save));
        if insertion.is_nested(save) {
            met.insert("into an inserted part".to_string());
        }
    });
    met
}

#[test]
fn leave_nothing_out() {
    let met = met();
    for type_id in LISTED {
        for kind in [
            "(i) of type #, carried",
            "(i) of type #, carried, in version 1",
            "(i) of type #, unused",
            "(iii) of type #",
            "(iii) of type #, in version 1",
            "(iii) of type #, old and unused",
        ] {
            let word = kind.replace('#', &format!("{type_id:#x}"));
            assert!(met.contains(&word), "{word}");
        }
    }
    for word in [
        "(i) in front",
        "(i) behind",
        "(i) between",
        "(i) into the prototype 0",
        "unlisted, unused",
        "unlisted, carried",
        "unlisted, carried, in version 1",
        "without bytes",
        "(ii) in front of the first record",
        "(ii) in front of the end record",
        "(ii) under 0",
        "(iii) of an inserted prototype",
        "(iii) of an old prototype",
        "(iii) in front of the end record",
        "(iii) right behind its prototype",
        "(iii) in front of a block",
        "into an inserted part",
    ] {
        assert!(met.contains(word), "{word}");
    }
}
