//! (ii) and (iii): whole records.

use super::values::{outside, word};
use super::{undefined, Plain};
use crate::bytes::{named, string};
use crate::corners;
use crate::save::{Block, Definition, Prototype, Save};
use crate::widening::parts;
use crate::widening::written::Written;
use crate::widening::Insertion;
use crate::{Random, LISTED};

pub const BREAKS: &[(&str, Plain)] = &[
    ("(ii) under an id defined in front", |random, save, _| {
        let defined = parts::any_prototype(random, save, |_| true)?.id;
        prototype(random, save, save.records.len(), |of| of.id = defined)
    }),
    ("(ii) under an id defined behind", |random, save, _| {
        let defined = parts::any_prototype(random, save, |_| true)?.id;
        prototype(random, save, 0, |of| of.id = defined)
    }),
    ("(ii) twice", |_, save, made| {
        let last = made.list.last()?;
        matches!(last, Insertion::Prototype { .. }).then(|| last.written(save))
    }),
    ("(ii) with a name not UTF-8", |random, save, _| {
        let name = corners::bad_utf8(random);
        prototype(random, save, 0, |of| of.name = name)
    }),
    ("(ii) with a field's name not UTF-8", |random, save, _| {
        let name = corners::bad_utf8(random);
        prototype(random, save, 0, |of| of.fields[0].name = name)
    }),
    ("(ii) with a definition of type 0", |random, save, _| {
        prototype(random, save, 0, |of| of.fields[0].type_id = 0)
    }),
    ("(ii) cut short", |random, save, _| {
        prototype_bytes(random, save, |bytes| {
            bytes.pop();
        })
    }),
    ("(ii) with a byte behind it", |random, save, _| {
        prototype_bytes(random, save, |bytes| bytes.push(0))
    }),
    ("(ii) with another mark than 1", |random, save, _| {
        prototype_bytes(random, save, |bytes| bytes[4] = 2)
    }),
    ("(ii) that is an end record", |random, save, _| {
        prototype_bytes(random, save, |bytes| *bytes = vec![0; 5])
    }),
    (
        "(iii) right in front of its prototype",
        |random, save, _| {
            let block = parts::block(random, save)?;
            let record = save.defined_at(block.prototype)?;
            Some(block_bytes(record, block.bytes()))
        },
    ),
    ("(iii) in front of all records", |random, save, _| {
        Some(block_bytes(0, parts::block(random, save)?.bytes()))
    }),
    ("(iii) of an id defined nowhere", |random, save, _| {
        let id = undefined(random, save);
        block(random, save, |block| block.prototype = id)
    }),
    ("(iii) of the prototype 0", |_, save, _| {
        let of = save.prototype(0).filter(|of| of.fields.is_empty())?;
        let bytes = [&of.id.to_le_bytes()[..], &[0]].concat();
        Some(block_bytes(save.records.len(), bytes))
    }),
    ("(iii) without its last value", |random, save, _| {
        let mut block = parts::block(random, save)?;
        block.values.pop()?;
        Some(block_bytes(save.records.len(), block.bytes()))
    }),
    ("(iii) cut short", |random, save, _| {
        let mut bytes = parts::block(random, save)?.bytes();
        bytes.pop();
        Some(block_bytes(save.records.len(), bytes))
    }),
    ("(iii) with a byte behind it", |random, save, _| {
        let mut bytes = parts::block(random, save)?.bytes();
        bytes.push(0);
        Some(block_bytes(save.records.len(), bytes))
    }),
    ("(iii) with a digit 0 in its id", |random, save, _| {
        block(random, save, |block| block.id = named(&[1, 38]))
    }),
    ("(iii) with a string not UTF-8", |random, save, _| {
        let bad = string(&corners::bad_utf8(random));
        with_value(random, save, 0x01, |_| bad)
    }),
    ("(iii) with a digit 0 in a word", |random, save, _| {
        with_value(random, save, 0x03, |_| word(38))
    }),
    (
        "(iii) with an enum's value outside of its list",
        |random, save, _| with_value(random, save, 0x37, outside),
    ),
    (
        "(iii) of a prototype with an unlisted type",
        |random, save, _| {
            let is_unlisted = |of: &Prototype| match of.fields.as_slice() {
                [field] => of.id != 0 && !LISTED.contains(&field.type_id),
                _ => false,
            };
            let of = parts::any_prototype(random, save, is_unlisted)?;
            let bytes = [&of.id.to_le_bytes()[..], &[0, 1, 0, 0, 0]].concat();
            Some(block_bytes(save.records.len(), bytes))
        },
    ),
    ("(iii) that is a prototype", |random, save, _| {
        let bytes = parts::prototype(random, save, 2).bytes();
        Some(block_bytes(save.records.len(), bytes))
    }),
    (
        "(iii) with a placement of eight floats in version 1",
        |random, save, _| (save.version == 1).then(|| with_floats(random, save, 8))?,
    ),
    (
        "(iii) with a placement of seven floats, not in version 1",
        |random, save, _| (save.version != 1).then(|| with_floats(random, save, 7))?,
    ),
];

/// A block with so many floats in its first placement.
fn with_floats(random: &mut Random, save: &Save, count: usize) -> Option<Written> {
    let floats = (0..count).flat_map(|_| corners::float(random).to_le_bytes());
    let floats = floats.collect();
    with_value(random, save, 0x19, |_| floats)
}

/// A prototype with a field or more, and something changed.
fn prototype(
    random: &mut Random,
    save: &Save,
    record: usize,
    change: impl FnOnce(&mut Prototype),
) -> Option<Written> {
    let mut of = parts::prototype(random, save, 2);
    of.fields.first()?;
    change(&mut of);
    let bytes = of.bytes();
    Some(Written::Prototype { record, bytes })
}

/// A prototype with its bytes changed.
fn prototype_bytes(
    random: &mut Random,
    save: &Save,
    change: impl FnOnce(&mut Vec<u8>),
) -> Option<Written> {
    let record = random.below(save.records.len() + 1);
    let mut bytes = parts::prototype(random, save, 2).bytes();
    change(&mut bytes);
    Some(Written::Prototype { record, bytes })
}

fn block_bytes(record: usize, bytes: Vec<u8>) -> Written {
    Written::Block { record, bytes }
}

/// A block with something changed.
fn block(random: &mut Random, save: &Save, change: impl FnOnce(&mut Block)) -> Option<Written> {
    let mut block = parts::block(random, save)?;
    change(&mut block);
    Some(block_bytes(save.records.len(), block.bytes()))
}

/// A block with another value in its first field of a type.
fn with_value(
    random: &mut Random,
    save: &Save,
    type_id: u32,
    value: impl FnOnce(&Definition) -> Vec<u8>,
) -> Option<Written> {
    let mut block = parts::block(random, save)?;
    let fields = &save.of(&block).fields;
    let position = fields.iter().position(|field| field.type_id == type_id)?;
    block.values[position].bytes = value(&fields[position]);
    Some(block_bytes(save.records.len(), block.bytes()))
}
