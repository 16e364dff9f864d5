//! (i): the value of one block.

use super::field::Field;
use super::Break;
use crate::bytes::{array, named, string};
use crate::corners;
use crate::save::{Definition, Save};
use crate::valid;
use crate::widening::written::Written;
use crate::{Random, ARRAYS};

/// What takes the place of a well-formed value, if that has what is needed for it.
type Change = fn(&mut Random, &Definition, &[u8]) -> Option<Vec<u8>>;

const NUMBERS: &[u32] = &[
    0x05, 0x07, 0x09, 0x11, 0x17, 0x19, 0x25, 0x27, 0x2b, 0x2f, 0x31, 0x33, 0x35,
];
const IDS: &[u32] = &[0x39, 0x3b, 0x3d];

const CHANGES: &[(&str, &[u32], Change)] = &[
    ("(i) without a value", &[], |_, _, _| Some(Vec::new())),
    ("(i) with a number cut short", NUMBERS, cut),
    ("(i) with a string cut short", &[0x01], cut),
    ("(i) with a word cut short", &[0x03], cut),
    ("(i) with an id cut short", IDS, cut),
    ("(i) with an array cut short", &ARRAYS, cut),
    ("(i) with a byte behind a number", NUMBERS, longer),
    ("(i) with a byte behind a string", &[0x01], longer),
    ("(i) with a byte behind a word", &[0x03], longer),
    ("(i) with a byte behind an id", IDS, longer),
    ("(i) with a byte behind an array", &ARRAYS, longer),
    (
        "(i) with a count above the elements",
        &ARRAYS,
        |_, _, value| Some([&[value[0] + 1], &value[1..]].concat()),
    ),
    (
        "(i) with a count below the elements",
        &ARRAYS,
        |_, _, value| Some([&[value[0].checked_sub(1)?], &value[1..]].concat()),
    ),
    ("(i) with a string not UTF-8", &[0x01], |random, _, _| {
        Some(string(&corners::bad_utf8(random)))
    }),
    (
        "(i) with a string of an array not UTF-8",
        &[0x02],
        |random, _, _| Some(array(&[string(b"a"), string(&corners::bad_utf8(random))])),
    ),
    (
        "(i) with a word whose first digit is 0",
        &[0x03],
        |_, _, _| Some(word(38)),
    ),
    (
        "(i) with a word whose second digit is 0",
        &[0x03],
        |_, _, _| Some(word(1 + 38 * 38)),
    ),
    (
        "(i) with a digit 0 in an array of words",
        &[0x04],
        |_, _, _| Some(array(&[word(1), word(1 << 63 | 76)])),
    ),
    ("(i) with a digit 0 in an id", IDS, |_, _, _| {
        Some(named(&[1, 38]))
    }),
    (
        "(i) with a digit 0 in an array of ids",
        &[0x3a, 0x3c],
        |_, _, _| Some(array(&[named(&[]), named(&[38])])),
    ),
    (
        "(i) with an enum's value outside of its list",
        &[0x37],
        |_, field, _| Some(outside(field)),
    ),
];

/// Placements with the floats of another version.
const PLACEMENTS: &[(&str, bool, u32)] = &[
    (
        "(i) with a placement of eight floats in version 1",
        true,
        0x19,
    ),
    (
        "(i) with placements of eight floats in version 1",
        true,
        0x1a,
    ),
    (
        "(i) with a placement of seven floats, not in version 1",
        false,
        0x19,
    ),
    (
        "(i) with placements of seven floats, not in version 1",
        false,
        0x1a,
    ),
];

/// Unlisted types, some of them beside listed ones.
const UNLISTED: &[(&str, u32)] = &[
    ("(i) of the unlisted type 0x08, carried", 0x08),
    ("(i) of the unlisted type 0x0b, carried", 0x0b),
    ("(i) of the unlisted type 0x16, carried", 0x16),
    ("(i) of the unlisted type 0x38, carried", 0x38),
    ("(i) of the unlisted type 0x3e, carried", 0x3e),
    ("(i) of the unlisted type 0x105, carried", 0x105),
];

pub fn breaks() -> impl Iterator<Item = (&'static str, Break)> {
    let changes = CHANGES.iter().map(|(label, types, change)| {
        let make: Break = Box::new(|random, save, _| changed(random, save, types, *change));
        (*label, make)
    });
    let placements = PLACEMENTS.iter().map(|(label, in_version_1, type_id)| {
        let make: Break = Box::new(|random, save, _| {
            let other: Change = match in_version_1 {
                true => |random, field, _| by_version(random, 2, field),
                false => |random, field, _| by_version(random, 1, field),
            };
            let is_asked = (save.version == 1) == *in_version_1;
            is_asked.then(|| changed(random, save, &[*type_id], other))?
        });
        (*label, make)
    });
    let unlisted = UNLISTED.iter().map(|(label, type_id)| {
        let make: Break = Box::new(|random, save, _| {
            let number = Field::new(random, save, true, &[0x27])?;
            number.with(|field| field.definition.type_id = *type_id)
        });
        (*label, make)
    });
    let empty: Break = Box::new(|random, save, _| {
        let choice = Field::new(random, save, true, &[0x37])?;
        choice.with(|field| field.definition.list.clear())
    });
    let empty = ("(i) with an enum's value and an empty list", empty);
    changes.chain(placements).chain([empty]).chain(unlisted)
}

/// With the value of one block changed.
fn changed(random: &mut Random, save: &Save, types: &[u32], change: Change) -> Option<Written> {
    let mut field = Field::new(random, save, true, types)?;
    let numbered = field.values.iter().enumerate();
    let there = numbered.filter(|(_, value)| !value.is_empty());
    let there: Vec<usize> = there.map(|(number, _)| number).collect();
    let value = &mut field.values[random.pick(&there)];
    *value = change(random, &field.definition, value)?;
    field.with(|_| {})
}

fn cut(_: &mut Random, _: &Definition, value: &[u8]) -> Option<Vec<u8>> {
    Some(value[..value.len() - 1].to_vec())
}

/// An array without elements is the same in all versions.
fn by_version(random: &mut Random, version: u32, field: &Definition) -> Option<Vec<u8>> {
    let value = valid::well_formed(random, version, field.type_id);
    Some(value).filter(|value| value.len() > 4)
}

fn longer(_: &mut Random, _: &Definition, value: &[u8]) -> Option<Vec<u8>> {
    Some([value, &[0]].concat())
}

pub fn word(word: u64) -> Vec<u8> {
    word.to_le_bytes().to_vec()
}

/// A number that no pair of an enum has.
pub fn outside(field: &Definition) -> Vec<u8> {
    let is_free = |number: &u32| field.list.iter().all(|pair| pair.0 != *number);
    let free = (0..).find(is_free).expect("a list is short");
    free.to_le_bytes().to_vec()
}
