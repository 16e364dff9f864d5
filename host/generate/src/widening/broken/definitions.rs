//! (i): where the definition goes, its name and its bytes.

use super::field::Field;
use super::{undefined, Plain};
use crate::corners;
use crate::save::{Definition, Prototype, Save};
use crate::widening::written::Written;
use crate::widening::Insertion;
use crate::Random;

pub const BREAKS: &[(&str, Plain)] = &[
    ("(i) into an id that is not defined", |random, save, _| {
        let id = undefined(random, save);
        Field::unused(random, save)?.with(|field| field.id = id)
    }),
    ("(i) one behind the last position", |random, save, _| {
        let carried = Field::new(random, save, true, &[])?;
        carried.with(|field| field.position = field.fields + 1)
    }),
    ("(i) far behind the last position", |random, save, _| {
        Field::unused(random, save)?.with(|field| field.position = field.fields + 1000)
    }),
    ("(i) under the first name", |random, save, _| {
        named_as(random, save, false, |of| of.fields.first())
    }),
    ("(i) under the last name", |random, save, _| {
        named_as(random, save, false, |of| of.fields.last())
    }),
    ("(i) under a carried name", |random, save, _| {
        named_as(random, save, true, |of| of.fields.last())
    }),
    ("(i) under an inserted name", |random, save, _| {
        named_as(random, save, false, |of| {
            of.fields.iter().find(|field| field.inserted)
        })
    }),
    ("(i) twice", |_, save, made| {
        let last = made.list.last()?;
        let is_carried = matches!(last, Insertion::Field { values, .. } if !values.is_empty());
        is_carried.then(|| last.written(save))
    }),
    ("(i) of type 0", |random, save, _| {
        Field::unused(random, save)?.with(|field| field.definition.type_id = 0)
    }),
    ("(i) with a name that is not UTF-8", |random, save, _| {
        let name = corners::bad_utf8(random);
        Field::unused(random, save)?.with(|field| field.definition.name = name)
    }),
    ("(i) with an enum's string not UTF-8", |random, save, _| {
        let list = vec![(5, b"five".to_vec()), (6, corners::bad_utf8(random))];
        let choice = Field::new(random, save, false, &[0x37])?;
        choice.with(|field| field.definition.list = list)
    }),
    ("(i) with a definition cut short", |random, save, _| {
        Field::unused(random, save)?.with_definition(|bytes| {
            bytes.pop();
        })
    }),
    (
        "(i) with a byte behind the definition",
        |random, save, _| Field::unused(random, save)?.with_definition(|bytes| bytes.push(0)),
    ),
    ("(i) with an enum's list cut short", |random, save, _| {
        let choice = Field::new(random, save, false, &[0x37])?;
        let count = 8 + choice.definition.name.len();
        choice.with_definition(|bytes| bytes[count] += 1)
    }),
];

/// Under a name that the prototype has.
fn named_as(
    random: &mut Random,
    save: &Save,
    is_carried: bool,
    which: impl Fn(&Prototype) -> Option<&Definition>,
) -> Option<Written> {
    let field = Field::new(random, save, is_carried, &[])?;
    let name = which(save.prototype(field.id)?)?.name.clone();
    field.with(|field| field.definition.name = name)
}
