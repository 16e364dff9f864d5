//! Well-formed parts of a save: definitions, prototypes, values and blocks.

use crate::corners;
use crate::save::{Block, Definition, Prototype, Save, Value};
use crate::valid::{self, LISTED, PROTOTYPE_IDS, UNLISTED};
use crate::Random;

pub fn any_bytes(random: &mut Random, len: usize) -> Vec<u8> {
    (0..len).map(|_| random.number() as u8).collect()
}

/// A type that 01 does not list, and not 0.
pub fn unlisted(random: &mut Random) -> u32 {
    let drawn = match random.chance(30) {
        true => random.number() as u32,
        false => random.below(0x48) as u32,
    };
    match drawn == 0 || LISTED.contains(&drawn) {
        true => random.pick(&UNLISTED),
        false => drawn,
    }
}

/// A prototype that is as asked for, if there is one.
pub fn any_prototype<'a>(
    random: &mut Random,
    save: &'a Save,
    is_asked: impl Fn(&Prototype) -> bool,
) -> Option<&'a Prototype> {
    let found: Vec<_> = save.prototypes().filter(|of| is_asked(of)).collect();
    match found.is_empty() {
        true => None,
        false => Some(random.pick(&found)),
    }
}

/// A name: one with corners, or one that stands elsewhere in the save.
fn name(random: &mut Random, save: &Save) -> Vec<u8> {
    if random.chance(30) {
        if let Some(other) = any_prototype(random, save, |_| true) {
            let mut names = vec![&other.name];
            names.extend(other.fields.iter().map(|field| &field.name));
            return random.pick(&names).clone();
        }
    }
    match random.below(40) {
        0 => vec![b'n'; 256 + random.below(100)],
        _ => corners::string(random).into_bytes(),
    }
}

fn definition(random: &mut Random, save: &Save) -> Definition {
    let type_id = valid::listed(random);
    let mut list = Vec::new();
    if type_id == 0x37 {
        for _ in 0..random.below(5) {
            let number = random.pick(&[0, 1, 1, 2, 3, 0xffff_ffff]);
            list.push((number, corners::string(random).into_bytes()));
        }
    }
    Definition {
        type_id,
        name: name(random, save),
        list,
        inserted: false,
    }
}

/// A definition for (i): its name is none of the prototype's names, and blocks that carry it can have
/// a value.
pub fn new_definition(random: &mut Random, of: &Prototype, save: &Save) -> Definition {
    loop {
        let drawn = definition(random, save);
        let is_empty = drawn.type_id == 0x37 && drawn.list.is_empty();
        if of.position(&drawn.name).is_none() && !(is_empty && save.carries(of.id)) {
            return drawn;
        }
    }
}

/// A prototype under an id that the save does not define.
pub fn prototype(random: &mut Random, save: &Save, most: usize) -> Prototype {
    let id = loop {
        let id = match random.chance(20) {
            true => random.number() as u32,
            false => random.pick(&PROTOTYPE_IDS),
        };
        if save.prototype(id).is_none() {
            break id;
        }
    };
    let count = random.below(most + 1);
    Prototype {
        id,
        name: name(random, save),
        fields: (0..count).map(|_| definition(random, save)).collect(),
        inserted: false,
    }
}

/// A value that is well-formed by the version; an enum's stands in its list.
pub fn value(random: &mut Random, version: u32, field: &Definition) -> Vec<u8> {
    match field.type_id {
        0x37 => {
            let (number, _) = field.list[random.below(field.list.len())];
            number.to_le_bytes().to_vec()
        }
        type_id => valid::well_formed(random, version, type_id),
    }
}

/// Whether a block of it converts: an id that is not 0, listed types, enums with something to name.
fn has_blocks(of: &Prototype) -> bool {
    let is_fit = |field: &Definition| {
        LISTED.contains(&field.type_id) && (field.type_id != 0x37 || !field.list.is_empty())
    };
    of.id != 0 && of.fields.iter().all(is_fit)
}

/// A block of some prototype of the save, if one can have blocks.
pub fn block(random: &mut Random, save: &Save) -> Option<Block> {
    let of = any_prototype(random, save, has_blocks)?;
    let value = |field: &Definition| Value {
        bytes: value(random, save.version, field),
        inserted: false,
    };
    let values = of.fields.iter().map(value).collect();
    Some(Block {
        prototype: of.id,
        id: valid::well_formed(random, save.version, 0x39),
        values,
        inserted: false,
    })
}
