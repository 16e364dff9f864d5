//! Random lists of insertions, by the words of document 01's "Widening".

mod broken;
mod insertion;
mod parts;
mod stored;
mod written;

pub use insertion::Insertion;
pub use stored::stored_lists;
pub use written::{lists, text, Stored, Written};

use crate::save::{Prototype, Record, Save};
use crate::valid;
use crate::Random;
use std::collections::BTreeSet;

/// A save that converts and defines no id twice, insertions that are allowed one after the other, and
/// perhaps one last definition of an unlisted type.
#[derive(Clone, Debug)]
pub struct Widening {
    pub old: Save,
    pub list: Vec<Insertion>,
    pub last: Option<Insertion>,
}

/// How large a save and how long a list at most.
#[derive(Clone, Copy, Debug)]
pub struct Sizes {
    pub records: usize,
    pub fields: usize,
    pub insertions: usize,
}

impl Sizes {
    pub const SMALL: Sizes = Sizes {
        records: 4,
        fields: 3,
        insertions: 4,
    };
    const USUAL: Sizes = Sizes {
        records: 9,
        fields: 5,
        insertions: 8,
    };
    const LARGE: Sizes = Sizes {
        records: 40,
        fields: 9,
        insertions: 30,
    };
}

/// List `index` of `seed`, which is always the same.
pub fn widening(seed: u64, index: u64) -> Widening {
    let mut random = Random::new(seed, index);
    let sizes = match random.below(50) {
        0 => Sizes::LARGE,
        1..=9 => Sizes::SMALL,
        _ => Sizes::USUAL,
    };
    Widening::new(&mut random, sizes)
}

impl Widening {
    pub fn new(random: &mut Random, sizes: Sizes) -> Widening {
        let old = old_save(random, sizes);
        let mut save = old.clone();
        let mut list = Vec::new();
        for _ in 0..random.below(sizes.insertions + 1) {
            let next = insertion(random, &save, sizes);
            next.insert(&mut save);
            list.push(next);
        }
        let last = match random.chance(60) {
            true => last(random, &save),
            false => None,
        };
        Widening { old, list, last }
    }

    /// The save after the list.
    pub fn new_save(&self) -> Save {
        let mut save = self.old.clone();
        for insertion in &self.list {
            insertion.insert(&mut save);
        }
        save
    }

    /// The types of the values that (i) brings into blocks, and of those in the blocks of (iii).
    pub fn inserted_types(&self) -> [BTreeSet<u32>; 2] {
        let (mut of_values, mut of_blocks) = (BTreeSet::new(), BTreeSet::new());
        let mut save = self.old.clone();
        for insertion in &self.list {
            match insertion {
                Insertion::Field {
                    definition, values, ..
                } if !values.is_empty() => {
                    of_values.insert(definition.type_id);
                }
                Insertion::Block { block, .. } => {
                    of_blocks.extend(save.of(block).fields.iter().map(|field| field.type_id));
                }
                _ => {}
            }
            insertion.insert(&mut save);
        }
        [of_values, of_blocks]
    }

    /// The first `count` insertions, which are allowed as well.
    pub fn shorter(&self, count: usize) -> Widening {
        Widening {
            old: self.old.clone(),
            list: self.list[..count].to_vec(),
            last: None,
        }
    }
}

fn old_save(random: &mut Random, sizes: Sizes) -> Save {
    let mut save = Save {
        version: valid::version(random),
        records: Vec::new(),
        rest: Vec::new(),
    };
    for _ in 0..random.below(sizes.records + 1) {
        let record = match parts::block(random, &save) {
            Some(block) if !random.chance(35) => Record::Block(block),
            _ => Record::Prototype(parts::prototype(random, &save, sizes.fields)),
        };
        save.records.push(record);
    }
    spoil_one(random, &mut save);
    if random.chance(20) {
        let len = random.below(12);
        save.rest = parts::any_bytes(random, len);
    }
    save
}

/// The old save may define an unlisted type that no block carries.
fn spoil_one(random: &mut Random, save: &mut Save) {
    let carried: Vec<u32> = save.blocks().map(|block| block.prototype).collect();
    for record in &mut save.records {
        if let Record::Prototype(Prototype { id, fields, .. }) = record {
            if !fields.is_empty() && !carried.contains(id) && random.chance(10) {
                let at = random.below(fields.len());
                fields[at].type_id = parts::unlisted(random);
                fields[at].list.clear();
            }
        }
    }
}

/// One insertion that is allowed on the save, of any kind.
fn insertion(random: &mut Random, save: &Save, sizes: Sizes) -> Insertion {
    let found = match random.below(10) {
        0..=4 => field(random, save),
        5..=7 => block(random, save),
        _ => None,
    };
    found.unwrap_or_else(|| Insertion::Prototype {
        record: random.below(save.records.len() + 1),
        prototype: parts::prototype(random, save, sizes.fields),
    })
}

/// (i), if there is a prototype.
fn field(random: &mut Random, save: &Save) -> Option<Insertion> {
    let of = parts::any_prototype(random, save, |_| true)?;
    let definition = parts::new_definition(random, of, save);
    let values = values(save, of.id, || {
        parts::value(random, save.version, &definition)
    });
    Some(Insertion::Field {
        id: of.id,
        position: random.below(of.fields.len() + 1),
        definition,
        values,
    })
}

/// (iii), if there is a prototype that a block can have.
fn block(random: &mut Random, save: &Save) -> Option<Insertion> {
    let block = parts::block(random, save)?;
    let first = save.defined_at(block.prototype)? + 1;
    let record = first + random.below(save.records.len() + 1 - first);
    Some(Insertion::Block { record, block })
}

/// A last (i) of an unlisted type, if there is a prototype; a block carries it or not.
fn last(random: &mut Random, save: &Save) -> Option<Insertion> {
    let carried = random.chance(50);
    let of = parts::any_prototype(random, save, |of| save.carries(of.id) == carried)
        .or_else(|| parts::any_prototype(random, save, |_| true))?;
    let mut definition = parts::new_definition(random, of, save);
    definition.type_id = parts::unlisted(random);
    definition.list.clear();
    let values = values(save, of.id, || {
        let len = random.below(10);
        parts::any_bytes(random, len)
    });
    Some(Insertion::Field {
        id: of.id,
        position: random.below(of.fields.len() + 1),
        definition,
        values,
    })
}

/// A value for each block of an id, with the block's number.
fn values(save: &Save, id: u32, mut value: impl FnMut() -> Vec<u8>) -> Vec<(usize, Vec<u8>)> {
    let numbered = save.blocks().enumerate();
    let of = numbered.filter(|(_, block)| block.prototype == id);
    of.map(|(number, _)| (number, value())).collect()
}
