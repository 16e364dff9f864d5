//! One insertion, and how it is made.

use crate::save::{Block, Definition, Prototype, Record, Save, Value};

#[derive(Clone, Debug, PartialEq, Eq)]
pub enum Insertion {
    /// (i) A definition at a position of the prototype with the id, and for each block of that id,
    /// by its number, the bytes of its value.
    Field {
        id: u32,
        position: usize,
        definition: Definition,
        values: Vec<(usize, Vec<u8>)>,
    },
    /// (ii), in front of the record of that number.
    Prototype { record: usize, prototype: Prototype },
    /// (iii), in front of the record of that number.
    Block { record: usize, block: Block },
}

impl Insertion {
    /// Makes it, and marks what it brings.
    pub fn insert(&self, save: &mut Save) {
        match self {
            Insertion::Field {
                id,
                position,
                definition,
                values,
            } => {
                let mut number = 0;
                for record in &mut save.records {
                    match record {
                        Record::Prototype(prototype) if prototype.id == *id => {
                            let mut definition = definition.clone();
                            definition.inserted = true;
                            prototype.fields.insert(*position, definition);
                        }
                        Record::Prototype(_) => {}
                        Record::Block(block) => {
                            into_block(block, *id, *position, value_of(values, number));
                            number += 1;
                        }
                    }
                }
            }
            Insertion::Prototype { record, prototype } => {
                let mut prototype = prototype.clone();
                prototype.inserted = true;
                save.records.insert(*record, Record::Prototype(prototype));
            }
            Insertion::Block { record, block } => {
                let mut block = block.clone();
                block.inserted = true;
                save.records.insert(*record, Record::Block(block));
            }
        }
    }

    /// Whether it goes into an inserted part: a definition or a block of an inserted prototype, or a
    /// value into an inserted block.
    pub fn is_nested(&self, save: &Save) -> bool {
        let is_inserted = |id: u32| save.prototype(id).is_some_and(|of| of.inserted);
        match self {
            Insertion::Field { id, .. } => {
                let mut blocks = save.blocks();
                is_inserted(*id) || blocks.any(|block| block.prototype == *id && block.inserted)
            }
            Insertion::Prototype { .. } => false,
            Insertion::Block { block, .. } => is_inserted(block.prototype),
        }
    }
}

fn value_of(values: &[(usize, Vec<u8>)], number: usize) -> Option<&Vec<u8>> {
    let found = values.iter().find(|(block, _)| *block == number);
    found.map(|(_, bytes)| bytes)
}

fn into_block(block: &mut Block, id: u32, position: usize, bytes: Option<&Vec<u8>>) {
    if block.prototype == id {
        let value = Value {
            bytes: bytes.expect("a value for every block").clone(),
            inserted: true,
        };
        block.values.insert(position, value);
    }
}
