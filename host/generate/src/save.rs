//! A save as records, each part marked: of the old save, or inserted. Nothing here reads bytes, so
//! that what is known of a save owes nothing to a reader.

use crate::{bytes, index};

#[derive(Clone, Debug, PartialEq, Eq)]
pub struct Definition {
    pub type_id: u32,
    pub name: Vec<u8>,
    /// The pairs of an enum; empty for other types.
    pub list: Vec<(u32, Vec<u8>)>,
    pub inserted: bool,
}

#[derive(Clone, Debug, PartialEq, Eq)]
pub struct Prototype {
    pub id: u32,
    pub name: Vec<u8>,
    pub fields: Vec<Definition>,
    pub inserted: bool,
}

#[derive(Clone, Debug, PartialEq, Eq)]
pub struct Value {
    pub bytes: Vec<u8>,
    pub inserted: bool,
}

#[derive(Clone, Debug, PartialEq, Eq)]
pub struct Block {
    pub prototype: u32,
    /// The id's bytes, its first one included.
    pub id: Vec<u8>,
    pub values: Vec<Value>,
    pub inserted: bool,
}

#[derive(Clone, Debug, PartialEq, Eq)]
pub enum Record {
    Prototype(Prototype),
    Block(Block),
}

/// No id is defined twice, so a block's value has the type of its prototype's definition at the same
/// position.
#[derive(Clone, Debug, PartialEq, Eq)]
pub struct Save {
    pub version: u32,
    pub records: Vec<Record>,
    /// What stands behind the end record.
    pub rest: Vec<u8>,
}

impl Definition {
    pub fn bytes(&self) -> Vec<u8> {
        let pairs = self.list.iter().map(|(number, text)| (*number, &text[..]));
        match self.type_id {
            0x37 => bytes::choice(&self.name, &pairs.collect::<Vec<_>>()),
            _ => bytes::definition(self.type_id, &self.name),
        }
    }
}

impl Prototype {
    pub fn bytes(&self) -> Vec<u8> {
        let definitions: Vec<_> = self.fields.iter().map(Definition::bytes).collect();
        bytes::prototype(self.id, &self.name, &definitions)
    }

    /// The position of the first definition so named.
    pub fn position(&self, name: &[u8]) -> Option<usize> {
        self.fields.iter().position(|field| field.name == name)
    }
}

impl Block {
    pub fn bytes(&self) -> Vec<u8> {
        self.up_to(self.values.len())
    }

    /// Its bytes in front of the value at a position.
    fn up_to(&self, position: usize) -> Vec<u8> {
        let mut bytes = [&self.prototype.to_le_bytes(), &self.id[..]].concat();
        for value in &self.values[..position] {
            bytes.extend_from_slice(&value.bytes);
        }
        bytes
    }
}

impl Record {
    pub fn bytes(&self) -> Vec<u8> {
        match self {
            Record::Prototype(prototype) => prototype.bytes(),
            Record::Block(block) => block.bytes(),
        }
    }
}

impl Save {
    fn head(&self) -> Vec<u8> {
        [b"BSII", &self.version.to_le_bytes()[..]].concat()
    }

    pub fn bytes(&self) -> Vec<u8> {
        let mut bytes = self.head();
        for record in &self.records {
            bytes.extend(record.bytes());
        }
        bytes.extend([0; 5]);
        bytes.extend_from_slice(&self.rest);
        bytes
    }

    /// The offset after the end record.
    pub fn next(&self) -> usize {
        self.bytes().len() - self.rest.len()
    }

    pub fn prototypes(&self) -> impl Iterator<Item = &Prototype> {
        self.records.iter().filter_map(|record| match record {
            Record::Prototype(prototype) => Some(prototype),
            Record::Block(_) => None,
        })
    }

    pub fn blocks(&self) -> impl Iterator<Item = &Block> {
        self.records.iter().filter_map(|record| match record {
            Record::Prototype(_) => None,
            Record::Block(block) => Some(block),
        })
    }

    pub fn prototype(&self, id: u32) -> Option<&Prototype> {
        self.prototypes().find(|prototype| prototype.id == id)
    }

    /// A block's prototype.
    pub fn of(&self, block: &Block) -> &Prototype {
        self.prototype(block.prototype)
            .expect("a block stands behind its prototype")
    }

    /// The number of the record that defines an id.
    pub fn defined_at(&self, id: u32) -> Option<usize> {
        let defines = |record: &Record| matches!(record, Record::Prototype(p) if p.id == id);
        self.records.iter().position(defines)
    }

    pub fn carries(&self, id: u32) -> bool {
        self.blocks().any(|block| block.prototype == id)
    }

    /// The new numbers of the old blocks, in order: each one's old number and the number of inserted
    /// blocks in front of it.
    pub fn new_numbers(&self) -> Vec<u64> {
        let numbered = self.blocks().enumerate();
        let old = numbered.filter(|(_, block)| !block.inserted);
        old.map(|(number, _)| number as u64).collect()
    }

    /// The index, which has a record for each block.
    pub fn index(&self) -> Vec<u8> {
        let (mut index, mut starts, mut at) = (Vec::new(), Vec::new(), self.head().len());
        for record in &self.records {
            let len = record.bytes().len();
            match record {
                Record::Prototype(prototype) => starts.push((prototype.id, at)),
                Record::Block(block) => {
                    let defined = starts.iter().find(|(id, _)| *id == block.prototype);
                    let (_, start) = defined.expect("a block stands behind its prototype");
                    index.extend(index::record([at, len, *start, block.values.len()]));
                }
            }
            at += len;
        }
        index
    }

    /// The bytes of the longest block; 0 without blocks.
    pub fn largest_block(&self) -> u64 {
        let sizes = self.blocks().map(|block| block.bytes().len() as u64);
        sizes.max().unwrap_or(0)
    }

    /// One for each record, the end record too, and one for each value of a block.
    pub fn steps(&self) -> u64 {
        let values: usize = self.blocks().map(|block| block.values.len()).sum();
        (self.records.len() + 1 + values) as u64
    }

    /// Where the value at a position starts in each block of an id.
    pub fn value_starts(&self, id: u32, position: usize) -> Vec<usize> {
        let (mut starts, mut at) = (Vec::new(), self.head().len());
        for record in &self.records {
            match record {
                Record::Block(block) if block.prototype == id => {
                    starts.push(at + block.up_to(position).len());
                }
                _ => {}
            }
            at += record.bytes().len();
        }
        starts
    }
}
