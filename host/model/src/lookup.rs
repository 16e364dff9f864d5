//! The records of a file and the look-ups.

use crate::layout::{refuse, value, Cursor, Place, Refusal};
use calls::{Block, Field, Number, Prototype, Reading, LENGTH_LIMIT};

pub struct Definition {
    pub type_id: u32,
    pub name: Place,
    /// For an enum, its pairs of number and string.
    pub list: Option<Vec<(u32, Place)>>,
}

pub struct PrototypeRecord {
    /// Where the record's zero number stands.
    pub start: usize,
    pub id: u32,
    pub name: Place,
    pub fields: Vec<Definition>,
}

/// A value with the type in force when its block was read.
pub struct Value {
    pub type_id: u32,
    pub place: Place,
}

pub struct BlockRecord {
    pub start: usize,
    pub prototype: u32,
    /// Where the definition stands that was in force when the block was read.
    pub in_force: usize,
    pub id: Place,
    pub values: Vec<Value>,
}

impl BlockRecord {
    /// From its prototype's id to the end of its last value.
    pub fn size(&self) -> usize {
        let end = self.values.last().map_or(self.id, |last| last.place);
        end.offset + end.len - self.start
    }
}

#[derive(Default)]
pub struct Parsed {
    pub version: u32,
    /// The definitions in force, after reading the last ones, one for each distinct id.
    pub prototypes: Vec<PrototypeRecord>,
    pub blocks: Vec<BlockRecord>,
    pub next: usize,
    /// Whether a prototype id is defined twice.
    pub redefined: bool,
    /// Where each record starts, the end record and one with a fault too.
    pub starts: Vec<usize>,
    /// Every prototype's and field's name, replaced ones too: what a test asks for.
    pub names: Vec<Place>,
    /// Every definition's type with its offset, replaced ones too.
    pub types: Vec<(usize, u32)>,
}

impl Parsed {
    /// What is read from front to back, and the first fault, if there is one; `capacity` is the
    /// number of ids that the table holds. Where a value has the fault, the last block ends with it.
    pub fn read(file: &[u8], capacity: usize) -> (Parsed, Option<Refusal>) {
        let mut parsed = Parsed::default();
        let fault = parsed.records(file, capacity).err();
        (parsed, fault)
    }

    fn records(&mut self, file: &[u8], capacity: usize) -> Result<(), Refusal> {
        if file.len() > LENGTH_LIMIT {
            return refuse(12, 0);
        }
        if !file.starts_with(b"BSII") {
            return refuse(1, 0);
        }
        let mut cursor = Cursor {
            bytes: file,
            at: 4,
            version: 0,
        };
        self.version = cursor.u32()?;
        cursor.version = self.version;
        while !self.record(&mut cursor, capacity)? {}
        self.next = cursor.at;
        Ok(())
    }

    /// Reads one record; true if it is the end record.
    fn record(&mut self, cursor: &mut Cursor<'_>, capacity: usize) -> Result<bool, Refusal> {
        let start = cursor.at;
        self.starts.push(start);
        match cursor.u32()? {
            0 => {
                let mark = cursor.at;
                match cursor.u8()? {
                    0 => return Ok(true),
                    1 => self.define(prototype(cursor)?, capacity)?,
                    _ => return refuse(15, mark),
                }
            }
            id => self.block(cursor, start, id)?,
        }
        Ok(false)
    }

    fn define(&mut self, new: PrototypeRecord, room: usize) -> Result<(), Refusal> {
        self.names.push(new.name);
        self.names.extend(new.fields.iter().map(|field| field.name));
        // The type and the name's length stand in front of the name.
        let types = new.fields.iter().map(|f| (f.name.offset - 8, f.type_id));
        self.types.extend(types);
        let known = self.prototypes.iter().position(|old| old.id == new.id);
        match known {
            Some(position) => {
                self.redefined = true;
                self.prototypes[position] = new;
            }
            None if self.prototypes.len() >= room => return refuse(10, new.start),
            None => self.prototypes.push(new),
        }
        Ok(())
    }

    fn block(
        &mut self,
        cursor: &mut Cursor<'_>,
        start: usize,
        prototype: u32,
    ) -> Result<(), Refusal> {
        let Some(in_force) = self.prototypes.iter().find(|old| old.id == prototype) else {
            return refuse(6, start);
        };
        let id = cursor.id()?;
        let mut block = BlockRecord {
            start,
            prototype,
            in_force: in_force.start,
            id,
            values: Vec::with_capacity(in_force.fields.len()),
        };
        let mut read = Ok(());
        for field in &in_force.fields {
            let type_id = field.type_id;
            let offset = cursor.at;
            read = value(cursor, type_id, |_| {}).map(|_| ());
            let len = cursor.at - offset;
            let place = Place { offset, len };
            block.values.push(Value { type_id, place });
            if read.is_err() {
                break;
            }
        }
        self.blocks.push(block);
        read
    }

    pub fn prototype(&self, id: u32) -> Option<&PrototypeRecord> {
        self.prototypes.iter().find(|prototype| prototype.id == id)
    }

    pub fn reading(&self) -> Reading {
        Reading {
            prototypes: self.prototypes.len() as u64,
            blocks: self.blocks.len() as u64,
            next: self.next as u64,
            ..Reading::default()
        }
    }

    pub fn get_prototype(&self, id: u32) -> Result<Prototype, Refusal> {
        let Some(prototype) = self.prototype(id) else {
            return refuse(13, 0);
        };
        Ok(Prototype {
            name_offset: prototype.name.offset as u64,
            name_len: prototype.name.len as u64,
            fields: prototype.fields.len() as u64,
            ..Prototype::default()
        })
    }

    fn numbered(&self, n: u64) -> Result<&BlockRecord, Refusal> {
        let block = usize::try_from(n).ok().and_then(|n| self.blocks.get(n));
        block.map_or(refuse(13, 0), Ok)
    }

    pub fn block_at(&self, n: u64) -> Result<Block, Refusal> {
        let block = self.numbered(n)?;
        Ok(Block {
            prototype_id: block.prototype,
            id_offset: block.id.offset as u64,
            id_len: block.id.len as u64,
            ..Block::default()
        })
    }

    /// The last definition of a block's prototype.
    pub fn last_of(&self, block: &BlockRecord) -> &PrototypeRecord {
        self.prototype(block.prototype)
            .expect("a block's prototype is defined, and no definition is lost")
    }

    pub fn nth_block_named(&self, file: &[u8], name: &[u8], n: u64) -> Result<Number, Refusal> {
        let mut before = 0;
        for (value, block) in self.blocks.iter().enumerate() {
            if self.last_of(block).name.of(file) != name {
                continue;
            }
            if before == n {
                let value = value as u64;
                return Ok(Number {
                    value,
                    ..Number::default()
                });
            }
            before += 1;
        }
        refuse(13, 0)
    }

    pub fn field_of(&self, file: &[u8], block: u64, name: &[u8]) -> Result<Field, Refusal> {
        let block = self.numbered(block)?;
        let fields = &self.last_of(block).fields;
        let position = fields.iter().position(|field| field.name.of(file) == name);
        let Some(value) = position.and_then(|position| block.values.get(position)) else {
            return refuse(13, 0);
        };
        Ok(Field {
            type_id: value.type_id,
            part_offset: value.place.offset as u64,
            part_len: value.place.len as u64,
            ..Field::default()
        })
    }
}

/// A prototype from its id on, the zero after its definitions included. Its number and mark stand
/// in front of the cursor.
pub fn prototype(cursor: &mut Cursor<'_>) -> Result<PrototypeRecord, Refusal> {
    let start = cursor.at - 5;
    let id = cursor.u32()?;
    let name = cursor.string()?;
    let mut fields = Vec::new();
    loop {
        match cursor.u32()? {
            0 => {
                return Ok(PrototypeRecord {
                    start,
                    id,
                    name,
                    fields,
                })
            }
            type_id => fields.push(definition(cursor, type_id)?),
        }
    }
}

fn definition(cursor: &mut Cursor<'_>, type_id: u32) -> Result<Definition, Refusal> {
    let name = cursor.string()?;
    let mut list = None;
    if type_id == 0x37 {
        let mut pairs = Vec::new();
        for _ in 0..cursor.u32()? {
            pairs.push((cursor.u32()?, cursor.string()?));
        }
        list = Some(pairs);
    }
    Ok(Definition {
        type_id,
        name,
        list,
    })
}
