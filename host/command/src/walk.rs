//! Where in a save an offset lies: in a block, of which prototype and in which field, or in what else.
//! Only for messages about a save that the library has refused; nothing is decided by it.

use sii_decode::DataField;
use std::collections::HashMap;

struct Prototype<'a> {
    name: &'a [u8],
    /// Name and type of each field.
    fields: Vec<(&'a [u8], u32)>,
}

/// What holds an offset, or would start there.
#[derive(Debug, PartialEq, Eq)]
pub enum Place<'a> {
    Version,
    /// The number of a record, or the mark behind it.
    Beginning,
    /// A prototype behind its mark.
    Prototype,
    Block(Block<'a>),
}

#[derive(Debug, PartialEq, Eq)]
pub struct Block<'a> {
    pub number: u64,
    pub prototype_id: u32,
    /// Its name by the definition in force; none if the block's prototype is not defined.
    pub prototype: Option<&'a [u8]>,
    /// Name and type of the field whose value holds the offset, or would start there.
    pub field: Option<(&'a [u8], u32)>,
}

/// Bytes from a position on, and the version by which the floats of a placement are counted.
struct Reader<'a> {
    content: &'a [u8],
    at: usize,
    version: u32,
}

impl<'a> Reader<'a> {
    /// A save that ends in front of its version has no value to read by it.
    fn new(content: &'a [u8], at: usize) -> Reader<'a> {
        let bytes = content.get(4..8).and_then(|bytes| bytes.try_into().ok());
        Reader {
            content,
            at,
            version: bytes.map_or(0, u32::from_le_bytes),
        }
    }

    fn bytes(&mut self, count: usize) -> Option<&'a [u8]> {
        let bytes = self.content.get(self.at..self.at.checked_add(count)?)?;
        self.at += count;
        Some(bytes)
    }

    fn byte(&mut self) -> Option<u8> {
        self.bytes(1).map(|bytes| bytes[0])
    }

    fn number(&mut self) -> Option<u32> {
        let bytes = self.bytes(4)?;
        Some(u32::from_le_bytes(bytes.try_into().ok()?))
    }

    fn string(&mut self) -> Option<&'a [u8]> {
        let length = self.number()?;
        self.bytes(length as usize)
    }

    fn id(&mut self) -> Option<()> {
        let words = match self.byte()? {
            0xff => 1,
            words => words as usize,
        };
        self.bytes(8 * words).map(|_| ())
    }

    /// A prototype behind its mark.
    fn prototype(&mut self) -> Option<(u32, Prototype<'a>)> {
        let id = self.number()?;
        let name = self.string()?;
        let mut fields = Vec::new();
        loop {
            let type_id = self.number()?;
            if type_id == 0 {
                return Some((id, Prototype { name, fields }));
            }
            fields.push((self.string()?, type_id));
            if type_id == 0x37 {
                for _ in 0..self.number()? {
                    self.number()?;
                    self.string()?;
                }
            }
        }
    }

    /// A value; none if it runs out, or if the type is unlisted.
    fn value(&mut self, type_id: u32) -> Option<()> {
        let field = DataField {
            version: self.version,
            type_id,
            part: &[],
        };
        let count = if field.is_array() {
            self.number()? as usize
        } else {
            1
        };
        let size = match type_id {
            0x01 | 0x02 => return (0..count).try_for_each(|_| self.string().map(|_| ())),
            0x39..=0x3d => return (0..count).try_for_each(|_| self.id()),
            0x35 | 0x36 => 1,
            0x2b | 0x2c => 2,
            0x05 | 0x06 | 0x25..=0x28 | 0x2f | 0x37 => 4,
            0x03 | 0x04 | 0x07 | 0x31..=0x34 => 8,
            0x09 | 0x0a | 0x11 | 0x12 => 12,
            0x17 | 0x18 => 16,
            0x19 | 0x1a if self.version == 1 => 28,
            0x19 | 0x1a => 32,
            _ => return None,
        };
        self.bytes(size * count).map(|_| ())
    }
}

/// The block whose number was read, if it holds the offset; otherwise it is passed.
fn block_at<'a>(
    reader: &mut Reader<'a>,
    number: u64,
    prototype_id: u32,
    prototype: Option<&Prototype<'a>>,
    offset: usize,
) -> Option<Block<'a>> {
    let block = |field| Block {
        number,
        prototype_id,
        prototype: prototype.map(|prototype| prototype.name),
        field,
    };
    if prototype.is_none() || reader.id().is_none() || reader.at > offset {
        return Some(block(None));
    }
    for &field in prototype.map_or(&[][..], |prototype| &prototype.fields) {
        if reader.value(field.1).is_none() || reader.at > offset {
            return Some(block(Some(field)));
        }
    }
    None
}

/// None in front of the version and behind the end record, or if no way leads there.
pub fn place_of(content: &[u8], offset: u64) -> Option<Place<'_>> {
    let offset = usize::try_from(offset).ok()?;
    if (4..8).contains(&offset) {
        return Some(Place::Version);
    }
    let mut reader = Reader::new(content, 8);
    let mut prototypes: HashMap<u32, Prototype> = HashMap::new();
    let mut blocks = 0;
    while reader.at <= offset {
        let Some(id) = reader.number() else {
            return Some(Place::Beginning);
        };
        if id != 0 {
            let of = prototypes.get(&id);
            if let Some(block) = block_at(&mut reader, blocks, id, of, offset) {
                return Some(Place::Block(block));
            }
            blocks += 1;
            continue;
        }
        let mark = reader.byte();
        if mark.is_none() || offset < reader.at {
            return Some(Place::Beginning);
        }
        if mark != Some(1) {
            return None;
        }
        match reader.prototype() {
            Some((id, prototype)) if reader.at <= offset => prototypes.insert(id, prototype),
            _ => return Some(Place::Prototype),
        };
    }
    None
}

/// Whether the definition whose name starts at that offset has a field of this name.
pub fn defines(content: &[u8], name_offset: usize, field: &[u8]) -> bool {
    // in front of the name stand its length and the id
    let at = name_offset.saturating_sub(8);
    let prototype = Reader::new(content, at).prototype();
    prototype.is_some_and(|(_, prototype)| prototype.fields.iter().any(|(name, _)| *name == field))
}

#[cfg(test)]
mod tests {
    use super::*;

    /// Prototype 7 `trip` with a string `s` and a bool `b`, and two blocks of it.
    fn save() -> Vec<u8> {
        let mut file = b"BSII\x02\0\0\0\0\0\0\0\x01\x07\0\0\0\x04\0\0\0trip".to_vec();
        file.extend(b"\x01\0\0\0\x01\0\0\0s\x35\0\0\0\x01\0\0\0b\0\0\0\0");
        // 47: each block has 4 + 9 bytes, a string of 4 + 2 and a bool
        for _ in 0..2 {
            file.extend(b"\x07\0\0\0\xff\0\0\0\0\0\0\0\0\x02\0\0\0hi\x01");
        }
        file.extend([0; 5]);
        file
    }

    type Field<'a> = Option<(&'a [u8], u32)>;

    fn block_of(file: &[u8], offset: u64) -> Block<'_> {
        match place_of(file, offset) {
            Some(Place::Block(block)) => block,
            other => panic!("{offset}: {other:?}"),
        }
    }

    /// The number of the block and the field at an offset.
    fn field_at(file: &[u8], offset: u64) -> (u64, Field<'_>) {
        let block = block_of(file, offset);
        let trip = (7, Some(&b"trip"[..]));
        assert_eq!((block.prototype_id, block.prototype), trip);
        (block.number, block.field)
    }

    #[test]
    fn every_offset() {
        let file = save();
        let (s, b) = (Some((&b"s"[..], 0x01)), Some((&b"b"[..], 0x35)));
        let others = [
            (0..4, None),
            (4..8, Some(Place::Version)),
            (8..13, Some(Place::Beginning)),
            (13..47, Some(Place::Prototype)),
            (87..92, Some(Place::Beginning)),
            (92..100, None),
        ];
        for (offsets, place) in others {
            for offset in offsets {
                assert_eq!(place_of(&file, offset), place, "{offset}");
            }
        }
        for (block, start) in [(0, 47), (1, 67)] {
            for offset in start..start + 13 {
                assert_eq!(field_at(&file, offset), (block, None), "{offset}");
            }
            for offset in start + 13..start + 19 {
                assert_eq!(field_at(&file, offset), (block, s), "{offset}");
            }
            assert_eq!(field_at(&file, start + 19), (block, b));
        }
    }

    /// At the end of a cut save: what would stand there.
    #[test]
    fn every_cut() {
        let whole = save();
        let place = |kept: usize| place_of(&whole[..kept], kept as u64);
        for kept in 4..8 {
            assert_eq!(place(kept), Some(Place::Version), "{kept}");
        }
        for kept in (8..13).chain(47..51).chain(67..71).chain(87..92) {
            assert_eq!(place(kept), Some(Place::Beginning), "{kept}");
        }
        for kept in 13..47 {
            assert_eq!(place(kept), Some(Place::Prototype), "{kept}");
        }
        for kept in (51..67).chain(71..87) {
            let (number, field) = field_at(&whole[..kept], kept as u64);
            assert_eq!(number, u64::from(kept > 67));
            let start = 47 + 20 * number as usize;
            let name = field.map(|field| field.0);
            let expected = match kept - start {
                0..=12 => None,
                13..=18 => Some(&b"s"[..]),
                _ => Some(&b"b"[..]),
            };
            assert_eq!(name, expected, "{kept}");
        }
    }

    #[test]
    fn an_unlisted_type_and_an_undefined_prototype() {
        let mut file = save();
        file[34] = 0x08;
        let block = block_of(&file, 66);
        assert_eq!((block.number, block.field), (0, Some((&b"b"[..], 0x08))));
        let mut file = save();
        file[67] = 8;
        let block = block_of(&file, 67);
        assert_eq!(
            (block.number, block.prototype_id, block.prototype),
            (1, 8, None)
        );
    }

    #[test]
    fn a_name_among_definitions() {
        let file = save();
        assert!(defines(&file, 21, b"s") && defines(&file, 21, b"b"));
        assert!(!defines(&file, 21, b"trip") && !defines(&file, 21, b""));
        assert!(!defines(&file, 1000, b"s"));
    }

    /// The walk skips every type as the library does, in version 1 too: the last value of a value's bytes
    /// is found.
    #[test]
    fn every_type_of_the_samples() {
        let root = std::path::Path::new(env!("CARGO_MANIFEST_DIR")).join("../..");
        for name in ["samples/garage.bsii", "samples/depot.bsii"] {
            every_value(&std::fs::read(root.join(name)).unwrap());
        }
    }

    fn every_value(bytes: &[u8]) {
        let file = sii_decode::BsiiFile::parse(bytes).unwrap();
        let start = bytes.as_ptr() as usize;
        for block in file.blocks() {
            let name = block.prototype(&file).unwrap().name;
            let at = name.as_ptr() as usize - start - 8;
            let names = Reader::new(bytes, at).prototype().unwrap().1.fields;
            assert!(!names.is_empty());
            for (field, type_id) in names {
                let part = block.field(&file, field).unwrap().part;
                let first = part.as_ptr() as usize - start;
                for offset in [first, first + part.len() - 1] {
                    let found = block_of(bytes, offset as u64);
                    assert_eq!(
                        (found.number, found.field),
                        (block.number, Some((field, type_id)))
                    );
                    assert_eq!(found.prototype, Some(name.as_bytes()));
                }
            }
        }
    }
}
