//! The records of an index, and what stands in the save at their offsets.
//!
//! The index is the library's own or was checked by it, so nothing here runs out; where it did, the
//! answer is none, and the caller asks the library.

use crate::Prototype;
use std::fmt;

/// The bytes of an index for each block.
pub const RECORD: usize = calls::RECORD;
/// A block has at least so many bytes.
const SHORTEST_BLOCK: usize = 5;
/// Behind the header.
const FIRST_RECORD: usize = 8;
/// A prototype's number 0 and its mark.
const HEAD: usize = 5;
/// A prototype's number 0, its mark and its id, which stand in front of its name's length.
const BEFORE_NAME: usize = HEAD + 4;

/// The most bytes that the index of a save of so many bytes can have.
pub fn longest_index(save: usize) -> usize {
    save / SHORTEST_BLOCK * RECORD
}

/// Where a block stands, and the definition of its prototype in force there.
#[derive(Clone, Copy, Debug, PartialEq, Eq)]
pub(crate) struct Record {
    block: usize,
    length: usize,
    prototype: usize,
    /// How many fields the definition has.
    pub fields: u64,
}

impl Record {
    /// The record of a block, by the block's number.
    pub fn of(index: &[u8], number: u64) -> Option<Record> {
        let start = usize::try_from(number).ok()?.checked_mul(RECORD)?;
        let record: &[u8; RECORD] = index.get(start..)?.first_chunk()?;
        let [a, b, c, d, e, f, g, h, i, j, k, l] = record.map(usize::from);
        Some(Record {
            block: a | b << 8 | c << 16,
            length: d | e << 8 | f << 16,
            prototype: g | h << 8 | i << 16,
            fields: (j | k << 8 | l << 16) as u64,
        })
    }

    /// The block's prototype id and the bytes of the block's id.
    pub fn block<'a>(&self, content: &'a [u8]) -> Option<(u32, &'a [u8])> {
        let mut reader = Reader::new(content, self.block);
        let prototype_id = reader.number()?;
        let id = content.get(reader.at..)?;
        let words = match id.first()? {
            0xff => 1,
            words => usize::from(*words),
        };
        Some((prototype_id, id.get(..1 + 8 * words)?))
    }

    /// The id and the name of the definition.
    pub fn prototype<'a>(&self, content: &'a [u8]) -> Option<(u32, &'a [u8])> {
        let mut reader = Reader::new(content, self.prototype + HEAD);
        Some((reader.number()?, reader.string()?))
    }

    /// The fields of the definition.
    pub fn definitions<'a>(&self, content: &'a [u8], version: u32) -> Option<Definitions<'a>> {
        Definitions::at(content, self.prototype + BEFORE_NAME, version)
    }
}

/// Bytes of a save from an offset on.
#[derive(Clone, Copy)]
struct Reader<'a> {
    content: &'a [u8],
    at: usize,
}

impl<'a> Reader<'a> {
    fn new(content: &'a [u8], at: usize) -> Reader<'a> {
        Reader { content, at }
    }

    fn number(&mut self) -> Option<u32> {
        let bytes = self.content.get(self.at..)?.first_chunk()?;
        self.at += bytes.len();
        Some(u32::from_le_bytes(*bytes))
    }

    fn string(&mut self) -> Option<&'a [u8]> {
        let length = self.number()? as usize;
        let bytes = self.content.get(self.at..)?.get(..length)?;
        self.at += length;
        Some(bytes)
    }
}

/// A field as a prototype defines it.
#[derive(Clone, Copy, Debug, PartialEq, Eq)]
pub struct Definition<'a> {
    /// The save's version, by which the type is told.
    pub version: u32,
    /// The type of its values.
    pub type_id: u32,
    /// What it is asked for by; another field may have the same name.
    pub name: &'a str,
}

impl Definition<'_> {
    /// Whether the type is an array's.
    pub fn is_array(&self) -> bool {
        crate::value::is_array(self.type_id)
    }

    /// What one element is, in the word of [`DataValue::kind_name`](crate::DataValue::kind_name).
    pub fn kind_name(&self) -> &'static str {
        crate::value::kind_name(self.version, self.type_id)
    }
}

/// The fields that a prototype defines, in order.
#[derive(Clone)]
pub struct Definitions<'a> {
    version: u32,
    reader: Reader<'a>,
}

impl<'a> Definitions<'a> {
    /// Those of the prototype whose name's length stands at that offset.
    pub(crate) fn at(content: &'a [u8], at: usize, version: u32) -> Option<Definitions<'a>> {
        let mut reader = Reader::new(content, at);
        reader.string()?;
        Some(Definitions { version, reader })
    }
}

impl<'a> Iterator for Definitions<'a> {
    type Item = Definition<'a>;

    fn next(&mut self) -> Option<Definition<'a>> {
        let mut reader = self.reader;
        // The type 0 closes the prototype, and stays the next one to be read.
        let type_id = reader.number().filter(|type_id| *type_id != 0)?;
        let name = reader.string()?;
        if type_id == 0x37 {
            for _ in 0..reader.number()? {
                reader.number()?;
                reader.string()?;
            }
        }
        self.reader = reader;
        Some(Definition {
            version: self.version,
            type_id,
            name: crate::utf8(name),
        })
    }
}

/// The definitions of prototypes, in the order of the file: what stands between its blocks.
#[derive(Clone)]
pub struct Prototypes<'a, 'data> {
    reader: Reader<'a>,
    index: &'data [u8],
    /// The next block.
    number: u64,
}

impl<'a, 'data> Prototypes<'a, 'data> {
    pub(crate) fn of(content: &'a [u8], index: &'data [u8]) -> Prototypes<'a, 'data> {
        Prototypes {
            reader: Reader::new(content, FIRST_RECORD),
            index,
            number: 0,
        }
    }
}

impl<'a> Iterator for Prototypes<'a, '_> {
    type Item = Prototype<'a>;

    fn next(&mut self) -> Option<Prototype<'a>> {
        while let Some(record) = Record::of(self.index, self.number) {
            if record.block != self.reader.at {
                break;
            }
            self.reader.at += record.length;
            self.number += 1;
        }
        let mut reader = self.reader;
        // The end record's mark is 0, and it stays the next one to be read.
        if reader.number()? != 0 || *reader.content.get(reader.at)? != 1 {
            return None;
        }
        reader.at += 1;
        let id = reader.number()?;
        let name = crate::utf8(reader.string()?);
        let mut definitions = Definitions { version: 0, reader };
        let fields = definitions.by_ref().count() as u64;
        // The closing type 0.
        definitions.reader.number()?;
        self.reader = definitions.reader;
        Some(Prototype { id, name, fields })
    }
}

/// None of the save's bytes.
impl fmt::Debug for Prototypes<'_, '_> {
    fn fmt(&self, f: &mut fmt::Formatter<'_>) -> fmt::Result {
        let at = self.reader.at;
        f.debug_struct("Prototypes")
            .field("at", &at)
            .finish_non_exhaustive()
    }
}

/// None of the save's other bytes.
impl fmt::Debug for Definitions<'_> {
    fn fmt(&self, f: &mut fmt::Formatter<'_>) -> fmt::Result {
        f.debug_list().entries(self.clone()).finish()
    }
}

#[cfg(test)]
mod tests {
    use super::*;
    use crate::library;
    use crate::BsiiFile;

    /// Nothing runs out in a save that was read: every record leads to what the library finds, so that
    /// the library is not asked again.
    #[test]
    fn every_record_leads_somewhere() {
        let (mut nameless, mut named) = (0, 0);
        for number in 0..2000 {
            let bytes = generate::file(8, number);
            let Ok(file) = BsiiFile::parse(&bytes) else {
                continue;
            };
            let index = file.index().unwrap();
            let mut table = vec![0; bytes.len() / 17 * 3];
            for number in 0..file.block_count() {
                let record = Record::of(index, number).unwrap();
                let found = library::block_at(&bytes, &mut table, number);
                let start = found.id_offset as usize;
                let id = &bytes[start..start + found.id_len as usize];
                assert_eq!(record.block(&bytes), Some((found.prototype_id, id)));
                let (prototype_id, _) = record.prototype(&bytes).unwrap();
                assert_eq!(prototype_id, found.prototype_id);
                let definitions = record.definitions(&bytes, 2).unwrap();
                assert_eq!(definitions.count() as u64, record.fields);
                match id[0] {
                    0xff => nameless += 1,
                    _ => named += 1,
                }
            }
            assert_eq!(Record::of(index, file.block_count()), None);
            assert_eq!(Record::of(index, u64::MAX), None);
        }
        assert!(nameless > 100 && named > 100, "{nameless} {named}");
    }

    /// Offsets that lead nowhere have no answer.
    #[test]
    fn records_that_run_out() {
        let bytes = generate::worked_bytes();
        let nowhere = [[0xff; RECORD], [78, 0, 0, 0, 0, 0, 78, 0, 0, 0, 0, 0]];
        for index in nowhere {
            let record = Record::of(&index, 0).unwrap();
            assert_eq!(record.block(&bytes), None);
            assert_eq!(record.prototype(&bytes), None);
            assert!(record.definitions(&bytes, 2).is_none());
            assert_eq!(Record::of(&index[1..], 0), None);
        }
        let index = &[8, 0, 0, 0xff, 0xff, 0xff, 8, 0, 0, 0, 0, 0];
        assert_eq!(Prototypes::of(&bytes, index).next(), None);
        assert_eq!(Prototypes::of(&bytes[..20], &[]).next(), None);
    }
}
