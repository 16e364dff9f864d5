//! A save and the questions about it.

use crate::index::{longest_index, Record, RECORD};
use crate::library::{self, Reading};
use crate::{DataField, Definitions, Forecast, Id, Prototypes, Refusal, LENGTH_LIMIT};
use std::borrow::Cow;
use std::cell::{OnceCell, RefCell};
use std::fmt;

/// The prototypes of a first table. Saves have a few hundred.
const ROWS: usize = 4096;

/// A save that was read whole and found well-formed.
///
/// Beside the caller's bytes it has the scratch table that each call gets, and an index of 12 bytes
/// for each block. A block and its field are found by the index, whatever stands in front of them.
/// Where the file defines a prototype id twice, questions by a name read the file again from its
/// start, because the index does not lead to the last definition; and without an index, all do.
pub struct BsiiFile<'a> {
    content: &'a [u8],
    table: RefCell<Vec<u32>>,
    blocks: u64,
    /// None without memory for it, or if none is wanted.
    index: Option<Cow<'a, [u8]>>,
    // Asked for by the first question that needs them.
    reading: OnceCell<Reading>,
    once: OnceCell<bool>,
}

/// A prototype, by the last definition of its id where nothing else is said.
#[derive(Clone, Copy, Debug, PartialEq, Eq)]
pub struct Prototype<'a> {
    /// Blocks name their prototype by it.
    pub id: u32,
    /// What the text calls its blocks.
    pub name: &'a str,
    /// How many fields it defines.
    pub fields: u64,
}

/// A unit of the save.
#[derive(Clone, Debug, PartialEq, Eq)]
pub struct DataBlock {
    /// Its place among the blocks, from 0.
    pub number: u64,
    /// The id of its prototype.
    pub prototype_id: u32,
    /// Its own id.
    pub id: Id,
}

/// Number, offset and lacking bytes of an answer: a refusal, if there is one.
pub(crate) fn answered(number: u32, offset: u64, lacking: u64) -> Result<(), Refusal> {
    match number {
        0 => Ok(()),
        _ => Err(Refusal {
            number,
            offset,
            lacking,
            needed: 0,
        }),
    }
}

/// There is no memory for a text of so many bytes.
pub(crate) fn no_room(needed: u64) -> Refusal {
    Refusal {
        number: 11,
        offset: 0,
        lacking: 0,
        needed,
    }
}

/// What was asked for is not in the save.
const ABSENT: Refusal = Refusal {
    number: 13,
    offset: 0,
    lacking: 0,
    needed: 0,
};

/// The words of a table for as many prototypes as can stand in the save. One that is too long is
/// refused before any byte is read, and needs none.
fn largest_table(content: &[u8]) -> usize {
    match content.len() {
        length if length <= LENGTH_LIMIT => calls::enough_words(length),
        _ => 0,
    }
}

/// So many words, all 0; none if there is no memory for them.
pub(crate) fn table_of(words: usize) -> Vec<u32> {
    let mut table = Vec::new();
    if table.try_reserve_exact(words).is_ok() {
        table.resize(words, 0);
    }
    table
}

/// Asks with a first table, and if that has too few rows with the largest, which the answer keeps:
/// every further question about the save needs the same. Without memory for it the library's 10
/// stands.
pub(crate) fn with_table<T>(
    content: &[u8],
    mut ask: impl FnMut(&mut Vec<u32>) -> Result<T, Refusal>,
) -> Result<(T, Vec<u32>), Refusal> {
    let largest = largest_table(content);
    let mut table = table_of(largest.min(ROWS * calls::ROW));
    let mut answer = ask(&mut table);
    if matches!(answer, Err(Refusal { number: 10, .. })) && table.len() < largest {
        let larger = table_of(largest);
        if larger.len() == largest {
            table = larger;
            answer = ask(&mut table);
        }
    }
    answer.map(|answer| (answer, table))
}

/// The text, with a table and a buffer of just what was foretold: memory is the save, the table and
/// the text.
fn text(content: &[u8], table: &mut [u32]) -> Result<Vec<u8>, Refusal> {
    Forecast::ask(content, table)?.write(content, table)
}

/// How many blocks there are, and the index in a buffer of exactly its length, or none without memory
/// for it. It is asked for at once, with room for the index of every file of this length; memory
/// that is only reserved takes none.
fn indexed(content: &[u8], table: &mut [u32]) -> Result<(u64, Option<Vec<u8>>), Refusal> {
    let mut index = Vec::new();
    if content.len() <= LENGTH_LIMIT {
        // What fails here leaves no room, and the answer is the length that is needed.
        let _ = index.try_reserve_exact(longest_index(content.len()));
    }
    let mut answer = library::write_index_within(content, table, &mut index);
    if answer.number == 11 {
        let length = usize::try_from(answer.length).unwrap_or(usize::MAX);
        if index.try_reserve_exact(length).is_err() {
            return Ok((answer.length / RECORD as u64, None));
        }
        answer = library::write_index_within(content, table, &mut index);
    }
    answered(answer.number, answer.offset, answer.lacking)?;
    index.shrink_to_fit();
    Ok((answer.length / RECORD as u64, Some(index)))
}

/// The SiiNunit text of a save, without a [`BsiiFile`] before: one reading less. Refused with 1, 3 to
/// 12 and 15; with 10 and 11 if there is no memory for the table or the text.
pub fn to_siin(content: &[u8]) -> Result<Vec<u8>, Refusal> {
    with_table(content, |table| text(content, table)).map(|(text, _)| text)
}

impl<'a> BsiiFile<'a> {
    /// Reads the whole file and makes its index. Refused with 1, 3 to 7, 12 and 15, and with 10 if
    /// there is no memory for the table; what passes is refused by the questions below with 13 only,
    /// and by the text with 8, 9 and 11.
    pub fn parse(content: &'a [u8]) -> Result<Self, Refusal> {
        let ((blocks, index), table) = with_table(content, |table| indexed(content, table))?;
        Ok(BsiiFile::opened(
            content,
            table,
            blocks,
            index.map(Cow::Owned),
        ))
    }

    /// The same without an index, by one reading in place of two: for a single question. Each one by a
    /// block's number or by a name then reads the file again from its start.
    pub fn without_index(content: &'a [u8]) -> Result<Self, Refusal> {
        let (reading, table) = with_table(content, |table| {
            let reading = library::read(content, table);
            answered(reading.number, reading.offset, reading.lacking).map(|()| reading)
        })?;
        let mut file = BsiiFile::opened(content, table, reading.blocks, None);
        file.reading = OnceCell::from(reading);
        Ok(file)
    }

    /// The same as [`parse`](BsiiFile::parse) with an index that was kept, as [`index`](BsiiFile::index) gives it. The whole file is
    /// read to check the index against it: one of another save, or of this one before it changed,
    /// can find wrong values. Refused as [`parse`](BsiiFile::parse) is, then with 14 unless the index
    /// is the one that `parse` would make.
    pub fn with_index(content: &'a [u8], index: impl Into<Cow<'a, [u8]>>) -> Result<Self, Refusal> {
        let index = index.into();
        let ((), table) = with_table(content, |table| {
            let answer = library::check_index(content, table, &index);
            answered(answer.number, answer.offset, answer.lacking)
        })?;
        let blocks = (index.len() / RECORD) as u64;
        Ok(BsiiFile::opened(content, table, blocks, Some(index)))
    }

    fn opened(
        content: &'a [u8],
        table: Vec<u32>,
        blocks: u64,
        index: Option<Cow<'a, [u8]>>,
    ) -> Self {
        BsiiFile {
            content,
            table: RefCell::new(table),
            blocks,
            index,
            reading: OnceCell::new(),
            once: OnceCell::new(),
        }
    }

    /// The index: 12 bytes for each block. Kept in a file, it serves
    /// [`with_index`](BsiiFile::with_index). None if there was no memory for it, and
    /// [`without_index`](BsiiFile::without_index).
    pub fn index(&self) -> Option<&[u8]> {
        self.index.as_deref()
    }

    /// Whether no prototype id is defined twice. Then the definition by which a block is read is the
    /// last one of its prototype's id, and blocks and fields are found by name through the index. The
    /// file is read when this is first asked for, or first needed.
    pub fn defines_once(&self) -> bool {
        let ask = || library::defines_once(self.content, &mut self.table.borrow_mut());
        // What was read before is not refused, and a refusal would answer 0.
        *self.once.get_or_init(|| ask().value == 1)
    }

    /// The first four bytes.
    pub fn header(&self) -> &'a [u8] {
        &self.content[..4]
    }

    /// The version of the format. In version 1 a placement has seven floats, in every other one
    /// eight; nothing else hangs on it.
    pub fn version(&self) -> u32 {
        let [_, _, _, _, a, b, c, d] = *self.content.first_chunk().unwrap();
        u32::from_le_bytes([a, b, c, d])
    }

    /// How many different prototype ids the file defines. The file is read when this or
    /// [`end`](BsiiFile::end) is first asked for.
    pub fn prototype_count(&self) -> u64 {
        self.reading().prototypes
    }

    /// How many blocks the file has.
    pub fn block_count(&self) -> u64 {
        self.blocks
    }

    /// The offset after the end record; what stands behind it is ignored. The file is read when this or
    /// [`prototype_count`](BsiiFile::prototype_count) is first asked for.
    pub fn end(&self) -> u64 {
        self.reading().next
    }

    fn reading(&self) -> &Reading {
        let ask = || library::read(self.content, &mut self.table.borrow_mut());
        self.reading.get_or_init(ask)
    }

    /// The prototype of an id, by its last definition. The file is read for it; a block's prototype
    /// is found without that by [`DataBlock::prototype`].
    pub fn get_prototype(&self, id: u32) -> Result<Prototype<'a>, Refusal> {
        let answer = self.prototype_answer(id)?;
        Ok(Prototype {
            id,
            name: crate::utf8(self.place(answer.name_offset, answer.name_len)),
            fields: answer.fields,
        })
    }

    /// Each definition of a prototype, in the order of the file: of several with one id the last is the
    /// one that [`get_prototype`](BsiiFile::get_prototype) gives. They are found by the index, so
    /// without one there are none to be had.
    pub fn prototypes<'data>(&'data self) -> Option<Prototypes<'a, 'data>> {
        Some(Prototypes::of(self.content, self.index()?))
    }

    fn prototype_answer(&self, id: u32) -> Result<library::Prototype, Refusal> {
        let answer = library::get_prototype(self.content, &mut self.table.borrow_mut(), id);
        answered(answer.number, answer.offset, answer.lacking).map(|()| answer)
    }

    /// What the save will need. The file is read for it; refused with 8 and 9 as the text is.
    pub fn forecast(&self) -> Result<Forecast, Refusal> {
        Forecast::ask(self.content, &mut self.table.borrow_mut())
    }

    fn record(&self, number: u64) -> Option<Record> {
        Record::of(self.index.as_deref()?, number)
    }

    /// The index where it leads to the last definition of every prototype.
    fn index_by_name(&self) -> Option<&[u8]> {
        self.index.as_deref().filter(|_| self.defines_once())
    }

    /// Block `number`, from 0.
    pub fn block(&self, number: u64) -> Result<DataBlock, Refusal> {
        if number >= self.blocks {
            return Err(ABSENT);
        }
        let found = self.record(number).and_then(|it| it.block(self.content));
        let (prototype_id, id) = match found {
            Some(found) => found,
            None => {
                let answer = library::block_at(self.content, &mut self.table.borrow_mut(), number);
                answered(answer.number, answer.offset, answer.lacking)?;
                let id = self.place(answer.id_offset, answer.id_len);
                (answer.prototype_id, id)
            }
        };
        Ok(DataBlock {
            number,
            prototype_id,
            id: Id::from_bytes(id),
        })
    }

    /// All blocks in order.
    pub fn blocks<'data>(&'data self) -> Blocks<'a, 'data> {
        Blocks {
            file: self,
            number: 0,
        }
    }

    /// The fields of block `number`, by the definition with which the block was read: as many as the
    /// block has values. Refused with 13; and with 11 without an index if an id is defined twice, so
    /// that the definition cannot be found.
    pub fn definitions(&self, number: u64) -> Result<Definitions<'a>, Refusal> {
        let block = self.block(number)?;
        let version = self.version();
        let found = self.record(number);
        let found = found.and_then(|it| it.definitions(self.content, version));
        match found {
            Some(found) => Ok(found),
            None if self.defines_once() => {
                // The length of the name stands in front of it.
                let at = self.prototype_answer(block.prototype_id)?.name_offset - 4;
                Definitions::at(self.content, at as usize, version).ok_or(ABSENT)
            }
            None => Err(Refusal {
                number: 11,
                needed: self.blocks * RECORD as u64,
                ..ABSENT
            }),
        }
    }

    /// The number of the `n`-th block, from 0, whose prototype has that name by its last
    /// definition.
    pub fn nth_by_prototype_name(&self, name: impl AsRef<[u8]>, n: u64) -> Result<u64, Refusal> {
        let name = name.as_ref();
        if self.index_by_name().is_some() {
            let nth = usize::try_from(n).ok();
            let found = nth.and_then(|nth| self.blocks_by_prototype_name(name).nth(nth));
            return found.ok_or(ABSENT);
        }
        let mut table = self.table.borrow_mut();
        let answer = library::blocks_by_prototype_name(self.content, &mut table, name, n);
        answered(answer.number, answer.offset, answer.lacking)?;
        Ok(answer.value)
    }

    /// The numbers of all these blocks, in order. Where an id is defined twice, each costs a reading of
    /// the file.
    pub fn blocks_by_prototype_name<'data, N: AsRef<[u8]> + ?Sized>(
        &'data self,
        name: &'data N,
    ) -> BlocksByPrototypeName<'a, 'data> {
        BlocksByPrototypeName {
            file: self,
            name: name.as_ref(),
            next: 0,
        }
    }

    /// The value of a block, by the block's number, under the first field of that name.
    pub fn field(&self, block: u64, name: impl AsRef<[u8]>) -> Result<DataField<'a>, Refusal> {
        let (content, name) = (self.content, name.as_ref());
        let answer = match self.index_by_name() {
            Some(index) => library::field_by_index(content, index, block, name),
            None => library::field_of(content, &mut self.table.borrow_mut(), block, name),
        };
        answered(answer.number, answer.offset, answer.lacking)?;
        Ok(DataField {
            version: self.version(),
            type_id: answer.type_id,
            part: self.place(answer.part_offset, answer.part_len),
        })
    }

    /// The SiiNunit text, in a buffer of exactly its length. Refused with 8 and 9, and with 11 if
    /// there is no memory for it. [`to_siin`] saves a reading where only the text is wanted.
    pub fn to_siin(&self) -> Result<Vec<u8>, Refusal> {
        text(self.content, &mut self.table.borrow_mut())
    }

    fn place(&self, offset: u64, len: u64) -> &'a [u8] {
        &self.content[offset as usize..][..len as usize]
    }
}

impl DataBlock {
    /// The block's prototype, by its last definition. Where an id is defined twice, the file is read for
    /// it.
    pub fn prototype<'a>(&self, file: &BsiiFile<'a>) -> Result<Prototype<'a>, Refusal> {
        let record = file.index_by_name().and_then(|_| file.record(self.number));
        let defined = record.and_then(|it| Some((it.prototype(file.content)?, it.fields)));
        match defined {
            // Of another file's block the number says nothing.
            Some(((id, name), fields)) if id == self.prototype_id => Ok(Prototype {
                id,
                name: crate::utf8(name),
                fields,
            }),
            _ => file.get_prototype(self.prototype_id),
        }
    }

    /// The block's fields, by the definition with which it was read.
    pub fn definitions<'a>(&self, file: &BsiiFile<'a>) -> Result<Definitions<'a>, Refusal> {
        file.definitions(self.number)
    }

    /// The block's value under a name.
    pub fn field<'a>(
        &self,
        file: &BsiiFile<'a>,
        name: impl AsRef<[u8]>,
    ) -> Result<DataField<'a>, Refusal> {
        file.field(self.number, name)
    }
}

/// Counts, and none of the bytes.
impl fmt::Debug for BsiiFile<'_> {
    fn fmt(&self, f: &mut fmt::Formatter<'_>) -> fmt::Result {
        f.debug_struct("BsiiFile")
            .field("bytes", &self.content.len())
            .field("prototypes", &self.prototype_count())
            .field("blocks", &self.blocks)
            .field("end", &self.end())
            .finish_non_exhaustive()
    }
}

/// The blocks of a save.
#[derive(Clone, Debug)]
pub struct Blocks<'a, 'data> {
    file: &'data BsiiFile<'a>,
    number: u64,
}

impl Iterator for Blocks<'_, '_> {
    type Item = DataBlock;

    fn next(&mut self) -> Option<DataBlock> {
        let block = self.file.block(self.number).ok()?;
        self.number += 1;
        Some(block)
    }

    fn size_hint(&self) -> (usize, Option<usize>) {
        let left = (self.file.block_count() - self.number) as usize;
        (left, Some(left))
    }
}

impl ExactSizeIterator for Blocks<'_, '_> {}

/// The numbers of the blocks under a prototype's name.
#[derive(Clone, Debug)]
pub struct BlocksByPrototypeName<'a, 'data> {
    file: &'data BsiiFile<'a>,
    name: &'data [u8],
    /// By the index the next block to look at, otherwise how many were found.
    next: u64,
}

impl Iterator for BlocksByPrototypeName<'_, '_> {
    type Item = u64;

    fn next(&mut self) -> Option<u64> {
        let file = self.file;
        let Some(index) = file.index_by_name() else {
            let found = file.nth_by_prototype_name(self.name, self.next).ok()?;
            self.next += 1;
            return Some(found);
        };
        loop {
            let record = Record::of(index, self.next)?;
            let number = self.next;
            self.next += 1;
            let named = record.prototype(file.content);
            if named.is_some_and(|(_, name)| name == self.name) {
                return Some(number);
            }
        }
    }
}
