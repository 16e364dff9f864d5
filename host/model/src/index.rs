//! The index beside a save.

use crate::layout::{refuse, value, Cursor, Place, Refusal};
use crate::lookup::{prototype, BlockRecord, Definition, Parsed};
use calls::{Checked, Field, Length, Number, LENGTH_LIMIT, RECORD};

/// The block's offset, its length, the offset of the prototype in force and that one's number of
/// fields, three bytes each.
fn record(block: &BlockRecord) -> impl Iterator<Item = u8> {
    let numbers = [
        block.start,
        block.size(),
        block.in_force,
        block.values.len(),
    ];
    numbers.into_iter().flat_map(three_bytes)
}

fn three_bytes(number: usize) -> [u8; 3] {
    assert!(number < 1 << 24, "{number} within the limit");
    [0, 8, 16].map(|shift| (number >> shift) as u8)
}

impl Parsed {
    /// The one index of the file.
    pub fn index(&self) -> Vec<u8> {
        self.blocks.iter().flat_map(record).collect()
    }

    /// The index in the space, or 11 with the length that is needed.
    pub fn write_index(&self, space: &mut [u8]) -> Length {
        let index = self.index();
        let fits = index.len() <= space.len();
        if fits {
            space[..index.len()].copy_from_slice(&index);
        }
        Length {
            number: if fits { 0 } else { 11 },
            length: index.len() as u64,
            ..Length::default()
        }
    }

    /// 14 at the first group of twelve bytes in which the two differ; one that is cut or missing on
    /// either side differs.
    pub fn check_index(&self, index: &[u8]) -> Result<Checked, Refusal> {
        let written = self.index();
        let (mut ours, mut theirs) = (written.chunks(RECORD), index.chunks(RECORD));
        let mut offset = 0;
        loop {
            match (ours.next(), theirs.next()) {
                (None, None) => return Ok(Checked::default()),
                (our, their) if our == their => offset += RECORD,
                _ => return refuse(14, offset),
            }
        }
    }

    /// 1 if no prototype id is defined twice, else 0.
    pub fn defines_once(&self) -> Number {
        Number {
            value: u64::from(!self.redefined),
            ..Number::default()
        }
    }
}

/// One procedure for every index: what stands at its two offsets is read, whatever that is.
pub fn field_by_index(
    file: &[u8],
    index: &[u8],
    block: u64,
    name: &[u8],
) -> Result<Field, Refusal> {
    if file.len() > LENGTH_LIMIT {
        return refuse(12, 0);
    }
    let Some((at_block, at_prototype)) = offsets(index, block) else {
        return refuse(13, 0);
    };
    let mut cursor = Cursor {
        bytes: file,
        at: 4,
        version: 0,
    };
    cursor.version = cursor.u32()?;

    cursor.at = at_prototype;
    if cursor.u32()? != 0 || cursor.u8()? != 1 {
        return refuse(6, at_block);
    }
    let of = prototype(&mut cursor)?;

    cursor.at = at_block;
    let id = cursor.u32()?;
    if id == 0 || id != of.id {
        return refuse(6, at_block);
    }
    cursor.id()?;
    let mut places = Vec::new();
    for field in &of.fields {
        let offset = cursor.at;
        value(&mut cursor, field.type_id, |_| {})?;
        let len = cursor.at - offset;
        places.push(Place { offset, len });
    }

    let named = |(field, _): &(&Definition, &Place)| field.name.of(file) == name;
    let found = of.fields.iter().zip(&places).find(named);
    found.map_or(refuse(13, 0), |(field, place)| {
        Ok(Field {
            type_id: field.type_id,
            part_offset: place.offset as u64,
            part_len: place.len as u64,
            ..Field::default()
        })
    })
}

/// The offsets of block and prototype in a record that is there with all its bytes.
fn offsets(index: &[u8], block: u64) -> Option<(usize, usize)> {
    let record = index
        .chunks_exact(RECORD)
        .nth(usize::try_from(block).ok()?)?;
    let number = |at: usize| (0..3).map(|i| (record[at + i] as usize) << (8 * i)).sum();
    Some((number(0), number(6)))
}
