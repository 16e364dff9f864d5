//! Numbers, strings, words, ids and values in the bytes.

use calls::{kind, parts_of, Element};

#[derive(Clone, Copy, Debug, PartialEq, Eq)]
pub struct Refusal {
    pub number: u32,
    pub offset: usize,
    /// Of the item that runs out, the bytes that are not there; 0 with every number but 3.
    pub lacking: usize,
}

/// Every refusal but 3, which `take` gives alone.
pub fn refuse<T>(number: u32, offset: usize) -> Result<T, Refusal> {
    Err(Refusal {
        number,
        offset,
        lacking: 0,
    })
}

#[derive(Clone, Copy, Debug, Default, PartialEq, Eq)]
pub struct Place {
    pub offset: usize,
    pub len: usize,
}

impl Place {
    pub fn of(self, bytes: &[u8]) -> &[u8] {
        &bytes[self.offset..self.offset + self.len]
    }
}

pub struct Cursor<'a> {
    pub bytes: &'a [u8],
    pub at: usize,
    /// The file's, by which the floats of a placement are counted.
    pub version: u32,
}

impl<'a> Cursor<'a> {
    /// An item of `n` bytes; 3 at its start if it runs out. Of one that starts behind the end, all
    /// bytes are lacking.
    pub fn take(&mut self, n: usize) -> Result<&'a [u8], Refusal> {
        let there = self.bytes.len().saturating_sub(self.at);
        if there < n {
            return Err(Refusal {
                number: 3,
                offset: self.at,
                lacking: n - there,
            });
        }
        self.at += n;
        Ok(&self.bytes[self.at - n..self.at])
    }

    fn little_endian(&mut self, n: usize) -> Result<u64, Refusal> {
        let bytes = self.take(n)?;
        Ok(bytes
            .iter()
            .rev()
            .fold(0, |sum, byte| sum << 8 | *byte as u64))
    }

    pub fn u8(&mut self) -> Result<u8, Refusal> {
        Ok(self.little_endian(1)? as u8)
    }

    pub fn u16(&mut self) -> Result<u16, Refusal> {
        Ok(self.little_endian(2)? as u16)
    }

    pub fn u32(&mut self) -> Result<u32, Refusal> {
        Ok(self.little_endian(4)? as u32)
    }

    pub fn u64(&mut self) -> Result<u64, Refusal> {
        self.little_endian(8)
    }

    /// The place of a string's bytes, without the length.
    pub fn string(&mut self) -> Result<Place, Refusal> {
        let len = self.u32()? as usize;
        let offset = self.at;
        if !is_utf8(self.take(len)?) {
            return refuse(4, offset);
        }
        Ok(Place { offset, len })
    }

    /// An encoded word's low 63 bits.
    pub fn word(&mut self) -> Result<u64, Refusal> {
        let start = self.at;
        let word = self.u64()? % (1 << 63);
        let mut rest = word;
        while rest > 0 {
            if rest % 38 == 0 {
                return refuse(5, start);
            }
            rest /= 38;
        }
        Ok(word)
    }

    /// The place of an id, its first byte included.
    pub fn id(&mut self) -> Result<Place, Refusal> {
        let offset = self.at;
        match self.u8()? {
            0xff => {
                self.u64()?;
            }
            words => {
                for _ in 0..words {
                    self.word()?;
                }
            }
        }
        let len = self.at - offset;
        Ok(Place { offset, len })
    }
}

/// The characters of an accepted word.
pub fn word_text(mut word: u64) -> String {
    let mut text = String::new();
    while word > 0 {
        let digit = (word % 38) as usize;
        text.push(b"?0123456789abcdefghijklmnopqrstuvwxyz_"[digit] as char);
        word /= 38;
    }
    text
}

/// The Unicode Standard, table 3-7.
fn is_utf8(bytes: &[u8]) -> bool {
    let mut rest = bytes;
    while let Some(first) = rest.first() {
        let (len, second) = match first {
            0x00..=0x7f => (1, 0..=0),
            0xc2..=0xdf => (2, 0x80..=0xbf),
            0xe0 => (3, 0xa0..=0xbf),
            0xe1..=0xec | 0xee..=0xef => (3, 0x80..=0xbf),
            0xed => (3, 0x80..=0x9f),
            0xf0 => (4, 0x90..=0xbf),
            0xf1..=0xf3 => (4, 0x80..=0xbf),
            0xf4 => (4, 0x80..=0x8f),
            _ => return false,
        };
        if rest.len() < len || len > 1 && !second.contains(&rest[1]) {
            return false;
        }
        if len > 2
            && rest[2..len]
                .iter()
                .any(|byte| !(0x80..=0xbf).contains(byte))
        {
            return false;
        }
        rest = &rest[len..];
    }
    true
}

/// The kind of a listed type's elements, and whether it is an array.
fn listed(version: u32, type_id: u32) -> Option<(u32, bool)> {
    let placement = match version {
        1 => kind::SEVEN_F32,
        _ => kind::PLACEMENT,
    };
    Some(match type_id {
        0x01 => (kind::STRING, false),
        0x02 => (kind::STRING, true),
        0x03 => (kind::WORD, false),
        0x04 => (kind::WORD, true),
        0x05 => (kind::F32, false),
        0x06 => (kind::F32, true),
        0x07 => (kind::TWO_F32, false),
        0x09 => (kind::THREE_F32, false),
        0x0a => (kind::THREE_F32, true),
        0x11 => (kind::THREE_I32, false),
        0x12 => (kind::THREE_I32, true),
        0x17 => (kind::FOUR_F32, false),
        0x18 => (kind::FOUR_F32, true),
        0x19 => (placement, false),
        0x1a => (placement, true),
        0x25 => (kind::I32, false),
        0x26 => (kind::I32, true),
        0x27 | 0x2f => (kind::U32, false),
        0x28 => (kind::U32, true),
        0x2b => (kind::U16, false),
        0x2c => (kind::U16, true),
        0x31 => (kind::I64, false),
        0x32 => (kind::I64, true),
        0x33 => (kind::U64, false),
        0x34 => (kind::U64, true),
        0x35 => (kind::BOOL, false),
        0x36 => (kind::BOOL, true),
        0x37 => (kind::ENUM, false),
        0x39 | 0x3b | 0x3d => (kind::ID, false),
        0x3a | 0x3c => (kind::ID, true),
        _ => return None,
    })
}

fn element(cursor: &mut Cursor<'_>, kind: u32) -> Result<Element, Refusal> {
    let mut element = Element {
        kind,
        ..Default::default()
    };
    let mut place = Place::default();
    match kind {
        kind::STRING => place = cursor.string()?,
        kind::ID => place = cursor.id()?,
        kind::WORD => element.value = cursor.word()?,
        kind::U16 => element.value = cursor.u16()? as u64,
        kind::U32 | kind::ENUM => element.value = cursor.u32()? as u64,
        kind::I32 => element.value = cursor.u32()? as i32 as u64,
        kind::U64 | kind::I64 => element.value = cursor.u64()?,
        kind::BOOL => element.value = (cursor.u8()? != 0) as u64,
        vector => {
            for part in &mut element.parts[..parts_of(vector)] {
                *part = cursor.u32()?;
            }
        }
    }
    element.place_offset = place.offset as u64;
    element.place_len = place.len as u64;
    Ok(element)
}

/// Reads a whole value and shows its elements. The answer is an array's count.
pub fn value(
    cursor: &mut Cursor<'_>,
    type_id: u32,
    mut each: impl FnMut(Element),
) -> Result<Option<u32>, Refusal> {
    let Some((kind, is_array)) = listed(cursor.version, type_id) else {
        return refuse(7, cursor.at);
    };
    if !is_array {
        each(element(cursor, kind)?);
        return Ok(None);
    }
    let count = cursor.u32()?;
    for _ in 0..count {
        each(element(cursor, kind)?);
    }
    Ok(Some(count))
}

/// Floats are kept as floats, so there is one NaN; the text has each one's own bits.
pub fn element_of(version: u32, type_id: u32, part: &[u8], index: u64) -> Result<Element, Refusal> {
    let mut cursor = Cursor {
        bytes: part,
        at: 0,
        version,
    };
    let (mut found, mut position) = (None, 0);
    value(&mut cursor, type_id, |element| {
        if position == index {
            found = Some(element);
        }
        position += 1;
    })?;
    found.map_or(refuse(13, 0), |element| Ok(element.with_one_nan()))
}
