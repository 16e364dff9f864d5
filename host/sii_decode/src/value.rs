//! A field's value and its elements.

use crate::library::{self, kind, Element};
use crate::{Id, Refusal};
use std::fmt;

/// Eight floats, as they stand in the file: the text shows sums of them.
pub type Placement = (f32, f32, f32, f32, f32, f32, f32, f32);

/// One element: a single value, or one of an array.
///
/// `TryFrom` makes plain numbers and strings of it. `Display` shows a string as it is, floats as the
/// shortest decimal number that reads back as the same one, several numbers with a space between
/// two, and an id as the text does.
#[derive(Clone, Debug, PartialEq)]
pub enum DataValue<'a> {
    /// Types 0x01 and 0x02.
    String(&'a str),
    /// 0x03 and 0x04: an encoded word's characters.
    EncodedString(String),
    /// 0x05 and 0x06.
    Float(f32),
    /// 0x07.
    FloatVec2((f32, f32)),
    /// 0x09 and 0x0a.
    FloatVec3((f32, f32, f32)),
    /// 0x11 and 0x12.
    Int32Vec3((i32, i32, i32)),
    /// 0x17 and 0x18.
    FloatVec4((f32, f32, f32, f32)),
    /// 0x19 and 0x1a, in a save of version 1: the text shows these seven as they are.
    FloatVec7((f32, f32, f32, f32, f32, f32, f32)),
    /// 0x19 and 0x1a, in a save of any other version.
    FloatVec8(Placement),
    /// 0x25 and 0x26.
    Int32(i32),
    /// 0x27, 0x28 and 0x2f. The largest one is `nil` in the text.
    UInt32(u32),
    /// 0x2b and 0x2c. The largest one is `nil` in the text.
    UInt16(u16),
    /// 0x31 and 0x32.
    Int64(i64),
    /// 0x33 and 0x34. The largest one is `nil` in the text.
    UInt64(u64),
    /// 0x35 and 0x36.
    Bool(bool),
    /// 0x37: the number as it stands; the strings are in the prototype.
    Enum(u32),
    /// 0x39 to 0x3d.
    Id(Id),
}

impl DataValue<'_> {
    /// What it is, in a word: `string`, `word`, `f32`, `two-f32`, `three-f32`, `three-i32`,
    /// `four-f32`, `seven-f32`, `placement`, `i32`, `u32`, `u16`, `i64`, `u64`, `bool`, `enum` or `id`.
    pub fn kind_name(&self) -> &'static str {
        match self {
            DataValue::String(_) => "string",
            DataValue::EncodedString(_) => "word",
            DataValue::Float(_) => "f32",
            DataValue::FloatVec2(_) => "two-f32",
            DataValue::FloatVec3(_) => "three-f32",
            DataValue::Int32Vec3(_) => "three-i32",
            DataValue::FloatVec4(_) => "four-f32",
            DataValue::FloatVec7(_) => "seven-f32",
            DataValue::FloatVec8(_) => "placement",
            DataValue::Int32(_) => "i32",
            DataValue::UInt32(_) => "u32",
            DataValue::UInt16(_) => "u16",
            DataValue::Int64(_) => "i64",
            DataValue::UInt64(_) => "u64",
            DataValue::Bool(_) => "bool",
            DataValue::Enum(_) => "enum",
            DataValue::Id(_) => "id",
        }
    }
}

impl fmt::Display for DataValue<'_> {
    fn fmt(&self, out: &mut fmt::Formatter<'_>) -> fmt::Result {
        match self {
            DataValue::String(text) => out.write_str(text),
            DataValue::EncodedString(word) => out.write_str(word),
            DataValue::Float(a) => write!(out, "{a}"),
            DataValue::FloatVec2((a, b)) => write!(out, "{a} {b}"),
            DataValue::FloatVec3((a, b, c)) => write!(out, "{a} {b} {c}"),
            DataValue::Int32Vec3((a, b, c)) => write!(out, "{a} {b} {c}"),
            DataValue::FloatVec4((a, b, c, d)) => write!(out, "{a} {b} {c} {d}"),
            DataValue::FloatVec7((a, b, c, d, e, f, g)) => {
                write!(out, "{a} {b} {c} {d} {e} {f} {g}")
            }
            DataValue::FloatVec8((a, b, c, d, e, f, g, h)) => {
                write!(out, "{a} {b} {c} {d} {e} {f} {g} {h}")
            }
            DataValue::Int32(number) => write!(out, "{number}"),
            DataValue::UInt32(number) | DataValue::Enum(number) => write!(out, "{number}"),
            DataValue::UInt16(number) => write!(out, "{number}"),
            DataValue::Int64(number) => write!(out, "{number}"),
            DataValue::UInt64(number) => write!(out, "{number}"),
            DataValue::Bool(truth) => write!(out, "{truth}"),
            DataValue::Id(id) => write!(out, "{id}"),
        }
    }
}

/// Whether the type is an array's.
pub(crate) fn is_array(type_id: u32) -> bool {
    matches!(
        type_id,
        0x02 | 0x04
            | 0x06
            | 0x0a
            | 0x12
            | 0x18
            | 0x1a
            | 0x26
            | 0x28
            | 0x2c
            | 0x32
            | 0x34
            | 0x36
            | 0x3a
            | 0x3c
    )
}

/// What one element of the type is in a save of this version, or `unlisted`.
pub(crate) fn kind_name(version: u32, type_id: u32) -> &'static str {
    match type_id {
        0x01 | 0x02 => "string",
        0x03 | 0x04 => "word",
        0x05 | 0x06 => "f32",
        0x07 => "two-f32",
        0x09 | 0x0a => "three-f32",
        0x11 | 0x12 => "three-i32",
        0x17 | 0x18 => "four-f32",
        0x19 | 0x1a if version == 1 => "seven-f32",
        0x19 | 0x1a => "placement",
        0x25 | 0x26 => "i32",
        0x27 | 0x28 | 0x2f => "u32",
        0x2b | 0x2c => "u16",
        0x31 | 0x32 => "i64",
        0x33 | 0x34 => "u64",
        0x35 | 0x36 => "bool",
        0x37 => "enum",
        0x39..=0x3d => "id",
        _ => "unlisted",
    }
}

/// A block's value under a name: its type, the bytes of the file that encode it, and the version by
/// which they are read.
#[derive(Clone, Copy, Debug, PartialEq, Eq)]
pub struct DataField<'a> {
    /// The save's, as [`BsiiFile::version`](crate::BsiiFile::version) gives it. With 1 a placement
    /// (0x19 and 0x1a) has seven floats, with every other number eight; for other types it has no
    /// effect.
    pub version: u32,
    /// The type with which the block was read.
    pub type_id: u32,
    /// Of a string with its length, of an array with its count.
    pub part: &'a [u8],
}

impl<'a> DataField<'a> {
    /// Whether the type is an array's: then the part starts with the number of elements.
    pub fn is_array(&self) -> bool {
        is_array(self.type_id)
    }

    /// What one element is, in the word of [`DataValue::kind_name`]; `unlisted` for a type that
    /// the format does not list, which no value that was found has.
    pub fn kind_name(&self) -> &'static str {
        kind_name(self.version, self.type_id)
    }

    /// Element `index`, from 0; a single value has element 0 only. The offset of a refusal counts
    /// from the part's first byte. The whole value is read for it: `elements` is the way to all.
    pub fn element(&self, index: u64) -> Result<DataValue<'a>, Refusal> {
        let answer = library::element_of(self.version, self.type_id, self.part, index);
        answered(&answer).map(|()| value_of(&answer, self.part))
    }

    /// All elements in order, each read once.
    pub fn elements(&self) -> Elements<'a> {
        let (left, rest) = match (self.is_array(), self.part.first_chunk()) {
            (true, Some(&count)) => (u32::from_le_bytes(count), &self.part[4..]),
            (true, None) => (0, self.part),
            (false, _) => (1, self.part),
        };
        Elements {
            version: self.version,
            type_id: self.type_id,
            array: self.is_array(),
            left,
            rest,
        }
    }
}

/// The elements of a value from front to back.
#[derive(Clone, Debug)]
pub struct Elements<'a> {
    version: u32,
    type_id: u32,
    array: bool,
    left: u32,
    rest: &'a [u8],
}

impl<'a> Iterator for Elements<'a> {
    type Item = DataValue<'a>;

    fn next(&mut self) -> Option<DataValue<'a>> {
        self.left = self.left.checked_sub(1)?;
        // An array's type is the single one's plus 1.
        let single = self.type_id - u32::from(self.array);
        let answer = library::element_of(self.version, single, self.rest, 0);
        answered(&answer).ok()?;
        let value = value_of(&answer, self.rest);
        self.rest = &self.rest[size_of(&answer)..];
        Some(value)
    }
}

fn answered(answer: &Element) -> Result<(), Refusal> {
    match answer.number {
        0 => Ok(()),
        number => Err(Refusal {
            number,
            offset: answer.offset,
            lacking: answer.lacking,
            needed: 0,
        }),
    }
}

/// How many bytes the element at the start of the slice has.
fn size_of(answer: &Element) -> usize {
    match answer.kind {
        kind::BOOL => 1,
        kind::U16 => 2,
        kind::F32 | kind::I32 | kind::U32 | kind::ENUM => 4,
        kind::WORD | kind::TWO_F32 | kind::I64 | kind::U64 => 8,
        kind::THREE_F32 | kind::THREE_I32 => 12,
        kind::FOUR_F32 => 16,
        kind::SEVEN_F32 => 28,
        kind::PLACEMENT => 32,
        _ => (answer.place_offset + answer.place_len) as usize,
    }
}

fn value_of<'a>(answer: &Element, part: &'a [u8]) -> DataValue<'a> {
    let place = || {
        let start = answer.place_offset as usize;
        &part[start..start + answer.place_len as usize]
    };
    let [a, b, c, d, e, f, g, h] = answer.parts.map(f32::from_bits);
    let [i, j, k, ..] = answer.parts.map(|bits| bits as i32);
    match answer.kind {
        kind::STRING => DataValue::String(crate::utf8(place())),
        kind::WORD => DataValue::EncodedString(crate::id::word(answer.value)),
        kind::F32 => DataValue::Float(a),
        kind::TWO_F32 => DataValue::FloatVec2((a, b)),
        kind::THREE_F32 => DataValue::FloatVec3((a, b, c)),
        kind::THREE_I32 => DataValue::Int32Vec3((i, j, k)),
        kind::FOUR_F32 => DataValue::FloatVec4((a, b, c, d)),
        kind::SEVEN_F32 => DataValue::FloatVec7((a, b, c, d, e, f, g)),
        kind::PLACEMENT => DataValue::FloatVec8((a, b, c, d, e, f, g, h)),
        kind::I32 => DataValue::Int32(answer.value as i32),
        kind::U32 => DataValue::UInt32(answer.value as u32),
        kind::U16 => DataValue::UInt16(answer.value as u16),
        kind::I64 => DataValue::Int64(answer.value as i64),
        kind::U64 => DataValue::UInt64(answer.value),
        kind::BOOL => DataValue::Bool(answer.value != 0),
        kind::ENUM => DataValue::Enum(answer.value as u32),
        kind::ID => DataValue::Id(Id::from_bytes(place())),
        other => unreachable!("an element of kind {other}"),
    }
}
