//! The text form.

use crate::layout::{refuse, value, word_text, Cursor, Place, Refusal};
use crate::lookup::{BlockRecord, Definition, Parsed};
use calls::{kind, Element};
use std::fmt::{Display, Write};

/// Where the text shows a placement's sum with a NaN, whose bits the Rust leaves open.
pub type OpenPlace = Place;

/// Counts the whole text and keeps it as long as it is within the limit.
struct Sink {
    bytes: Vec<u8>,
    limit: usize,
    length: u64,
    open: Vec<OpenPlace>,
}

impl Sink {
    fn put(&mut self, bytes: &[u8]) {
        if self.length + bytes.len() as u64 <= self.limit as u64 {
            self.bytes.extend_from_slice(bytes);
        }
        self.length += bytes.len() as u64;
    }

    fn show(&mut self, shown: impl Display) {
        write!(self, "{shown}").expect("a sink takes everything");
    }
}

impl Write for Sink {
    fn write_str(&mut self, text: &str) -> std::fmt::Result {
        self.put(text.as_bytes());
        Ok(())
    }
}

/// The text, as far as the limit allows, its length, and the open places.
pub fn text(
    parsed: &Parsed,
    file: &[u8],
    limit: usize,
) -> Result<(Vec<u8>, u64, Vec<OpenPlace>), Refusal> {
    let mut sink = Sink {
        bytes: Vec::new(),
        limit,
        length: 0,
        open: Vec::new(),
    };
    sink.put(b"SiiNunit\n{\n");
    for block in &parsed.blocks {
        write_block(&mut sink, parsed, file, block)?;
    }
    sink.put(b"}\n");
    Ok((sink.bytes, sink.length, sink.open))
}

fn write_block(
    sink: &mut Sink,
    parsed: &Parsed,
    file: &[u8],
    block: &BlockRecord,
) -> Result<(), Refusal> {
    let last = parsed.last_of(block);
    if last.fields.len() != block.values.len() {
        return refuse(8, block.start);
    }
    sink.put(last.name.of(file));
    sink.put(b" : ");
    write_id(sink, block.id.of(file));
    sink.put(b" {\n");
    for (value, field) in block.values.iter().zip(&last.fields) {
        let mut cursor = Cursor {
            bytes: file,
            at: value.place.offset,
            version: parsed.version,
        };
        write_field(sink, &mut cursor, value.type_id, field)?;
    }
    sink.put(b"}\n");
    Ok(())
}

/// The value that the cursor stands at, by its type and the last definition.
fn write_field(
    sink: &mut Sink,
    cursor: &mut Cursor<'_>,
    type_id: u32,
    last: &Definition,
) -> Result<(), Refusal> {
    let (file, at) = (cursor.bytes, cursor.at);
    let mut elements = Vec::new();
    let count = value(cursor, type_id, |element| elements.push(element))?;
    let name = last.name.of(file);
    if let Some(count) = count {
        sink.put(b"  ");
        sink.put(name);
        sink.show(format_args!(": {count}\n"));
    }
    for (i, element) in elements.iter().enumerate() {
        sink.put(b"  ");
        sink.put(name);
        match count {
            Some(_) => sink.show(format_args!("[{i}]: ")),
            None => sink.put(b": "),
        }
        if element.kind == kind::ENUM {
            write_enum(sink, file, element.value as u32, at, last)?;
        } else {
            write_element(sink, file, element);
        }
        sink.put(b"\n");
    }
    Ok(())
}

fn write_enum(
    sink: &mut Sink,
    file: &[u8],
    number: u32,
    at: usize,
    last: &Definition,
) -> Result<(), Refusal> {
    let pairs = last.list.as_deref().unwrap_or(&[]);
    match pairs.iter().rev().find(|pair| pair.0 == number) {
        Some((_, string)) => write_string(sink, string.of(file)),
        None => return refuse(9, at),
    }
    Ok(())
}

fn write_element(sink: &mut Sink, file: &[u8], element: &Element) {
    let place = Place {
        offset: element.place_offset as usize,
        len: element.place_len as usize,
    };
    let value = element.value;
    let f32s = &element.parts;
    match element.kind {
        kind::STRING => write_string(sink, place.of(file)),
        kind::ID => write_id(sink, place.of(file)),
        kind::WORD if value == 0 => sink.put(b"\"\""),
        kind::WORD => sink.show(word_text(value)),
        kind::U16 => write_unsigned(sink, value, u16::MAX as u64),
        kind::U32 => write_unsigned(sink, value, u32::MAX as u64),
        kind::U64 => write_unsigned(sink, value, u64::MAX),
        kind::I32 | kind::I64 => sink.show(value as i64),
        kind::BOOL => sink.show(value == 1),
        kind::F32 => write_float(sink, f32s[0]),
        kind::TWO_F32 => write_floats(sink, &f32s[..2], &[", "]),
        kind::THREE_F32 => write_floats(sink, &f32s[..3], &[", ", ", "]),
        kind::FOUR_F32 => write_floats(sink, &f32s[..4], &["; ", ", ", ", "]),
        kind::THREE_I32 => {
            let [a, b, c] = [0, 1, 2].map(|i| element.parts[i] as i32);
            sink.show(format_args!("({a}, {b}, {c})"));
        }
        kind::SEVEN_F32 => {
            write_floats(sink, &f32s[..3], &[", ", ", "]);
            sink.put(b" ");
            write_floats(sink, &f32s[3..7], &["; ", ", ", ", "]);
        }
        kind::PLACEMENT => write_placement(sink, f32s),
        other => unreachable!("kind {other}"),
    }
}

fn write_unsigned(sink: &mut Sink, value: u64, largest: u64) {
    if value == largest {
        sink.put(b"nil");
    } else {
        sink.show(value);
    }
}

fn write_string(sink: &mut Sink, bytes: &[u8]) {
    let is_bare = |byte: &u8| byte.is_ascii_alphanumeric() || *byte == b'_';
    if !bytes.is_empty() && bytes.iter().all(is_bare) {
        sink.put(bytes);
        return;
    }
    sink.put(b"\"");
    for byte in bytes {
        match byte {
            32..=127 => sink.put(&[*byte]),
            _ => sink.show(format_args!("\\x{byte:02x}")),
        }
    }
    sink.put(b"\"");
}

fn write_float(sink: &mut Sink, bits: u32) {
    let float = f32::from_bits(bits);
    let is_whole = float.fract() == 0.0 && (-1e7..=1e7).contains(&float);
    if bits == 0x8000_0000 {
        sink.put(b"-0");
    } else if is_whole {
        sink.show(float as i32);
    } else {
        sink.show(format_args!("&{bits:x}"));
    }
}

fn write_floats(sink: &mut Sink, bits: &[u32], between: &[&str]) {
    sink.put(b"(");
    for (i, float) in bits.iter().enumerate() {
        if i > 0 {
            sink.put(between[i - 1].as_bytes());
        }
        write_float(sink, *float);
    }
    sink.put(b")");
}

fn write_placement(sink: &mut Sink, bits: &[u32; 8]) {
    let c = cut(bits[3]);
    sink.put(b"(");
    write_sum(sink, bits[0], c.rem_euclid(4096));
    sink.put(b", ");
    write_float(sink, bits[1]);
    sink.put(b", ");
    write_sum(sink, bits[2], c.div_euclid(4096).rem_euclid(4096));
    sink.put(b") ");
    write_floats(sink, &bits[4..], &["; ", ", ", ", "]);
}

/// A float cut towards zero and held to the range of i32; 0 for NaN.
fn cut(bits: u32) -> i64 {
    let float = f32::from_bits(bits) as f64;
    if float.is_nan() {
        return 0;
    }
    float.trunc().clamp(-2147483648.0, 2147483647.0) as i64
}

/// A coordinate plus 512 times (sector - 2048). The multiple is exact, so this rounds once.
fn write_sum(sink: &mut Sink, bits: u32, sector: i64) {
    let float = f32::from_bits(bits);
    let start = sink.length as usize;
    if float.is_nan() {
        write_float(sink, bits | 1 << 22);
        let len = sink.length as usize - start;
        sink.open.push(Place { offset: start, len });
    } else {
        write_float(sink, (float + (512 * (sector - 2048)) as f32).to_bits());
    }
}

fn write_id(sink: &mut Sink, id: &[u8]) {
    let words = id[1..].chunks(8).map(|word| {
        let word: [u8; 8] = word.try_into().expect("an id's words have 8 bytes");
        u64::from_le_bytes(word)
    });
    match id[0] {
        0 => sink.put(b"null"),
        0xff => words.for_each(|number| write_nameless(sink, number)),
        _ => {
            for (i, word) in words.enumerate() {
                sink.put(if i > 0 { b"." } else { b"" });
                sink.show(word_text(word % (1 << 63)));
            }
        }
    }
}

fn write_nameless(sink: &mut Sink, number: u64) {
    sink.put(b"_nameless");
    let groups = [48, 32, 16, 0].map(|shift| number >> shift & 0xffff);
    let first = groups.iter().position(|group| *group != 0).unwrap_or(3);
    sink.show(format_args!(".{:x}", groups[first]));
    for group in &groups[first + 1..] {
        sink.show(format_args!(".{group:04x}"));
    }
}
