//! The message of a refusal.

use crate::arguments::Question;
use crate::input::Index;
use crate::show::{self, Quoted};
use crate::walk::{self, Block, Place};
use sii_decode::{BsiiFile, Refusal, LENGTH_LIMIT, RECORD};

/// Whether the offset says something about the save's bytes there: that of 14 counts in the index.
fn has_bytes(number: u32) -> bool {
    !matches!(number, 10..=14)
}

/// What was refused, where that is, and the bytes there.
pub fn message(
    name: &str,
    content: &[u8],
    index: Option<&Index>,
    question: Option<&Question>,
    refusal: &Refusal,
) -> Vec<u8> {
    let Refusal { number, offset, .. } = *refusal;
    if !has_bytes(number) {
        let sentence = match index {
            Some(index) if number == 14 => misfit(content, index, offset),
            _ => sentence(content, question, refusal, None),
        };
        return format!("sii-decode: {name}: refused {number} at {offset}: {sentence}\n").into();
    }
    let place = walk::place_of(content, offset);
    let sentence = sentence(content, question, refusal, place.as_ref());
    let first =
        format!("sii-decode: {name}: refused {number} at {offset} (0x{offset:08x}): {sentence}\n");
    let mut message = first.into_bytes();
    if let Some(Place::Block(block)) = &place {
        message.extend(format!("  {}\n", in_words(block)).bytes());
    }
    if !content.is_empty() {
        show::around(&mut message, content, offset);
    }
    message
}

/// How the index departs from the save's own at that offset of it.
fn misfit(content: &[u8], index: &Index, offset: u64) -> String {
    let blocks = BsiiFile::without_index(content).map_or(0, |file| file.block_count());
    let record = offset / RECORD as u64;
    let there = (index.bytes.len() as u64).saturating_sub(offset);
    let how = match there {
        _ if blocks == 0 => "the save has no block, so its index is empty".into(),
        _ if record >= blocks => "it goes on behind the record of the last block".into(),
        0 => format!("its record {record} is missing"),
        part if part < RECORD as u64 => format!("its record {record} is cut"),
        _ => format!("its record {record} differs"),
    };
    let name = &index.name;
    format!("{name} is not the index of this save: {how} (has the save changed since?)")
}

fn in_words(block: &Block) -> String {
    let mut words = format!(
        "in block {}, of prototype {}",
        block.number, block.prototype_id
    );
    if let Some(name) = block.prototype {
        words += &format!(", {}", Quoted(name));
    }
    if let Some((name, type_id)) = block.field {
        words += &format!("; field {} of type 0x{type_id:02x}", Quoted(name));
    }
    words
}

/// More of it than the number says, where the save or the question tell more.
fn sentence(
    content: &[u8],
    question: Option<&Question>,
    refusal: &Refusal,
    place: Option<&Place>,
) -> String {
    let more = match refusal.number {
        1 => not_bsii(content).map(String::from),
        3 => place.map(|place| cut(content, refusal, place)),
        13 => question.and_then(|question| absent(content, question)),
        15 => bad_mark(content, refusal),
        _ => None,
    };
    more.unwrap_or_else(|| refusal.sentence())
}

/// What a save that ends early was cut in. Bytes with which it would be longer than a save may be were
/// never cut off.
fn cut(content: &[u8], refusal: &Refusal, place: &Place) -> String {
    let part = match place {
        Place::Version => "version".into(),
        Place::Beginning => "next record's beginning".into(),
        Place::Prototype => "last prototype".into(),
        Place::Block(block) => match block.field {
            Some((name, _)) => format!("block {}, field {}", block.number, Quoted(name)),
            None => format!("block {}", block.number),
        },
    };
    let early = match refusal.lacking {
        1 => "1 byte".into(),
        lacking => format!("{lacking} bytes"),
    };
    let why = match refusal.lacking.saturating_add(content.len() as u64) > LENGTH_LIMIT as u64 {
        true => ": no save is so long, so it is damaged in front of that",
        false => " (was the stick pulled too soon?)",
    };
    format!("the save ends {early} early in its {part}{why}")
}

fn bad_mark(content: &[u8], refusal: &Refusal) -> Option<String> {
    let mark = content.get(usize::try_from(refusal.offset).ok()?)?;
    let sentence = refusal.sentence();
    Some(format!(
        "{sentence}: its mark is 0x{mark:02x}, where 0 or 1 may stand"
    ))
}

/// What a file is that is not BSII, by its first bytes.
fn not_bsii(content: &[u8]) -> Option<&'static str> {
    match content {
        [] => Some("the file is empty"),
        b"B" | b"BS" | b"BSI" => {
            Some("the file ends within the four bytes BSII (was the stick pulled too soon?)")
        }
        [b'S', b'c', b's', b'C', ..] => {
            Some("the save is encrypted (ScsC), and only BSII is read: decrypt it first")
        }
        [b'S', b'i', b'i', b'N', ..] => Some(
            "the file is text already (SiiN), and only BSII is read: there is nothing to convert",
        ),
        [0x1f, 0x8b, ..] => {
            Some("the file is compressed (gzip), and only BSII is read: decompress it first")
        }
        _ => None,
    }
}

/// What was asked for and is not there.
fn absent(content: &[u8], question: &Question) -> Option<String> {
    let file = BsiiFile::without_index(content).ok()?;
    let no_block = |number: &u64| match file.block_count() {
        1 => format!("there is no block {number}: the save has 1 block, with the number 0"),
        count => format!("there is no block {number}: the save has {count} blocks, counted from 0"),
    };
    match question {
        Question::Info
        | Question::Forecast
        | Question::Prototypes
        | Question::Blocks
        | Question::Index
        | Question::Check => None,
        Question::Prototype(id) => Some(format!("the save defines no prototype with the id {id}")),
        Question::Block(number) | Question::Fields(number) => Some(no_block(number)),
        Question::BlocksNamed(name) => Some(format!(
            "the save has no block whose prototype is named {}",
            Quoted(name)
        )),
        Question::Field(number, _) if *number >= file.block_count() => Some(no_block(number)),
        Question::Field(number, name) => {
            let prototype = file.block(*number).ok()?.prototype(&file).ok()?;
            let of = Quoted(prototype.name.as_bytes());
            let at = prototype.name.as_ptr() as usize - content.as_ptr() as usize;
            Some(match walk::defines(content, at, name) {
                true => format!(
                    "block {number} has no value for the field {}: the last definition of its prototype {of} has more fields than the block has values",
                    Quoted(name)
                ),
                false => format!(
                    "block {number}, of the prototype {of}, has no field named {}",
                    Quoted(name)
                ),
            })
        }
    }
}

#[cfg(test)]
mod tests {
    use super::*;
    use sii_decode::DataField;

    /// Of version 2, and of version 1.
    fn samples() -> [Vec<u8>; 2] {
        let root = std::path::Path::new(env!("CARGO_MANIFEST_DIR")).join("../..");
        let read = |name| std::fs::read(root.join(name)).unwrap();
        ["samples/garage.bsii", "samples/depot.bsii"].map(read)
    }

    /// How the place goes with the refusal's number.
    fn check(bytes: &[u8], refusal: &Refusal) {
        let Refusal { number, offset, .. } = *refusal;
        let message = message("x", bytes, None, None, refusal);
        let start = format!("sii-decode: x: refused {number} at {offset} (0x{offset:08x}): ");
        assert!(message.starts_with(start.as_bytes()) && message.ends_with(b"\n"));
        assert!(message.iter().filter(|byte| **byte == b'\n').count() <= 6);
        let place = walk::place_of(bytes, offset);
        let is_told = place.is_some();
        let block = match place {
            Some(Place::Block(block)) => Some(block),
            _ => None,
        };
        let field = block.as_ref().and_then(|block| block.field);
        let kind = field.map(|(_, type_id)| {
            let (version, part) = (2, &[][..]);
            let field = DataField {
                version,
                type_id,
                part,
            };
            field.kind_name()
        });
        match number {
            3 => assert!(is_told && refusal.lacking > 0),
            6 => assert!(block.unwrap().prototype.is_none()),
            7 => assert_eq!(kind, Some("unlisted")),
            8 => assert!(block.unwrap().prototype.is_some() && field.is_none()),
            9 => assert_eq!(kind, Some("enum")),
            _ => assert_ne!(kind, Some("unlisted")),
        }
    }

    /// Every byte of the samples replaced, and the samples cut at every byte.
    #[test]
    fn damaged_saves() {
        let mut seen = [0; 16];
        let mut try_one = |bytes: &[u8]| {
            if let Err(refusal) = sii_decode::to_siin(bytes) {
                seen[refusal.number as usize] += 1;
                check(bytes, &refusal);
            }
        };
        for whole in samples() {
            for at in 0..whole.len() {
                try_one(&whole[..at]);
                for byte in [0, 1, 2, 8, 0x26, 0x37, 0x7f, 0xff] {
                    let mut bytes = whole.clone();
                    bytes[at] = byte;
                    try_one(&bytes);
                }
            }
        }
        assert_eq!(seen[2], 0);
        for number in [1, 3, 4, 5, 6, 7, 9, 15] {
            assert!(seen[number] > 0, "{number}: {seen:?}");
        }
    }
}
