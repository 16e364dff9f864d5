//! A save's text as parts, each with its own text: "the bytes that the text form gives for it".
//!
//! The model is asked about each part alone, in a save of one block. So a part's text cannot hang on
//! what stands beside it.

use generate::bytes;
use generate::save::{Block, Definition, Save};
use model::Model;

pub struct Part {
    pub text: Vec<u8>,
    pub inserted: bool,
}

const OPENING: &[u8] = b"SiiNunit\n{\n";
const CLOSING: &[u8] = b"}\n";

/// The parts of the text in order. An inserted block is one, with all that is in it.
pub fn text_parts(model: &mut Model, save: &Save) -> Vec<Part> {
    let mut parts = vec![old(OPENING)];
    for block in save.blocks() {
        let inside = block_parts(model, save, block);
        match block.inserted {
            false => parts.extend(inside),
            true => parts.push(Part {
                text: inside.into_iter().flat_map(|part| part.text).collect(),
                inserted: true,
            }),
        }
    }
    parts.push(old(CLOSING));
    parts
}

fn old(text: &[u8]) -> Part {
    Part {
        text: text.to_vec(),
        inserted: false,
    }
}

fn block_parts(model: &mut Model, save: &Save, block: &Block) -> Vec<Part> {
    let of = save.of(block);
    let head = bytes::prototype(1, &of.name, &[]);
    let empty = [&1u32.to_le_bytes(), &block.id[..]].concat();
    let mut parts = vec![old(&inner(model, save, &[head, empty], 0))];
    for (field, value) in of.fields.iter().zip(&block.values) {
        parts.push(Part {
            text: lines(model, save, field, &value.bytes),
            inserted: value.inserted,
        });
    }
    parts.push(old(CLOSING));
    parts
}

/// A field's lines.
fn lines(model: &mut Model, save: &Save, field: &Definition, value: &[u8]) -> Vec<u8> {
    let of = bytes::prototype(1, b"", &[field.bytes()]);
    let records = [of, bytes::block(1, value)];
    inner(model, save, &records, " : null {\n".len())
}

/// The text of a save of one block, of the same version, from `start` on in the block's, without what
/// closes it.
fn inner(model: &mut Model, save: &Save, records: &[Vec<u8>], start: usize) -> Vec<u8> {
    let alone = bytes::file_of(save.version, records);
    let made = model.whole_text(&alone, usize::MAX);
    let (text, _, _) = made.expect("a part of a save that converts");
    text[OPENING.len() + start..text.len() - 2 * CLOSING.len()].to_vec()
}
