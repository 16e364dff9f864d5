//! Lists of insertions written down by their bytes alone, and the text file that they are stored in.
//!
//! A list starts with a line `allowed LABEL` or `refused LABEL`; then come `save HEX` and a line for
//! each insertion, `field ID POSITION DEFINITION VALUE..`, with a value for each block of the file by
//! its number, `prototype RECORD HEX` or `block RECORD HEX`. No bytes are written as `-`.

use super::Insertion;
use crate::save::Save;
use std::fmt::Write;

#[derive(Clone, Debug, PartialEq, Eq)]
pub enum Written {
    Field {
        id: u32,
        position: usize,
        definition: Vec<u8>,
        /// By the number of the block; those of blocks of another id are empty.
        values: Vec<Vec<u8>>,
    },
    Prototype {
        record: usize,
        bytes: Vec<u8>,
    },
    Block {
        record: usize,
        bytes: Vec<u8>,
    },
}

/// A list, and whether 01 allows it.
#[derive(Clone, Debug, PartialEq, Eq)]
pub struct Stored {
    pub label: String,
    pub is_allowed: bool,
    pub save: Vec<u8>,
    pub list: Vec<Written>,
}

impl Insertion {
    /// As it is made on the save.
    pub fn written(&self, save: &Save) -> Written {
        match self {
            Insertion::Field {
                id,
                position,
                definition,
                values,
            } => {
                let mut by_number = vec![Vec::new(); save.blocks().count()];
                for (number, bytes) in values {
                    by_number[*number].clone_from(bytes);
                }
                Written::Field {
                    id: *id,
                    position: *position,
                    definition: definition.bytes(),
                    values: by_number,
                }
            }
            Insertion::Prototype { record, prototype } => Written::Prototype {
                record: *record,
                bytes: prototype.bytes(),
            },
            Insertion::Block { record, block } => Written::Block {
                record: *record,
                bytes: block.bytes(),
            },
        }
    }
}

impl Written {
    fn line(&self) -> String {
        match self {
            Written::Field {
                id,
                position,
                definition,
                values,
            } => {
                let values: String = values
                    .iter()
                    .map(|value| format!(" {}", hex(value)))
                    .collect();
                format!("field {id} {position} {}{values}", hex(definition))
            }
            Written::Prototype { record, bytes } => format!("prototype {record} {}", hex(bytes)),
            Written::Block { record, bytes } => format!("block {record} {}", hex(bytes)),
        }
    }

    fn of_line(line: &str) -> Option<Written> {
        let words: Vec<&str> = line.split(' ').collect();
        Some(match words.as_slice() {
            ["field", id, position, definition, values @ ..] => Written::Field {
                id: id.parse().ok()?,
                position: position.parse().ok()?,
                definition: bytes_of(definition)?,
                values: values
                    .iter()
                    .map(|value| bytes_of(value))
                    .collect::<Option<_>>()?,
            },
            ["prototype", record, bytes] => Written::Prototype {
                record: record.parse().ok()?,
                bytes: bytes_of(bytes)?,
            },
            ["block", record, bytes] => Written::Block {
                record: record.parse().ok()?,
                bytes: bytes_of(bytes)?,
            },
            _ => return None,
        })
    }
}

fn hex(bytes: &[u8]) -> String {
    match bytes {
        [] => "-".to_string(),
        _ => bytes.iter().map(|byte| format!("{byte:02x}")).collect(),
    }
}

fn bytes_of(hex: &str) -> Option<Vec<u8>> {
    if hex == "-" {
        return Some(Vec::new());
    }
    let pairs = hex.as_bytes().chunks(2);
    let byte = |pair: &[u8]| u8::from_str_radix(std::str::from_utf8(pair).ok()?, 16).ok();
    let whole = !hex.is_empty() && hex.len().is_multiple_of(2);
    whole.then(|| pairs.map(byte).collect()).flatten()
}

/// The text of a file of lists.
pub fn text(lists: &[Stored]) -> String {
    let mut text = String::new();
    for stored in lists {
        let word = if stored.is_allowed {
            "allowed"
        } else {
            "refused"
        };
        let _ = writeln!(text, "{word} {}\nsave {}", stored.label, hex(&stored.save));
        for written in &stored.list {
            let _ = writeln!(text, "{}", written.line());
        }
        text.push('\n');
    }
    text
}

/// The lists of a file, if it has the format.
pub fn lists(text: &str) -> Option<Vec<Stored>> {
    let lists = text.split_terminator("\n\n");
    lists.map(list).collect()
}

fn list(text: &str) -> Option<Stored> {
    let mut lines = text.lines();
    let (word, label) = lines.next()?.split_once(' ')?;
    let is_allowed = match word {
        "allowed" => true,
        "refused" => false,
        _ => return None,
    };
    Some(Stored {
        label: label.to_string(),
        is_allowed,
        save: bytes_of(lines.next()?.strip_prefix("save ")?)?,
        list: lines.map(Written::of_line).collect::<Option<_>>()?,
    })
}
