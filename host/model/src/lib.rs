//! Document 01, with the requests of 02 that are in force, as a plain program: every call's answer,
//! with refusal number, offset and lacking bytes.
//!
//! It is written from the documents and not from the Rust source, so that it can stand beside both
//! the Rust (which gives no offsets) and the library.

mod forecast;
mod index;
mod layout;
mod lookup;
mod text;

pub use layout::{word_text, Cursor, Place, Refusal};
pub use lookup::{BlockRecord, Definition, Parsed};
pub use text::OpenPlace;

use calls::{
    Answer, Block, Call, Checked, Element, Field, Forecast, Implementation, Length, Lent, Number,
    Prototype, Reading, Text, ROW,
};

/// Keeps the last file it read, since many calls on one file follow each other.
#[derive(Default)]
pub struct Model {
    file: Vec<u8>,
    capacity: usize,
    parsed: Option<(Parsed, Option<Refusal>)>,
}

impl Model {
    /// The file's records, or its first fault, with room for `capacity` prototype ids.
    pub fn parsed(&mut self, file: &[u8], capacity: usize) -> Result<&Parsed, Refusal> {
        match self.reading(file, capacity) {
            (parsed, None) => Ok(parsed),
            (_, Some(refusal)) => Err(*refusal),
        }
    }

    /// What stands in front of the file's first fault; all of it if there is none. See
    /// `Parsed::read`.
    pub fn in_front_of_fault(&mut self, file: &[u8]) -> &Parsed {
        &self.reading(file, usize::MAX).0
    }

    fn reading(&mut self, file: &[u8], capacity: usize) -> &(Parsed, Option<Refusal>) {
        if self.parsed.is_none() || self.capacity != capacity || self.file != file {
            self.parsed = Some(Parsed::read(file, capacity));
            self.capacity = capacity;
            self.file.clear();
            self.file.extend_from_slice(file);
        }
        self.parsed.as_ref().expect("set above")
    }

    /// The whole text, and the places in it that 01 excludes from the comparison with the Rust.
    pub fn whole_text(
        &mut self,
        file: &[u8],
        limit: usize,
    ) -> Result<(Vec<u8>, u64, Vec<OpenPlace>), Refusal> {
        let parsed = self.parsed(file, usize::MAX)?;
        text::text(parsed, file, limit)
    }
}

/// The answer of one kind, or the refusal as one of that kind.
macro_rules! answer {
    ($kind:ident, $result:expr) => {
        Answer::$kind(match $result {
            Ok(answer) => answer,
            Err(refusal) => $kind {
                lacking: refusal.lacking as u64,
                ..$kind::refused(refusal.number, refusal.offset as u64)
            },
        })
    };
}

impl Implementation for Model {
    /// Three words of the table hold one id, and all of them are zero afterwards.
    fn answer(&mut self, call: Call<'_>, lent: Lent<'_>) -> Answer {
        let Lent { file, table, out } = lent;
        let ids = table.len() / ROW;
        table.fill(0);
        match call {
            Call::Read => answer!(Reading, self.parsed(file, ids).map(Parsed::reading)),
            Call::GetPrototype { id } => {
                answer!(
                    Prototype,
                    self.parsed(file, ids).and_then(|p| p.get_prototype(id))
                )
            }
            Call::BlockAt { n } => {
                answer!(Block, self.parsed(file, ids).and_then(|p| p.block_at(n)))
            }
            Call::BlocksByPrototypeName { name, n } => {
                answer!(
                    Number,
                    self.parsed(file, ids)
                        .and_then(|p| p.nth_block_named(file, name, n))
                )
            }
            Call::FieldOf { block, name } => {
                answer!(
                    Field,
                    self.parsed(file, ids)
                        .and_then(|p| p.field_of(file, block, name))
                )
            }
            Call::ToSiin => answer!(
                Text,
                self.parsed(file, ids).and_then(|p| to_siin(p, file, out))
            ),
            Call::ElementOf {
                version,
                type_id,
                part,
                index,
            } => answer!(Element, layout::element_of(version, type_id, part, index)),
            Call::WriteIndex => {
                answer!(Length, self.parsed(file, ids).map(|p| p.write_index(out)))
            }
            Call::CheckIndex { index } => {
                answer!(
                    Checked,
                    self.parsed(file, ids).and_then(|p| p.check_index(index))
                )
            }
            Call::FieldByIndex { index, block, name } => {
                answer!(Field, index::field_by_index(file, index, block, name))
            }
            Call::DefinesOnce => answer!(Number, self.parsed(file, ids).map(Parsed::defines_once)),
            Call::Forecast => {
                answer!(
                    Forecast,
                    self.parsed(file, ids).and_then(|p| p.forecast(file))
                )
            }
        }
    }
}

/// The text in the output, or 11 with the length that is needed.
fn to_siin(parsed: &Parsed, file: &[u8], out: &mut [u8]) -> Result<Text, Refusal> {
    let (bytes, length, _) = text::text(parsed, file, out.len())?;
    let fits = length <= out.len() as u64;
    if fits {
        out[..bytes.len()].copy_from_slice(&bytes);
    }
    Ok(Text {
        number: if fits { 0 } else { 11 },
        length,
        steps: if fits { parsed.steps() } else { 0 },
        ..Text::default()
    })
}
