//! One call on one file, in a process of its own whose instructions are counted from outside.

use crate::arguments::Side;
use sii_decode::{library, BsiiFile};
use std::fs;
use std::hint::black_box;
use std::path::Path;

#[derive(Clone, Copy, Debug, PartialEq, Eq)]
pub enum Call {
    Reading,
    Text,
    Field,
    Write,
    Check,
    Once,
    LookUp,
    Forecast,
    Measuring,
}

/// The calls that the Rust has a counterpart of.
pub const COMPARED: [Call; 3] = [Call::Reading, Call::Text, Call::Field];
/// Those about an index that read the whole file.
pub const INDEX: [Call; 3] = [Call::Write, Call::Check, Call::Once];
/// The forecast, and the text call without room, which ends behind its first walk.
pub const FORECAST: [Call; 2] = [Call::Forecast, Call::Measuring];
/// So many blocks, spread over the file, are looked up, or all if there are fewer.
pub const LOOK_UPS: u64 = 1000;

/// An index has so many bytes for each block.
const RECORD: u64 = 12;

impl Call {
    pub fn name(self) -> &'static str {
        match self {
            Call::Reading => "reading",
            Call::Text => "text",
            Call::Field => "field",
            Call::Write => "write",
            Call::Check => "check",
            Call::Once => "once",
            Call::LookUp => "look-up",
            Call::Forecast => "forecast",
            Call::Measuring => "measuring",
        }
    }

    fn all() -> impl Iterator<Item = Call> {
        let of_files = COMPARED.into_iter().chain(INDEX).chain(FORECAST);
        of_files.chain([Call::LookUp])
    }

    pub fn by_name(name: &str) -> Option<Call> {
        Call::all().find(|call| call.name() == name)
    }

    /// The functions below which instructions are counted, as callgrind names them. Ours are called
    /// nowhere else in the process; `counted` may have a hash of the crate in its name.
    pub fn functions(self, side: Side) -> &'static str {
        match (side, self) {
            (Side::Rust, _) => "benchmark*::one_call::counted*",
            (Side::Ours, Call::Reading) => "sii_read",
            (Side::Ours, Call::Text | Call::Measuring) => "sii_to_siin",
            (Side::Ours, Call::Forecast) => "sii_forecast",
            (Side::Ours, Call::Field) => "sii_field_of",
            (Side::Ours, Call::Write) => "sii_write_index",
            (Side::Ours, Call::Check) => "sii_check_index",
            (Side::Ours, Call::Once) => "sii_defines_once",
            (Side::Ours, Call::LookUp) => "sii_field_by_index",
        }
    }
}

/// What is lent to a call and asked for. It is found by another process: what is allocated for that
/// would change how the Rust allocates.
#[derive(Clone, Debug, PartialEq, Eq)]
pub struct Asked {
    /// Of the table.
    pub words: usize,
    /// For the text.
    pub room: usize,
    /// Of the field call.
    pub block: u64,
    pub name: String,
}

pub fn run(side: Side, call: Call, path: &Path, asked: &Asked) -> Result<(), String> {
    let file = fs::read(path).map_err(|error| format!("{}: {error}", path.display()))?;
    match side {
        Side::Ours => ours(&file, call, asked),
        Side::Rust => rust(&file, call, asked),
    }
}

fn ours(file: &[u8], call: Call, asked: &Asked) -> Result<(), String> {
    let mut table = vec![0; asked.words];
    let number = match call {
        Call::Reading => library::read(file, &mut table).number,
        Call::Text => library::to_siin(file, &mut table, &mut vec![0; asked.room]).number,
        Call::Field => {
            let name = asked.name.as_bytes();
            found_or_absent(library::field_of(file, &mut table, asked.block, name).number)
        }
        Call::Write => {
            let length = RECORD * library::read(file, &mut table).blocks;
            library::write_index(file, &mut table, &mut vec![0; length as usize]).number
        }
        Call::Check => {
            let parsed = BsiiFile::parse(file).map_err(|refusal| refusal.to_string())?;
            library::check_index(file, &mut table, parsed.index().unwrap_or_default()).number
        }
        Call::Once => library::defines_once(file, &mut table).number,
        Call::LookUp => look_ups(file)?,
        Call::Forecast => library::forecast(file, &mut table).number,
        Call::Measuring => measured(library::to_siin(file, &mut table, &mut []).number),
    };
    match number {
        0 => Ok(()),
        _ => Err(format!("ours refuses it: {number}")),
    }
}

/// No refusal of the file.
fn found_or_absent(number: u32) -> u32 {
    match number {
        13 => 0,
        _ => number,
    }
}

/// Nothing is refused but the room that the text has not.
fn measured(number: u32) -> u32 {
    match number {
        11 => 0,
        _ => number,
    }
}

/// Each with the name of the block's first field, by the definition that the index leads to.
fn look_ups(file: &[u8]) -> Result<u32, String> {
    let parsed = BsiiFile::parse(file).map_err(|refusal| refusal.to_string())?;
    let index = parsed.index().unwrap_or_default();
    let blocks = parsed.block_count();
    let asked = blocks.min(LOOK_UPS);
    let mut refused = 0;
    for block in (0..asked).map(|i| i * blocks / asked) {
        let definitions = parsed.definitions(block);
        let mut definitions = definitions.map_err(|refusal| refusal.to_string())?;
        let name = definitions.next().map_or("", |first| first.name);
        let found = library::field_by_index(file, index, block, name.as_bytes());
        refused = refused.max(found_or_absent(found.number));
    }
    Ok(refused)
}

/// What is made before the call and freed after it is outside. Callgrind finds it by its name.
#[inline(never)]
fn counted<T>(call: impl FnOnce() -> T) -> T {
    black_box(call())
}

/// As in the times: what the Rust allocates is counted, what it frees in the end is not, so all of
/// it is handed out.
fn rust(file: &[u8], call: Call, asked: &Asked) -> Result<(), String> {
    let parsed = match call {
        Call::Reading => counted(|| oracle::parse(file)),
        Call::Text => {
            let (parsed, text) = counted(|| {
                let parsed = oracle::parse(file);
                let text = parsed.as_ref().map(oracle::to_siin);
                let text = text.unwrap_or_else(|fault| Err(fault.clone()));
                (parsed, text)
            });
            text.and(parsed)
        }
        // The Rust has no call for one field of a file: it is parsed, and the block asked for it.
        Call::Field => {
            let (parsed, _) = counted(|| {
                let parsed = oracle::parse(file);
                let found = parsed
                    .as_ref()
                    .is_ok_and(|parsed| rust_finds(parsed, asked));
                (parsed, found)
            });
            parsed
        }
        _ => return Err(format!("the Rust has no {}", call.name())),
    };
    let refused = |fault| format!("the Rust refuses it: {fault:?}");
    parsed.map(drop).map_err(refused)
}

/// Its look-up, as the differential tests have it.
pub fn rust_finds(parsed: &oracle::BsiiFile, asked: &Asked) -> bool {
    let block = parsed.data_blocks.get(asked.block as usize);
    let value = block.and_then(|block| block.field(parsed, &asked.name));
    value.is_some()
}

#[cfg(test)]
mod tests {
    use super::*;
    use crate::hostile;

    fn asked(name: &str) -> Asked {
        Asked {
            words: 3 * 4096,
            room: 2_000_000,
            block: 0,
            name: name.into(),
        }
    }

    #[test]
    fn every_call_is_done() {
        let (file, asked) = (generate::worked_bytes(), asked("km"));
        for call in Call::all() {
            assert_eq!(ours(&file, call, &asked), Ok(()), "{call:?}");
            let is_compared = COMPARED.contains(&call);
            assert_eq!(rust(&file, call, &asked).is_ok(), is_compared, "{call:?}");
            assert_eq!(Call::by_name(call.name()), Some(call));
        }
        assert_eq!(Call::by_name("read"), None);
        let parsed = oracle::parse(&file).unwrap();
        assert!(rust_finds(&parsed, &asked));
        let absent = Asked { block: 1, ..asked };
        assert!(!rust_finds(&parsed, &absent));
        assert_eq!(ours(&file, Call::Field, &absent), Ok(()));
    }

    #[test]
    fn blocks_of_other_definitions_are_looked_up() {
        let file = hostile::redefinitions();
        assert_eq!(ours(&file, Call::LookUp, &asked("")), Ok(()));
    }

    #[test]
    fn refusals_are_said() {
        for call in Call::all() {
            assert!(ours(b"BSII", call, &asked("")).is_err(), "{call:?}");
            assert!(
                rust(b"NONE\x02\0\0\0", call, &asked("")).is_err(),
                "{call:?}"
            );
        }
        let missing = Path::new("/nonexistent");
        assert!(run(Side::Ours, Call::Reading, missing, &asked("")).is_err());
        let file = generate::worked_bytes();
        let less = Asked {
            room: 72,
            ..asked("")
        };
        assert!(ours(&file, Call::Text, &less).is_err());
    }
}
