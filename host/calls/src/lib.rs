//! The calls of documents 01 and 02 and their answers, as the library's C interface has them.
//!
//! A call is a value, and a side of the comparison answers it in one method. What only hands calls
//! on is not touched by a new one.

mod answers;

pub use answers::{
    kind, one_nan, parts_of, Answer, Block, Checked, Element, Field, Forecast, Length, Number,
    Prototype, Reading, Text, ONE_NAN,
};

/// The bytes of an index that one block has.
pub const RECORD: usize = 12;

/// The words of a table that one prototype id has.
pub const ROW: usize = 3;

/// The fewest bytes that a prototype has.
pub const SHORTEST_PROTOTYPE: usize = 17;

/// The words of a table that are enough for every file of so many bytes.
pub const fn enough_words(file: usize) -> usize {
    ROW * (file / SHORTEST_PROTOTYPE)
}

/// The length that every call with a file refuses above (reply 12).
pub const LENGTH_LIMIT: usize = 16_777_216;

/// A call with its arguments, but for what is lent to it.
#[derive(Clone, Copy, Debug, PartialEq, Eq)]
pub enum Call<'a> {
    Read,
    GetPrototype {
        id: u32,
    },
    BlockAt {
        n: u64,
    },
    BlocksByPrototypeName {
        name: &'a [u8],
        n: u64,
    },
    FieldOf {
        block: u64,
        name: &'a [u8],
    },
    /// Takes no file and no table; the version is that of the file which the value stands in.
    ElementOf {
        version: u32,
        type_id: u32,
        part: &'a [u8],
        index: u64,
    },
    /// Takes an output.
    ToSiin,
    /// Takes an output: the index's space.
    WriteIndex,
    CheckIndex {
        index: &'a [u8],
    },
    /// Takes no table.
    FieldByIndex {
        index: &'a [u8],
        block: u64,
        name: &'a [u8],
    },
    DefinesOnce,
    Forecast,
}

impl Call<'_> {
    /// What a report calls it.
    pub fn name(self) -> &'static str {
        match self {
            Call::Read => "reading",
            Call::GetPrototype { .. } => "prototype",
            Call::BlockAt { .. } => "block",
            Call::BlocksByPrototypeName { .. } => "blocks_by_prototype_name",
            Call::FieldOf { .. } => "field",
            Call::ElementOf { .. } => "element",
            Call::ToSiin => "text",
            Call::WriteIndex => "write_index",
            Call::CheckIndex { .. } => "check_index",
            Call::FieldByIndex { .. } => "field_by_index",
            Call::DefinesOnce => "defines_once",
            Call::Forecast => "forecast",
        }
    }
}

/// What is lent to a call; empty where the call takes none.
#[derive(Default)]
pub struct Lent<'a> {
    pub file: &'a [u8],
    pub table: &'a mut [u32],
    pub out: &'a mut [u8],
}

impl<'a> Lent<'a> {
    /// A file and a table.
    pub fn file(file: &'a [u8], table: &'a mut [u32]) -> Self {
        let out = &mut [];
        Lent { file, table, out }
    }
}

/// One side of the comparison. `&mut self` is for what a side keeps between calls; no answer may
/// depend on it.
pub trait Implementation {
    fn answer(&mut self, call: Call<'_>, lent: Lent<'_>) -> Answer;
}
