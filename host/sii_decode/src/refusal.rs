//! Why a call has no answer.

use crate::RECORD;
use std::error::Error;
use std::fmt;

/// A refusal of the library: its number, and the offset that it is about, counted from the first
/// byte of the input.
///
/// `Debug` shows the sentence as `Display` does: a refusal that `main` returns is printed by
/// `Debug`, and is for the user to read.
#[derive(Clone, Copy, PartialEq, Eq)]
pub struct Refusal {
    /// From 1 to 15, but not 2, which is retired.
    pub number: u32,
    /// The byte that it is about; for 10 to 13 it says nothing about the bytes there, and for 14 it
    /// counts from the index's first byte.
    pub offset: u64,
    /// For number 3, how many bytes are not there of the item that starts at the offset: one number,
    /// one byte, or the bytes of one string. Else 0.
    pub lacking: u64,
    /// The length of the text, or of the index, for number 11, else 0.
    pub needed: u64,
}

impl Refusal {
    /// The number in plain words, with the lacking or needed bytes or the record.
    pub fn sentence(&self) -> String {
        match (self.number, self.lacking) {
            (3, 1) => "the input ends 1 byte early".into(),
            (3, lacking) => format!("the input ends {lacking} bytes early"),
            (11, _) => format!("{}, which has {} bytes", words(11), self.needed),
            (14, _) => format!(
                "{}, from its record {} on",
                words(14),
                self.offset / RECORD as u64
            ),
            (number, _) => words(number).into(),
        }
    }
}

/// A number alone; not for 3, which is told with its count.
fn words(number: u32) -> &'static str {
    match number {
        1 => "this is not a BSII file: its first four bytes are not BSII",
        4 => "a string is not UTF-8",
        5 => "an encoded word has a digit 0, which stands for no character",
        6 => "a block is of a prototype that is not defined in front of it",
        7 => "a value is of a type that is not known, so where it ends is not known either",
        8 => "the last definition of the block's prototype has another number of fields than the block has values",
        9 => "an enum's number is not in the last definition's list, or there is no list",
        10 => "there is not enough memory for the table of prototypes",
        11 => "there is not enough memory for the text or the index",
        12 => "the file is longer than 16777216 bytes",
        13 => "there is no such prototype, block, name or element",
        14 => "the index is not that of this save",
        15 => "not a record of this format",
        _ => "the library gave a number that has no meaning",
    }
}

impl fmt::Display for Refusal {
    fn fmt(&self, f: &mut fmt::Formatter<'_>) -> fmt::Result {
        let sentence = self.sentence();
        write!(f, "refused {} at {}: {sentence}", self.number, self.offset)
    }
}

impl fmt::Debug for Refusal {
    fn fmt(&self, f: &mut fmt::Formatter<'_>) -> fmt::Result {
        fmt::Display::fmt(self, f)
    }
}

impl Error for Refusal {}
