//! The proved converter from BSII saves to SiiNunit text, under the names of the Rust that it was
//! ported from. Whether a save is read, its text, its index, a field with its elements, and what the
//! save will need are the library's answers: this crate lends it buffers that fit, and puts slices
//! and values in the place of offsets and numbers. Blocks with their ids, prototypes and definitions are read here, in safe
//! Rust, where the index leads; tests compare them with what the library's calls find.
//!
//! ```
//! let save = b"BSII\x02\0\0\0\0\0\0\0\0";
//! assert_eq!(sii_decode::to_siin(save).unwrap(), b"SiiNunit\n{\n}\n");
//! let file = sii_decode::BsiiFile::parse(save).unwrap();
//! assert_eq!(file.block_count(), 0);
//! ```
//!
//! # The index
//!
//! A [`BsiiFile`] finds blocks and fields by an index, of 12 bytes for each block, so that a loop over
//! all blocks reads the save a fixed number of times, and then each block with its prototype. The
//! index may be kept beside the save, and lent when the save is opened again. One of a save that has
//! changed since would find wrong values, so it is checked then, and refused with 14:
//!
//! ```
//! use sii_decode::BsiiFile;
//! // A prototype `p` with a bool `b`, and one block of it.
//! let mut save = b"BSII\x02\0\0\0\0\0\0\0\x01\x01\0\0\0\x01\0\0\0p\x35\0\0\0\x01\0\0\0b\0\0\0\0".to_vec();
//! save.extend(b"\x01\0\0\0\0\x01\0\0\0\0\0");
//! let index = BsiiFile::parse(&save).unwrap().index().unwrap().to_vec();
//! assert_eq!(index, [35, 0, 0, 6, 0, 0, 8, 0, 0, 1, 0, 0]);
//! let file = BsiiFile::with_index(&save, &index).unwrap();
//! assert_eq!(file.field(0, "b").unwrap().part, [1]);
//! // A second block.
//! save.splice(35..35, *b"\x01\0\0\0\0\0");
//! let refusal = BsiiFile::with_index(&save, &index).unwrap_err();
//! assert_eq!((refusal.number, refusal.offset), (14, 12));
//! ```
//!
//! # What is assumed of the caller
//!
//! The floating-point environment that every thread starts with, and that Rust assumes too: f32
//! additions round to nearest, and neither their operands nor their results are flushed to zero.
//! Where foreign code in the same thread has set another mode (`fesetround`, or the bits FTZ and
//! DAZ of MXCSR), the sums of a placement come out otherwise, and the text with them: no call
//! notices it. Nothing else is assumed: any bytes, names and numbers may be given.

#![deny(missing_docs, unsafe_code)]

mod file;
mod forecast;
mod id;
mod index;
#[allow(unsafe_code)]
pub mod library;
mod plain;
mod refusal;
mod value;

pub use file::{to_siin, Blocks, BlocksByPrototypeName, BsiiFile, DataBlock, Prototype};
pub use forecast::{forecast, Forecast};
pub use id::Id;
pub use index::{longest_index, Definition, Definitions, Prototypes, RECORD};
pub use plain::OtherKind;
pub use refusal::Refusal;
pub use value::{DataField, DataValue, Elements, Placement};

/// The most bytes that a save may have; a longer one is refused with 12.
pub const LENGTH_LIMIT: usize = calls::LENGTH_LIMIT;

/// Bytes that the library has read as a string, which it does for UTF-8 only.
fn utf8(bytes: &[u8]) -> &str {
    std::str::from_utf8(bytes).expect("a string that was read is UTF-8")
}
