//! The unchanged Rust, with its panics turned into document 01's reply numbers.

extern crate sii_decode;

#[cfg(feature = "lazy")]
mod lazy;
mod panics;
mod silence;

#[cfg(feature = "lazy")]
pub use lazy::huge_requests;
pub use panics::Fault;
pub use sii_decode::bsii_file::{BsiiFile, DataBlock, DataValue, Id};
pub use silence::silence_stdout;

use sii_decode::bsii_parse::ParseError;

/// Whether large requests go to the allocator of `lazy.rs`, which takes another time than the usual
/// one.
pub const LAZY: bool = cfg!(feature = "lazy");

/// The source that was compiled, by file name.
pub const SOURCE: [(&str, &str); 3] = [
    (
        "bsii_parse.rs",
        include_str!(concat!(env!("OUT_DIR"), "/src/bsii_parse.rs")),
    ),
    (
        "bsii_file.rs",
        include_str!(concat!(env!("OUT_DIR"), "/src/bsii_file.rs")),
    ),
    (
        "bsii_output.rs",
        include_str!(concat!(env!("OUT_DIR"), "/src/bsii_output.rs")),
    ),
];

/// `BsiiFile::parse`. Prints to standard output on InvalidInput: call `silence_stdout` first.
pub fn parse(content: &[u8]) -> Result<BsiiFile<'_>, Fault> {
    match panics::caught(|| BsiiFile::parse(content))? {
        Ok(file) => Ok(file),
        Err(ParseError::InvalidHeader) => Err(Fault::Number(1)),
        Err(ParseError::UnsupportedVersion) => Err(Fault::Version),
        Err(ParseError::InvalidInput) => Err(Fault::Number(3)),
    }
}

/// `BsiiFile::to_siin`.
pub fn to_siin(file: &BsiiFile<'_>) -> Result<String, Fault> {
    panics::caught(|| file.to_siin())
}
