//! What a coverage-guided fuzzer calls for each input: the library through its C interface, the
//! unchanged Rust and the model answer the same questions about it.

#[cfg(feature = "fuzzer")]
mod entry;
pub mod harness;
pub mod seeds;
pub mod wrong;
