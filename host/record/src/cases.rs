//! Files made by hand: document 01's worked bytes, its worked cases and slips, every type, every
//! reply of the Rust's, and the edges of the text's rules.

mod definitions;
mod floats;
mod records;
mod strings;
mod types;
mod words;

use crate::bytes::{file, one_value};

/// Each file with what it is there for, in the list's order.
pub fn cases() -> Vec<(String, Vec<u8>)> {
    let mut cases = Cases::default();
    records::worked(&mut cases);
    records::headers_and_records(&mut cases);
    types::types(&mut cases);
    words::words(&mut cases);
    floats::floats(&mut cases);
    types::integers(&mut cases);
    floats::placements(&mut cases);
    floats::placements_of_version_1(&mut cases);
    words::ids(&mut cases);
    strings::strings(&mut cases);
    strings::not_utf8(&mut cases);
    strings::enums(&mut cases);
    definitions::redefinitions(&mut cases);
    definitions::undefined_prototypes(&mut cases);
    definitions::unlisted_types(&mut cases);
    definitions::names(&mut cases);
    cases.0
}

#[derive(Default)]
struct Cases(Vec<(String, Vec<u8>)>);

impl Cases {
    fn add(&mut self, label: impl Into<String>, file: Vec<u8>) {
        self.0.push((label.into(), file));
    }

    /// A file of these records.
    fn records(&mut self, label: impl Into<String>, records: &[Vec<u8>]) {
        self.add(label, file(records));
    }

    /// The same without its end record and so many bytes in front of it.
    fn cut(&mut self, label: impl Into<String>, whole: &[u8], short: usize) {
        self.add(label, whole[..whole.len() - 5 - short].to_vec());
    }

    /// A file with one value.
    fn value(&mut self, label: impl Into<String>, type_id: u32, value: &[u8]) {
        self.add(label, one_value(type_id, value));
    }
}
