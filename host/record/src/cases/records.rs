//! The worked bytes, headers, record numbers and marks.

use super::Cases;
use crate::bytes::{block, prototype, worked_vectors, worked_version_1};

/// The worked file, with bytes after it, and cuts: none of the lengths whose answer depends on the
/// Rust's build.
pub fn worked(cases: &mut Cases) {
    let whole = generate::worked_bytes();
    cases.add("worked bytes", whole.clone());
    let more = [whole.as_slice(), b"BSII"].concat();
    cases.add("worked bytes and more", more);
    for len in (0..4).chain((8..whole.len()).step_by(3)) {
        let label = format!("worked bytes, first {len}");
        cases.add(label, whole[..len].to_vec());
    }
    let vectors = worked_vectors();
    cases.add("worked vectors", vectors.clone());
    for len in [49, 50, 60, 65, 80] {
        let label = format!("worked vectors, first {len}");
        cases.add(label, vectors[..len].to_vec());
    }
    // Whole it has a minus zero that the Rust's sum with 0 loses.
    let seven = worked_version_1();
    for len in [40, 41, 52, 67, 68, 72] {
        let label = format!("worked placement of version 1, first {len}");
        cases.add(label, seven[..len].to_vec());
    }
    for version in [0u32, 2, 3, 0x101] {
        let file = [&seven[..4], &version.to_le_bytes(), &seven[8..]].concat();
        cases.add(
            format!("worked placement of seven in version {version}"),
            file,
        );
    }
}

pub fn headers_and_records(cases: &mut Cases) {
    for head in [b"bSII", b"BSIi", b"BSIJ", b"ScsC"] {
        let label = format!("header {}", String::from_utf8_lossy(head));
        let file = [head.as_slice(), &[2, 0, 0, 0], &[0; 5]].concat();
        cases.add(label, file);
    }
    for version in [0u32, 1, 2, 3, 0x101, 0x0100_0000, u32::MAX] {
        let file = [b"BSII".as_slice(), &version.to_le_bytes(), &[0; 5]].concat();
        cases.add(format!("version {version}"), file.clone());
        if version == 1 {
            cases.add("version 1 alone", file[..8].to_vec());
        }
    }
    for mark in [2u8, 0x37, 0xff] {
        let file = [b"BSII\x02\0\0\0\0\0\0\0".as_slice(), &[mark]].concat();
        cases.add(format!("mark {mark}"), file);
    }
    cases.records("prototype 0", &[prototype(0, b"p", &[])]);
    for id in [0xff, 0x100, 0x0100_0000, u32::MAX] {
        let records = [prototype(id, b"p", &[]), block(id, b"")];
        cases.records(format!("prototype {id}"), &records);
    }
}
