//! Files at the limits of length, and texts that no memory holds.

use calls::LENGTH_LIMIT;
use generate::bytes::{array, block, definition, file, file_of, floats, prototype};
use generate::worked_bytes;

pub fn files() -> Vec<Vec<u8>> {
    vec![
        with_length(LENGTH_LIMIT - 1),
        with_length(LENGTH_LIMIT),
        with_length(LENGTH_LIMIT + 1),
        vec![0; LENGTH_LIMIT + 1],
        long_text(1 << 20, 1 << 20),
        long_text(1 << 10, 1 << 10),
        long_string(1 << 22),
        // The largest that there is room for.
        long_string(LENGTH_LIMIT as u32 - 49),
        late_records(),
        many_fields(700_000),
        many_prototypes(3000),
        many_blocks(100),
        many_placements(500_000),
    ]
}

/// The worked example with bytes after its end record.
fn with_length(len: usize) -> Vec<u8> {
    let mut file = worked_bytes();
    file.resize(len, 0xa5);
    file
}

fn start(id: u32, name: &[u8]) -> Vec<u8> {
    let mut record = vec![0, 0, 0, 0, 1];
    record.extend(id.to_le_bytes());
    record.extend((name.len() as u32).to_le_bytes());
    record.extend_from_slice(name);
    record
}

/// A field name that is repeated for every element.
fn long_text(name: u32, count: u32) -> Vec<u8> {
    let mut record = start(1, b"p");
    record.extend(0x36u32.to_le_bytes());
    record.extend(name.to_le_bytes());
    record.extend(vec![b'n'; name as usize]);
    record.extend([0, 0, 0, 0, 1, 0, 0, 0, 0]);
    record.extend(count.to_le_bytes());
    record.extend(vec![1; count as usize]);
    file(&[record])
}

fn long_string(len: u32) -> Vec<u8> {
    let mut record = start(1, b"p");
    record.extend(b"\x01\0\0\0\x01\0\0\0s\0\0\0\0\x01\0\0\0\0");
    record.extend(len.to_le_bytes());
    record.extend((0..len).map(|i| (i % 128) as u8));
    file(&[record])
}

/// A prototype and its block at the end of the longest file.
fn late_records() -> Vec<u8> {
    let late = |len: usize| {
        let long = prototype(1, &vec![b'n'; len], &[]);
        let fields = [definition(0x2b, b"f")];
        file(&[long, prototype(2, b"p", &fields), block(2, &[7, 0])])
    };
    let without = late(0).len();
    late(LENGTH_LIMIT - without)
}

/// More fields than two bytes count, all of one name.
fn many_fields(count: u32) -> Vec<u8> {
    let fields = vec![definition(0x2b, b""); count as usize];
    let values: Vec<_> = (0..count).flat_map(|i| (i as u16).to_le_bytes()).collect();
    file(&[prototype(1, b"p", &fields), block(1, &values)])
}

fn many_prototypes(count: u32) -> Vec<u8> {
    let record = |i: u32| [start(i * 7 % count, b"n"), vec![0; 4]].concat();
    file(&(0..count).map(record).collect::<Vec<_>>())
}

fn many_blocks(count: u32) -> Vec<u8> {
    let mut records = vec![[start(9, b"many"), b"\x27\0\0\0\x01\0\0\0k\0\0\0\0".to_vec()].concat()];
    for i in 0..count {
        let mut block = vec![9, 0, 0, 0, 0xff];
        block.extend((i as u64).to_le_bytes());
        block.extend(i.to_le_bytes());
        records.push(block);
    }
    file(&records)
}

/// Of version 1: no sum is made of any of them.
fn many_placements(count: u32) -> Vec<u8> {
    let seven = |i: u32| floats(&[0, 1, 2, 3, 4, 5, 6].map(|k| ((7 * i + k) as f32).to_bits()));
    let all: Vec<_> = (0..count).map(seven).collect();
    let fields = [definition(0x1a, b"a")];
    file_of(1, &[prototype(1, b"p", &fields), block(1, &array(&all))])
}
