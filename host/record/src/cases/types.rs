//! Every listed type, and the ends of the integers.

use super::Cases;
use crate::bytes::*;
use generate::{ARRAYS, LISTED};

/// The i-th of the plain elements of a type.
fn element(type_id: u32, i: u32) -> Vec<u8> {
    let halves = |count: u32| {
        let bits: Vec<u32> = (0..count)
            .map(|k| ((i + k) as f32 / 2.0).to_bits())
            .collect();
        floats(&bits)
    };
    match type_id {
        0x01 | 0x02 => string(&b"a b"[..i as usize % 4]),
        0x03 | 0x04 => word(&b"z_9"[..i as usize % 4]).to_le_bytes().to_vec(),
        0x05 | 0x06 => halves(1),
        0x07 => halves(2),
        0x09 | 0x0a => halves(3),
        0x11 | 0x12 => floats(&[i, i.wrapping_neg(), 0x7fff_ffff]),
        0x17 | 0x18 => halves(4),
        0x19 | 0x1a => halves(8),
        0x2b | 0x2c => (i as u16).wrapping_sub(1).to_le_bytes().to_vec(),
        0x31..=0x34 => (i as u64).wrapping_sub(1).to_le_bytes().to_vec(),
        0x35 | 0x36 => vec![i as u8],
        0x37 => vec![7, 0, 0, 0],
        0x39..=0x3d if i & 1 == 0 => nameless(i as u64 * 0x1_0000),
        0x39..=0x3d => named(&[word(b"id"), i as u64]),
        _ => i.wrapping_sub(1).to_le_bytes().to_vec(),
    }
}

/// So many plain elements from the given one on.
fn elements(type_id: u32, first: u32, count: u32) -> Vec<u8> {
    let elements: Vec<_> = (first..first + count)
        .map(|i| element(type_id, i))
        .collect();
    array(&elements)
}

/// Every type: whole, and cut in its value; arrays of 0, 1 and 4 elements.
pub fn types(cases: &mut Cases) {
    for type_id in LISTED {
        match ARRAYS.contains(&type_id) {
            true => array_type(cases, type_id),
            false => single_type(cases, type_id),
        }
    }
    all_types(cases);
}

fn single_type(cases: &mut Cases, type_id: u32) {
    let label = format!("type {type_id:#x}");
    let value = element(type_id, 2);
    let whole = one_value(type_id, &value);
    cases.add(label.clone(), whole.clone());
    cases.cut(format!("{label}, no byte"), &whole, value.len());
    cases.cut(format!("{label}, last byte cut"), &whole, 1);
}

fn array_type(cases: &mut Cases, type_id: u32) {
    let label = format!("type {type_id:#x}");
    for count in [0, 1, 4] {
        let value = elements(type_id, 0, count);
        cases.value(format!("{label}, {count} elements"), type_id, &value);
    }
    let value = elements(type_id, 0, 4);
    let whole = one_value(type_id, &value);
    cases.cut(format!("{label}, in its count"), &whole, value.len() - 3);
    cases.cut(format!("{label}, last byte cut"), &whole, 1);
}

fn all_types(cases: &mut Cases) {
    let mut definitions = Vec::new();
    let mut values = Vec::new();
    for type_id in LISTED {
        let name = format!("t{type_id:x}");
        definitions.push(match type_id {
            0x37 => choice(name.as_bytes(), &[(7, b"seven")]),
            _ => definition(type_id, name.as_bytes()),
        });
        values.extend(match ARRAYS.contains(&type_id) {
            true => elements(type_id, 1, 2),
            false => element(type_id, 1),
        });
    }
    let records = [prototype(1, b"all", &definitions), block(1, &values)];
    cases.records("all types in one block", &records);
}

const U32S: [u32; 6] = [0, 10, 0x7fffffff, 0x80000000, 0xfffffffe, 0xffffffff];

const U64S: [u64; 9] = [
    0,
    10,
    0xffff_ffff,
    0x1_0000_0000,
    i64::MAX as u64,
    1 << 63,
    10_000_000_000_000_000_000,
    u64::MAX - 1,
    u64::MAX,
];

/// Unsigned and signed, around their ends and `nil`; bools.
pub fn integers(cases: &mut Cases) {
    for number in [0u16, 9, 10, 999, 0x8000, 0xfffe, 0xffff] {
        cases.value(format!("u16 {number}"), 0x2b, &number.to_le_bytes());
    }
    for number in U32S {
        for type_id in [0x25, 0x27] {
            let label = format!("type {type_id:#x}, {number:#x}");
            cases.value(label, type_id, &number.to_le_bytes());
        }
    }
    cases.value("type 0x2f, nil", 0x2f, &[0xff; 4]);
    for number in U64S {
        for type_id in [0x31, 0x33] {
            let label = format!("type {type_id:#x}, {number:#x}");
            cases.value(label, type_id, &number.to_le_bytes());
        }
    }
    for byte in [0u8, 1, 2, 0x80, 0xff] {
        cases.value(format!("bool {byte}"), 0x35, &[byte]);
    }
    let ends = floats(&[0x8000_0000, u32::MAX, 0x7fff_ffff]);
    cases.value("three i32 at the ends", 0x11, &ends);
}
