//! Damaged copies of files.

use crate::valid::{self, Made};
use crate::Random;

const HUGE: [u32; 8] = [
    0xffff_ffff,
    0xffff_fffe,
    0x8000_0000,
    0x7fff_ffff,
    0x1000_0000,
    0x0100_0001,
    0x0001_0000,
    256,
];

pub fn damage(random: &mut Random, made: &mut Made) {
    for _ in 0..1 + random.below(6) / 3 {
        change(random, made);
    }
}

fn change(random: &mut Random, made: &mut Made) {
    let len = made.bytes.len();
    let at = random.below(len);
    match random.below(11) {
        0 if len > 0 => made.bytes[at] ^= 1 << random.below(8),
        1 if len > 0 => made.bytes[at] = random.pick(&[0, 1, 2, 0x37, 0x7f, 0x80, 0xfe, 0xff]),
        2 => made.bytes.truncate(at),
        3 if made.numbers.is_empty() => made.bytes.truncate(at),
        // In front of a record, a length or a count: of a file without records, behind its header.
        3 => made.bytes.truncate(random.pick(&made.numbers)),
        4 => splice(random, made, at),
        5 => insert(random, made, at),
        6 => delete(random, made, at),
        7 => change_version(random, made),
        _ => change_number(random, made),
    }
}

/// The front of one file and the rear of another.
fn splice(random: &mut Random, made: &mut Made, at: usize) {
    let other = valid::file(random).bytes;
    let from = random.below(other.len());
    made.bytes.truncate(at);
    made.bytes.extend_from_slice(&other[from..]);
}

fn insert(random: &mut Random, made: &mut Made, at: usize) {
    let len = 1 + random.below(9);
    let byte = random.number() as u8;
    let same = random.chance(50);
    let bytes: Vec<u8> = (0..len)
        .map(|_| if same { byte } else { random.number() as u8 })
        .collect();
    made.bytes.splice(at..at, bytes);
}

fn delete(random: &mut Random, made: &mut Made, at: usize) {
    let end = (at + 1 + random.below(9)).min(made.bytes.len());
    made.bytes.drain(at..end);
}

/// From 1 to 2 or from another version to 1: a placement is then read with another number of floats,
/// and all behind it from another byte on. A value alone has no version.
fn change_version(random: &mut Random, made: &mut Made) {
    if let [b'B', b'S', b'I', b'I', a, b, c, d, ..] = made.bytes[..] {
        let version = match u32::from_le_bytes([a, b, c, d]) {
            1 => random.pick(&[2, 0, 0x101, 0x0100_0001]),
            _ => 1,
        };
        made.bytes[4..8].copy_from_slice(&u32::to_le_bytes(version));
    }
}

/// Changes a length, a count, a type or a record number.
fn change_number(random: &mut Random, made: &mut Made) {
    if made.numbers.is_empty() {
        return;
    }
    let at = random.pick(&made.numbers);
    let Some(bytes) = made.bytes.get_mut(at..at + 4) else {
        return;
    };
    let old = u32::from_le_bytes([bytes[0], bytes[1], bytes[2], bytes[3]]);
    let new = match random.below(6) {
        0 => old.wrapping_add(1),
        1 => old.wrapping_sub(1),
        2 => random.below(0x40) as u32,
        3 => random.pick(&HUGE),
        4 => valid::listed(random),
        _ => random.pick(&[0, 1, 2]),
    };
    bytes.copy_from_slice(&new.to_le_bytes());
}
