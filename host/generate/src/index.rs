//! Indexes that no file vouches for, and files that no index does.

use crate::damage::damage;
use crate::valid::Made;
use crate::{bytes, Random};

/// The bytes of one record.
pub const RECORD: usize = 12;
/// The end record of a file.
const END: [u8; 5] = [0; 5];
/// The largest number that a record holds.
const LARGEST: usize = (1 << 24) - 1;

/// A record of these four numbers: the block's offset and length, the prototype's offset and fields.
pub fn record(numbers: [usize; 4]) -> Vec<u8> {
    let three = |number: usize| number.to_le_bytes().into_iter().take(3);
    numbers.into_iter().flat_map(three).collect()
}

fn number(bytes: &[u8]) -> usize {
    bytes
        .iter()
        .rev()
        .fold(0, |sum, byte| sum << 8 | *byte as usize)
}

fn any_bytes(random: &mut Random, most: usize) -> Vec<u8> {
    let len = random.below(most + 1);
    (0..len).map(|_| random.number() as u8).collect()
}

/// An index that is close to a right one: cut, longer, with records changed, swapped, doubled or left
/// out; or one of any bytes.
pub fn changed(random: &mut Random, index: &[u8]) -> Vec<u8> {
    let mut made = index.to_vec();
    let (len, records) = (index.len(), index.len() / RECORD);
    let at = random.below(len);
    let [one, other] = [0; 2].map(|_| RECORD * random.below(records));
    match random.below(11) {
        0 => made.truncate(at),
        1 => made.truncate(one),
        2 if len > 0 => made[at] ^= 1 << random.below(8),
        3 if len > 0 => made[at] = random.number() as u8,
        4 => made.extend(vec![0; 1 + random.below(2 * RECORD)]),
        5 => made.push(random.number() as u8),
        6 if records > 0 => {
            let last = made[len - RECORD..].to_vec();
            made.extend(last);
        }
        7 if records > 1 => {
            for byte in 0..RECORD {
                made.swap(one + byte, other + byte);
            }
        }
        8 if records > 0 => {
            made.drain(one..one + RECORD);
        }
        9 if records > 0 => {
            let from = one + 3 * random.below(4);
            let changed = number(&made[from..from + 3]).wrapping_add(random.pick(&[1, LARGEST]));
            made[from..from + 3].copy_from_slice(&changed.to_le_bytes()[..3]);
        }
        _ => made = any_bytes(random, 3 * RECORD),
    }
    made
}

/// An index of at most three records that point anywhere: to the places, beside them, to what records
/// of the right index point to, anywhere in the file, and behind its end of `len` bytes. The records'
/// other two numbers are nonsense.
pub fn hostile(random: &mut Random, index: &[u8], len: usize, places: &[usize]) -> Vec<u8> {
    let mut made = Vec::new();
    for _ in 0..1 + random.below(3) {
        let mut offsets = [0; 2].map(|_| offset(random, len, places));
        let records = index.len() / RECORD;
        if records > 0 && random.chance(60) {
            let [one, other] = [0; 2].map(|_| RECORD * random.below(records));
            // The block of one record; the prototype of the same, of another, or any.
            offsets[0] = number(&index[one..one + 3]);
            let of = random.pick(&[one, one, other]) + 6;
            if random.chance(75) {
                offsets[1] = number(&index[of..of + 3]);
            }
        }
        match random.below(12) {
            0 => offsets.reverse(),
            1 => offsets[1] = offsets[0],
            2 => offsets[0] = offsets[1] + 5,
            3 => offsets[0] = offset(random, len, places),
            4 => offsets[1] = offset(random, len, places),
            _ => {}
        }
        let [block, prototype] = offsets;
        let [length, fields] = [0; 2].map(|_| match random.chance(50) {
            true => random.below(4),
            false => random.number() as usize,
        });
        made.extend(record([block, length, prototype, fields]));
    }
    if random.chance(20) {
        made.truncate(random.below(made.len()));
    }
    made
}

fn offset(random: &mut Random, len: usize, places: &[usize]) -> usize {
    let place = match places {
        [] => 0,
        _ => random.pick(places),
    };
    match random.below(10) {
        0..=3 => place,
        4 => place + random.below(8),
        5 => place.saturating_sub(random.below(8)),
        6 | 7 => random.below(len),
        8 => len.saturating_sub(2) + random.below(8),
        _ => random.pick(&[0, 4, 8, LARGEST, LARGEST - 3]),
    }
}

/// A save of one block with a string that is the file, and the file's index moved into that string. The
/// save is of the file's version, if that has one; the string need not be UTF-8.
pub fn inside_a_string(file: &[u8], index: &[u8]) -> (Vec<u8>, Vec<u8>) {
    let version = file.get(4..8).and_then(|bytes| bytes.try_into().ok());
    let fields = [bytes::definition(1, b"f")];
    let records = [
        bytes::prototype(1, b"p", &fields),
        bytes::block(1, &bytes::string(file)),
    ];
    let save = bytes::file_of(version.map_or(2, u32::from_le_bytes), &records);
    let start = save.len() - END.len() - file.len();
    let moved = index.chunks_exact(RECORD).flat_map(|own| {
        let [block, length, prototype, fields] = [0, 3, 6, 9].map(|at| number(&own[at..at + 3]));
        record([block + start, length, prototype + start, fields])
    });
    let moved = moved.collect();
    (save, moved)
}

/// Another file than the one that an index is of, with damage at the places or anywhere.
pub fn changed_file(random: &mut Random, file: &[u8], places: &[usize]) -> Vec<u8> {
    let mut made = Made::default();
    made.bytes = file.to_vec();
    made.numbers = places.to_vec();
    damage(random, &mut made);
    made.bytes
}
