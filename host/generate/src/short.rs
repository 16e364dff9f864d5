//! Short inputs, all of a kind.

use crate::bytes::{worked_vectors, worked_version_1};
use crate::valid::worked_bytes;
use crate::{file, Random};

/// Bytes that decide something: record marks, types, counts, word and UTF-8 starts.
const ALPHABET: [u8; 6] = [0, 1, 2, 0x37, 0x80, 0xff];

/// What is enumerated: `BSII` and up to 6 bytes of the alphabet; `BSII`, version 2, and up to 11
/// bytes of 0, 1, 2; a prototype of one field of each type with up to 4 bytes of the alphabet as
/// its block's value; and all cuts and single-byte changes of base files.
pub struct Short {
    bases: Vec<Vec<u8>>,
}

const HEADS: u64 = 55_987; // 6^0 + .. + 6^6
const RECORDS: u64 = 265_720; // 3^0 + .. + 3^11
const VALUES: u64 = 1_555; // 6^0 + .. + 6^4
const TYPES: u64 = 0x41;

impl Short {
    /// `count` base files of at most `longest` bytes from the generator, and the worked examples.
    pub fn new(seed: u64, count: usize, longest: usize) -> Short {
        let mut bases = vec![worked_bytes(), worked_vectors(), worked_version_1()];
        let all = bases.len() + count;
        let mut random = Random::new(seed, 0);
        while bases.len() < all {
            let base = file(seed, random.number());
            if (30..=longest).contains(&base.len()) {
                bases.push(base);
            }
        }
        Short { bases }
    }

    pub fn len(&self) -> u64 {
        let changes: usize = self.bases.iter().map(|base| base.len() * 257).sum();
        HEADS + RECORDS + TYPES * VALUES + changes as u64
    }

    pub fn is_empty(&self) -> bool {
        false
    }

    pub fn file(&self, mut index: u64) -> Vec<u8> {
        let mut bytes = b"BSII".to_vec();
        if index < HEADS {
            bytes.extend(nth_string(&ALPHABET, index));
            return bytes;
        }
        index -= HEADS;
        bytes.extend([2, 0, 0, 0]);
        if index < RECORDS {
            bytes.extend(nth_string(&[0, 1, 2], index));
            return bytes;
        }
        index -= RECORDS;
        if index < TYPES * VALUES {
            one_field(&mut bytes, (index / VALUES) as u8);
            bytes.extend(nth_string(&ALPHABET, index % VALUES));
            bytes.extend([0; 9]);
            return bytes;
        }
        self.changed_base(index - TYPES * VALUES)
    }

    fn changed_base(&self, mut index: u64) -> Vec<u8> {
        for base in &self.bases {
            let count = base.len() as u64 * 257;
            if index < count {
                let at = (index / 257) as usize;
                return match index % 257 {
                    256 => base[..at].to_vec(),
                    byte => {
                        let mut changed = base.clone();
                        changed[at] = byte as u8;
                        changed
                    }
                };
            }
            index -= count;
        }
        Vec::new()
    }
}

/// The strings over an alphabet in order of length.
fn nth_string(alphabet: &[u8], mut index: u64) -> Vec<u8> {
    let base = alphabet.len() as u64;
    let mut string = Vec::new();
    while index > 0 {
        index -= 1;
        string.push(alphabet[(index % base) as usize]);
        index /= base;
    }
    string
}

/// A prototype with one field, and a block up to its value.
fn one_field(bytes: &mut Vec<u8>, type_id: u8) {
    bytes.extend([0, 0, 0, 0, 1, 1, 0, 0, 0, 1, 0, 0, 0, b'p']);
    bytes.extend([type_id, 0, 0, 0, 1, 0, 0, 0, b'f']);
    if type_id == 0x37 {
        bytes.extend([
            2, 0, 0, 0, 0, 0, 0, 0, 1, 0, 0, 0, b'n', 1, 0, 0, 0, 0, 0, 0, 0,
        ]);
    }
    bytes.extend([0, 0, 0, 0, 1, 0, 0, 0, 0]);
}
