//! Saves of one vector type each, and of placements in both versions. The Rust reads neither two of the
//! types nor version 1, so they are not timed, but instructions are counted on them.

use crate::inputs::Input;
use generate::bytes::{array, block, definition, file_of, floats, prototype};
use generate::Random;

const SEED: u64 = 41;
const SIZE: usize = 1_000_000;
/// The elements of an array.
const ELEMENTS: usize = 20;
/// With this f4 nothing is added to f1 and f3, so that the texts of both versions are the same.
const F4: f32 = 8_390_656.0;

/// Name, version, type, floats of an element that are drawn, whether it is an array.
const ALL: [(&str, u32, u32, usize, bool); 8] = [
    ("triple", 2, 0x09, 3, false),
    ("triples", 2, 0x0a, 3, true),
    ("quadruple", 2, 0x17, 4, false),
    ("quadruples", 2, 0x18, 4, true),
    ("placement", 2, 0x19, 7, false),
    ("placements", 2, 0x1a, 7, true),
    ("placement-1", 1, 0x19, 7, false),
    ("placements-1", 1, 0x1a, 7, true),
];

fn is_placement(type_id: u32) -> bool {
    matches!(type_id, 0x19 | 0x1a)
}

/// The bytes of a block in version 2.
fn block_size(type_id: u32, drawn: usize, is_array: bool) -> usize {
    let element = 4 * (drawn + usize::from(is_placement(type_id)));
    match is_array {
        true => 5 + 4 + ELEMENTS * element,
        false => 5 + element,
    }
}

/// Whole numbers, halves and quarters, in as many blocks as make up the size in version 2.
fn save(version: u32, type_id: u32, drawn: usize, is_array: bool) -> Vec<u8> {
    let mut random = Random::new(SEED, 0);
    let mut element = || {
        let mut numbers: Vec<f32> = (0..drawn)
            .map(|_| random.below(4000) as f32 / 4.0)
            .collect();
        if is_placement(type_id) && version != 1 {
            numbers.insert(3, F4);
        }
        floats(&numbers.into_iter().map(f32::to_bits).collect::<Vec<_>>())
    };
    let mut records = vec![prototype(1, b"vectors", &[definition(type_id, b"v")])];
    for _ in 0..SIZE.div_ceil(block_size(type_id, drawn, is_array)) {
        let value = match is_array {
            true => array(&(0..ELEMENTS).map(|_| element()).collect::<Vec<_>>()),
            false => element(),
        };
        records.push(block(1, &value));
    }
    file_of(version, &records)
}

pub fn all() -> impl Iterator<Item = Input> {
    ALL.into_iter()
        .map(|(name, version, type_id, drawn, is_array)| Input {
            name: name.into(),
            about: format!("a save of version {version}, of values of the type {type_id:#04x}"),
            make: Box::new(move || save(version, type_id, drawn, is_array)),
        })
}

#[cfg(test)]
mod tests {
    use super::*;

    fn text(file: &[u8]) -> String {
        String::from_utf8(sii_decode::to_siin(file).unwrap()).unwrap()
    }

    #[test]
    fn as_long_as_they_should_be_and_converted_whole() {
        for ((_, version, type_id, drawn, is_array), input) in ALL.into_iter().zip(all()) {
            let file = (input.make)();
            let blocks = SIZE.div_ceil(block_size(type_id, drawn, is_array));
            let elements = blocks * if is_array { ELEMENTS } else { 1 };
            let less = if version == 1 { 4 * elements } else { 0 };
            let size = file.len() + less;
            assert!((SIZE..SIZE + 1000).contains(&size), "{}", input.name);
            let text = text(&file);
            let shown = text.lines().filter(|line| line.ends_with(')')).count();
            assert_eq!(shown, elements, "{}", input.name);
        }
    }

    #[test]
    fn placements_have_the_same_text_in_both_versions() {
        for (type_id, is_array) in [(0x19, false), (0x1a, true)] {
            let [first, second] = [1, 2].map(|version| text(&save(version, type_id, 7, is_array)));
            assert_eq!(first, second);
        }
    }
}
