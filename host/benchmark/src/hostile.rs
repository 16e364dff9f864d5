//! Files that are well-formed and as awkward as the format allows. Each has one cause that makes
//! it so, and a text that fits into memory. They need at most 4,096 rows.

use crate::saves;
use generate::bytes::{array, block, choice, definition, file, floats, prototype, string};
use generate::ids::smallest;
use generate::Random;

/// The rows of the table for every file that needs no more.
pub const ROWS: usize = 4096;
/// The bytes of the smallest prototype: a file has no more rows than it has these.
pub const SMALLEST: usize = 17;

const SEED: u64 = 21;
const SIZE: usize = 1_000_000;

type Maker = fn() -> Vec<u8>;

/// Names, what they are, and the files.
pub type Files<const N: usize> = [(&'static str, &'static str, Maker); N];

pub const ALL: Files<11> = [
    (
        "prototypes",
        "4,096 prototypes with ids in random order, and the smallest blocks of the last one",
        prototypes,
    ),
    (
        "falling",
        "4,096 of the smallest prototypes with falling ids, and two blocks",
        falling,
    ),
    ("names", "names of 20,000 bytes, each used once", names),
    (
        "long-text",
        "names of 2,000 bytes in a text 32 times as long as the file",
        long_text,
    ),
    ("arrays", "three giant arrays", arrays),
    (
        "redefinition",
        "one prototype defined again in front of each block",
        redefinition,
    ),
    (
        "redefinitions",
        "4,096 prototypes, all defined again and again in front of a block",
        redefinitions,
    ),
    (
        "enums",
        "an enum with a list of 4,096 pairs, and many values of it",
        enums,
    ),
    (
        "enum-lists",
        "a save of 1 MB whose prototypes have enums with lists of 40 pairs, among other fields",
        saves::enum_lists,
    ),
    (
        "bare-string",
        "a string of a megabyte that needs no quotation marks",
        bare_string,
    ),
    (
        "words",
        "a save of 1 MB whose values are encoded words and named ids alone",
        saves::words,
    ),
];

/// Different ids in random order.
fn random_ids(count: usize) -> Vec<u32> {
    let mut random = Random::new(SEED, 0);
    // The low bits make them different.
    let low = usize::BITS - (count - 1).leading_zeros();
    let mut ids: Vec<u32> = (0..count)
        .map(|row| (random.number() as u32) << low | row as u32)
        .collect();
    // Zero would be an id that no block can have.
    ids[0] |= 1 << 31;
    ids
}

/// Smaller than the others: with anything else in it, a byte would take less time.
pub fn falling() -> Vec<u8> {
    let ids: Vec<u32> = (1..=ROWS as u32).rev().collect();
    smallest(&ids, &[ids[0], ids[ROWS - 1]])
}

pub fn prototypes() -> Vec<u8> {
    let ids = random_ids(ROWS);
    let mut records: Vec<Vec<u8>> = ids.iter().map(|id| prototype(*id, b"", &[])).collect();
    let smallest = block(ids[ROWS - 1], &[]);
    let left = SIZE - records.iter().map(Vec::len).sum::<usize>();
    records.extend(vec![smallest.clone(); left / smallest.len()]);
    file(&records)
}

/// Letters, and now and then a character of two bytes.
fn name(random: &mut Random, len: usize) -> Vec<u8> {
    let mut name = Vec::with_capacity(len);
    while name.len() + 2 <= len {
        match random.chance(2) {
            true => name.extend("ö".as_bytes()),
            false => name.push(b'a' + random.below(26) as u8),
        }
    }
    name.resize(len, b'_');
    name
}

fn long_names(random: &mut Random, id: u32, len: usize) -> Vec<u8> {
    let definitions = [0x35, 0x27, 0x35].map(|type_id| definition(type_id, &name(random, len)));
    prototype(id, &name(random, len), &definitions)
}

const VALUES: [u8; 6] = [1, 7, 0, 0, 0, 0];

pub fn names() -> Vec<u8> {
    let mut random = Random::new(SEED, 1);
    const LEN: usize = 20_000;
    let count = SIZE / (4 * LEN);
    let records: Vec<Vec<u8>> = (1..=count as u32)
        .flat_map(|id| [long_names(&mut random, id, LEN), block(id, &VALUES)])
        .collect();
    file(&records)
}

pub fn long_text() -> Vec<u8> {
    let mut random = Random::new(SEED, 2);
    const LEN: usize = 2000;
    const TIMES: usize = 32;
    let count = SIZE / (4 * LEN);
    let records: Vec<Vec<u8>> = (1..=count as u32)
        .flat_map(|id| {
            let mut records = vec![long_names(&mut random, id, LEN)];
            records.extend(vec![block(id, &VALUES); TIMES]);
            records
        })
        .collect();
    file(&records)
}

/// Of bytes, of strings, of placements: a third of the file each.
pub fn arrays() -> Vec<u8> {
    let mut random = Random::new(SEED, 3);
    let third = SIZE / 3;
    let flags: Vec<Vec<u8>> = (0..third).map(|_| vec![random.below(2) as u8]).collect();
    let strings: Vec<Vec<u8>> = (0..third / 8)
        .map(|_| {
            let len = random.below(9);
            string(&name(&mut random, len))
        })
        .collect();
    let placements: Vec<Vec<u8>> = (0..third / 32)
        .map(|_| {
            let bits = [(); 8].map(|()| (random.below(4000) as f32 / 16.0).to_bits());
            floats(&bits)
        })
        .collect();
    let definitions = [
        definition(0x36, b"flags"),
        definition(0x02, b"strings"),
        definition(0x1a, b"placements"),
    ];
    let values = [array(&flags), array(&strings), array(&placements)].concat();
    file(&[prototype(1, b"giant", &definitions), block(1, &values)])
}

/// A definition under a new name each time, and a block of it.
fn again(id: u32, number: usize) -> [Vec<u8>; 2] {
    let name = format!("n{number}");
    let definitions = [definition(0x35, name.as_bytes())];
    [
        prototype(id, name.as_bytes(), &definitions),
        block(id, &[1]),
    ]
}

/// Both have so many bytes, on average.
const AGAIN: usize = 42;

pub fn redefinition() -> Vec<u8> {
    let records: Vec<Vec<u8>> = (0..SIZE / AGAIN)
        .flat_map(|number| again(1, number))
        .collect();
    file(&records)
}

pub fn redefinitions() -> Vec<u8> {
    let ids = random_ids(ROWS);
    let records: Vec<Vec<u8>> = (0..SIZE / AGAIN)
        .flat_map(|number| again(ids[number % ROWS], number))
        .collect();
    file(&records)
}

/// Smaller than the others, for the time is the list's length times the number of values.
pub fn enums() -> Vec<u8> {
    const PAIRS: u32 = 4096;
    let texts: Vec<String> = (0..PAIRS).map(|number| format!("s{number}")).collect();
    let pairs: Vec<(u32, &[u8])> = (0..PAIRS).zip(texts.iter().map(String::as_bytes)).collect();
    let mut records = vec![prototype(1, b"p", &[choice(b"state", &pairs)])];
    let carrier = block(1, &(PAIRS - 1).to_le_bytes());
    let left = SIZE / 4 - records[0].len();
    records.extend(vec![carrier.clone(); left / carrier.len()]);
    file(&records)
}

/// Letters of both cases, digits and `_`: all of them are looked at before it is known that the text
/// has no quotation marks.
pub fn bare_string() -> Vec<u8> {
    const BARE: &[u8] = b"0123456789ABCDEFGHIJKLMNOPQRSTUVWXYZ_abcdefghijklmnopqrstuvwxyz";
    let mut random = Random::new(SEED, 4);
    let text: Vec<u8> = (0..SIZE).map(|_| random.pick(BARE)).collect();
    let definitions = [definition(0x01, b"text")];
    file(&[
        prototype(1, b"giant", &definitions),
        block(1, &string(&text)),
    ])
}

#[cfg(test)]
mod tests {
    use super::*;

    /// The number of prototypes and of blocks, and the length of the text.
    fn counts(bytes: &[u8]) -> (usize, usize, usize) {
        let parsed = oracle::parse(bytes).expect("the Rust reads it");
        let text = oracle::to_siin(&parsed).expect("the Rust writes it");
        (
            parsed.prototypes.len(),
            parsed.data_blocks.len(),
            text.len(),
        )
    }

    fn within(found: usize, wanted: usize) {
        assert!(
            found.abs_diff(wanted) * 20 <= wanted,
            "{found} for {wanted}"
        );
    }

    #[test]
    fn sizes_and_rows() {
        for (name, _, make) in ALL {
            let bytes = make();
            let size = match name {
                "enums" => SIZE / 4,
                "falling" => SMALLEST * ROWS,
                _ => SIZE,
            };
            within(bytes.len(), size);
            let (prototypes, blocks, _) = counts(&bytes);
            assert!((1..=ROWS).contains(&prototypes) && blocks > 0, "{name}");
            assert!(bytes == make(), "{name}");
        }
    }

    #[test]
    fn as_many_prototypes_as_rows() {
        let (count, blocks, _) = counts(&prototypes());
        assert_eq!(count, ROWS);
        within(blocks, (SIZE - SMALLEST * ROWS) / 5);
        assert_eq!(counts(&redefinitions()).0, ROWS);
        let (count, blocks, _) = counts(&falling());
        assert_eq!((count, blocks), (ROWS, 2));
    }

    /// The ids of the smallest prototypes at the front of a file.
    fn ids_in(bytes: &[u8]) -> Vec<u32> {
        bytes[8..]
            .chunks_exact(SMALLEST)
            .take_while(|record| record[..5] == [0, 0, 0, 0, 1])
            .map(|record| u32::from_le_bytes(record[5..9].try_into().unwrap()))
            .collect()
    }

    #[test]
    fn orders_of_the_ids() {
        let ids = ids_in(&prototypes());
        assert_eq!(ids.len(), ROWS);
        let rises = ids.windows(2).filter(|pair| pair[0] < pair[1]).count();
        within(rises, ROWS / 2);
        let ids = ids_in(&falling());
        assert_eq!(ids.len(), ROWS);
        assert!(ids.windows(2).all(|pair| pair[0] > pair[1]));
    }

    #[test]
    fn one_prototype_again_and_again() {
        let (count, blocks, _) = counts(&redefinition());
        assert_eq!(count, 1);
        within(blocks, SIZE / AGAIN);
    }

    #[test]
    fn a_string_without_quotation_marks() {
        let text = sii_decode::to_siin(&bare_string()).unwrap();
        assert!(text.len() > SIZE && !text.contains(&b'"'));
    }

    #[test]
    fn lengths_of_the_text() {
        within(counts(&names()).2, SIZE);
        within(counts(&long_text()).2, 32 * SIZE);
    }
}
