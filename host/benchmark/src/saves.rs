//! Saves shaped like real ones: a few hundred prototypes, of which some sixteen make up most
//! blocks, ids of words and nameless ones, and values of every type that the Rust reads. All names
//! and values are made up.

use generate::bytes::{choice, definition, file, floats, named, nameless, prototype, string, word};
use generate::Random;

/// A megabyte has so many bytes here, so that 16 of them are within the length limit.
pub const MEGABYTE: usize = 1_000_000;
pub const LARGEST: usize = 16;

const SEED: u64 = 20;
/// Streams of random numbers: one for each prototype, and one for the blocks.
const BLOCKS: u64 = 1 << 32;

/// How many prototypes most blocks are of.
const POPULAR: usize = 16;

/// How many prototypes a save of so many megabytes has.
pub fn prototypes(megabytes: usize) -> usize {
    140 + 10 * megabytes
}

/// How many blocks a save of so many megabytes has: 40,000 in one of seven.
pub fn blocks(megabytes: usize) -> usize {
    40_000 * megabytes / 7
}

/// Types of fields with their weights: all listed ones but 0x0a and 0x17, at which the Rust panics.
const TYPES: [(u32, usize); 32] = [
    (0x27, 13),
    (0x05, 12),
    (0x25, 9),
    (0x35, 9),
    (0x03, 8),
    (0x01, 7),
    (0x39, 7),
    (0x31, 5),
    (0x3b, 4),
    (0x37, 3),
    (0x3a, 3),
    (0x2b, 3),
    (0x19, 2),
    (0x28, 2),
    (0x06, 2),
    (0x33, 2),
    (0x3d, 2),
    (0x2f, 2),
    (0x09, 2),
    (0x04, 1),
    (0x02, 1),
    (0x07, 1),
    (0x11, 1),
    (0x12, 1),
    (0x18, 1),
    (0x1a, 1),
    (0x26, 1),
    (0x2c, 1),
    (0x32, 1),
    (0x34, 1),
    (0x36, 1),
    (0x3c, 1),
];

/// Of these, the ones of encoded words, alone or as the names of ids.
const OF_WORDS: [u32; 7] = [0x03, 0x04, 0x39, 0x3a, 0x3b, 0x3c, 0x3d];

const WORDS: [&str; 48] = [
    "cargo", "truck", "trailer", "driver", "garage", "company", "job", "offer", "time", "distance",
    "damage", "wear", "fuel", "route", "city", "profit", "bank", "loan", "skill", "level", "count",
    "state", "start", "target", "last", "next", "total", "current", "planned", "paint", "wheel",
    "engine", "chassis", "cabin", "spoiler", "plate", "position", "node", "point", "order",
    "delivery", "log", "entry", "bonus", "penalty", "talent", "record", "expiry",
];

const CITIES: [&str; 8] = [
    "dresden", "gdansk", "lille", "brno", "odense", "trieste", "cork", "x_42",
];

/// What the fields and ids of a save are.
#[derive(Clone, Copy, PartialEq)]
enum Shape {
    /// Fields of all types, ids of every kind.
    Usual,
    /// The same, but every second field is an enum with a long list of its own.
    EnumLists,
    /// Fields of encoded words and ids alone, and every id is named.
    Words,
}

impl Shape {
    /// The types of its fields with their weights.
    fn types(self) -> Vec<(u32, usize)> {
        let mut types = TYPES.to_vec();
        if self == Shape::Words {
            types.retain(|(type_id, _)| OF_WORDS.contains(type_id));
        }
        types
    }
}

/// A prototype and its fields' types, with the numbers in the list of each of its enums.
struct Kind {
    shape: Shape,
    id: u32,
    record: Vec<u8>,
    types: Vec<u32>,
    states: Vec<u32>,
}

/// The numbers and strings of every enum of a save.
const STATES: [(u32, &[u8]); 5] = [
    (0, b"none"),
    (1, b"in_progress"),
    (2, b"on the way"),
    (5, b"delivered"),
    (9, b""),
];

/// The pairs of every enum in the save of enum lists.
const PAIRS: u32 = 40;

fn words_joined(random: &mut Random, count: usize) -> String {
    let words: Vec<&str> = (0..count).map(|_| random.pick(&WORDS)).collect();
    words.join("_")
}

fn type_of_field(random: &mut Random, weighted: &[(u32, usize)]) -> u32 {
    let sum = weighted.iter().map(|(_, weight)| weight).sum();
    let mut drawn = random.below(sum);
    for (type_id, weight) in weighted {
        if drawn < *weight {
            return *type_id;
        }
        drawn -= weight;
    }
    weighted[0].0
}

/// An enum with a long list of its own.
fn long_choice(random: &mut Random, name: &[u8]) -> Vec<u8> {
    let texts: Vec<String> = (0..PAIRS)
        .map(|number| format!("{}_{number}", random.pick(&WORDS)))
        .collect();
    let pairs: Vec<(u32, &[u8])> = (0..PAIRS).zip(texts.iter().map(String::as_bytes)).collect();
    choice(name, &pairs)
}

/// Prototype `number` is the same in saves of all sizes.
fn kind(number: usize, shape: Shape) -> Kind {
    let mut random = Random::new(SEED, number as u64);
    let mut fields = 3 + random.below(9);
    if random.chance(25) {
        fields += random.below(20);
    }
    let weighted = shape.types();
    let mut types: Vec<u32> = (0..fields)
        .map(|_| type_of_field(&mut random, &weighted))
        .collect();
    // Each type has a field of its own, whatever was drawn.
    types[0] = weighted[number % weighted.len()].0;
    if shape == Shape::EnumLists {
        let enums = types.iter_mut().skip(1).step_by(2);
        enums.for_each(|type_id| *type_id = 0x37);
    }
    let id = 2 + 3 * number as u32;
    let mut definitions = Vec::new();
    for (field, type_id) in types.iter().enumerate() {
        let count = 1 + random.below(3);
        let name = format!("{}_{field}", words_joined(&mut random, count));
        definitions.push(match (type_id, shape) {
            (0x37, Shape::EnumLists) => long_choice(&mut random, name.as_bytes()),
            (0x37, _) => choice(name.as_bytes(), &STATES),
            _ => definition(*type_id, name.as_bytes()),
        });
    }
    let name = format!("{}_{number}", words_joined(&mut random, 2));
    Kind {
        shape,
        id,
        record: prototype(id, name.as_bytes(), &definitions),
        types,
        states: match shape {
            Shape::EnumLists => (0..PAIRS).collect(),
            _ => STATES.map(|(number, _)| number).to_vec(),
        },
    }
}

fn some_word(random: &mut Random) -> u64 {
    const CHARACTERS: &[u8] = b"0123456789abcdefghijklmnopqrstuvwxyz_";
    if random.chance(30) {
        return word(random.pick(&CITIES).as_bytes());
    }
    let len = 2 + random.below(11);
    word(
        &(0..len)
            .map(|_| random.pick(CHARACTERS))
            .collect::<Vec<u8>>(),
    )
}

fn nameless_id(random: &mut Random) -> Vec<u8> {
    // Addresses of a process: three groups of digits.
    nameless(0x1a0_0000_0000 + (random.number() >> 30) * 16)
}

fn named_id(random: &mut Random) -> Vec<u8> {
    let count = 1 + random.below(4);
    named(&(0..count).map(|_| some_word(random)).collect::<Vec<_>>())
}

fn id(random: &mut Random, shape: Shape) -> Vec<u8> {
    if shape == Shape::Words {
        return named_id(random);
    }
    match random.below(100) {
        0..55 => nameless_id(random),
        55..62 => named(&[]),
        _ => named_id(random),
    }
}

/// Blocks are nameless more often than what points to them.
fn block_id(random: &mut Random, shape: Shape) -> Vec<u8> {
    match shape != Shape::Words && random.chance(60) {
        true => nameless_id(random),
        false => id(random, shape),
    }
}

fn text(random: &mut Random) -> Vec<u8> {
    let count = 1 + random.below(3);
    let words = words_joined(random, count);
    match random.below(100) {
        0..15 => string(b""),
        15..50 => string(words.as_bytes()),
        50..90 => string(format!("/def/{words}/{}.sii", random.pick(&CITIES)).as_bytes()),
        _ => string(format!("Köln, {words}, 東").as_bytes()),
    }
}

/// Whole numbers, zero above all, and fractions.
fn single(random: &mut Random) -> u32 {
    let number = match random.below(10) {
        0..3 => 0.0,
        3..5 => random.below(1000) as f32,
        _ => random.below(1 << 24) as f32 / 4096.0 - 1024.0,
    };
    number.to_bits()
}

fn singles(random: &mut Random, count: usize) -> Vec<u8> {
    floats(&(0..count).map(|_| single(random)).collect::<Vec<_>>())
}

fn placement(random: &mut Random) -> Vec<u8> {
    let sector = (2000 + random.below(96)) * 4096 + 2000 + random.below(96);
    let mut bits: Vec<u32> = (0..3).map(|_| single(random)).collect();
    bits.push((sector as f32).to_bits());
    for _ in 0..4 {
        bits.push((random.below(2001) as f32 / 1000.0 - 1.0).to_bits());
    }
    floats(&bits)
}

/// Small more often than large, and every tenth one `nil`.
fn number(random: &mut Random) -> u64 {
    match random.below(10) {
        0 => u64::MAX,
        1..6 => random.below(100) as u64,
        _ => random.below(10_000_000) as u64,
    }
}

fn elements(random: &mut Random, element: impl Fn(&mut Random) -> Vec<u8>) -> Vec<u8> {
    let count = match random.below(1000) {
        0..400 => 0,
        400..800 => 1 + random.below(4),
        800..997 => 5 + random.below(10),
        _ => 50 + random.below(100),
    };
    let mut bytes = (count as u32).to_le_bytes().to_vec();
    for _ in 0..count {
        bytes.extend(element(random));
    }
    bytes
}

fn value(random: &mut Random, type_id: u32, kind: &Kind) -> Vec<u8> {
    let cut =
        |width: usize| move |random: &mut Random| number(random).to_le_bytes()[..width].to_vec();
    let three = |random: &mut Random| [cut(4)(random), cut(4)(random), cut(4)(random)].concat();
    let encoded = |random: &mut Random| match random.chance(5) {
        true => vec![0; 8],
        false => some_word(random).to_le_bytes().to_vec(),
    };
    let flag = |random: &mut Random| vec![random.below(2) as u8];
    let pointer = |random: &mut Random| id(random, kind.shape);
    match type_id {
        0x01 => text(random),
        0x02 => elements(random, text),
        0x03 => encoded(random),
        0x04 => elements(random, encoded),
        0x05 => singles(random, 1),
        0x06 => elements(random, |random| singles(random, 1)),
        0x07 => singles(random, 2),
        0x09 => singles(random, 3),
        0x11 => three(random),
        0x12 => elements(random, three),
        0x18 => elements(random, |random| singles(random, 4)),
        0x19 => placement(random),
        0x1a => elements(random, placement),
        0x25 | 0x27 | 0x2f => cut(4)(random),
        0x26 | 0x28 => elements(random, cut(4)),
        0x2b => cut(2)(random),
        0x2c => elements(random, cut(2)),
        0x31 | 0x33 => cut(8)(random),
        0x32 | 0x34 => elements(random, cut(8)),
        0x35 => flag(random),
        0x36 => elements(random, flag),
        0x37 => random.pick(&kind.states).to_le_bytes().to_vec(),
        0x39 | 0x3b | 0x3d => pointer(random),
        _ => elements(random, pointer),
    }
}

fn block(random: &mut Random, kind: &Kind) -> Vec<u8> {
    let mut bytes = kind.id.to_le_bytes().to_vec();
    bytes.extend(block_id(random, kind.shape));
    for type_id in &kind.types {
        bytes.extend(value(random, *type_id, kind));
    }
    bytes
}

/// Which of the first `defined` prototypes the next block is of. The popular ones stand far apart
/// in the part that saves of all sizes have.
fn drawn(random: &mut Random, defined: usize) -> usize {
    if random.chance(80) {
        // The first of them are drawn more often than the others.
        let rank = random.below(POPULAR).min(random.below(POPULAR));
        return (rank * 59 + 7) % prototypes(1) % defined;
    }
    random.below(defined)
}

/// The save of so many megabytes, from 1 to 16.
pub fn save(megabytes: usize) -> Vec<u8> {
    of_shape(Shape::Usual, megabytes)
}

/// A save of a megabyte, as the others but for its enums.
pub fn enum_lists() -> Vec<u8> {
    of_shape(Shape::EnumLists, 1)
}

/// A save of a megabyte, of encoded words and named ids alone.
pub fn words() -> Vec<u8> {
    of_shape(Shape::Words, 1)
}

/// So many prototypes and blocks as a save of so many megabytes has, and some so many bytes.
fn of_shape(shape: Shape, megabytes: usize) -> Vec<u8> {
    let prototypes = 0..prototypes(megabytes);
    let kinds: Vec<Kind> = prototypes.map(|number| kind(number, shape)).collect();
    let (blocks, size) = (blocks(megabytes), megabytes * MEGABYTE);
    let mut random = Random::new(SEED, BLOCKS);
    // A prototype stands in front of its first block, and all do in the first quarter.
    let apart = blocks / 4 / kinds.len();
    let mut records = Vec::with_capacity(kinds.len() + blocks);
    let mut len = 13;
    let mut defined = 0;
    for number in 0..blocks {
        let made = if number % apart == 0 && defined < kinds.len() {
            let kind = &kinds[defined];
            len += kind.record.len();
            records.push(kind.record.clone());
            defined += 1;
            block(&mut random, kind)
        } else {
            // Of two blocks the one that keeps the length on its way to the whole.
            let mut pair = [(); 2].map(|()| {
                let kind = drawn(&mut random, defined);
                block(&mut random, &kinds[kind])
            });
            pair.sort_by_key(Vec::len);
            let wanted = size as u64 * number as u64 / blocks as u64;
            let [short, long] = pair;
            if len as u64 > wanted {
                short
            } else {
                long
            }
        };
        len += made.len();
        records.push(made);
    }
    file(&records)
}

#[cfg(test)]
mod tests {
    use super::*;
    use std::collections::HashSet;

    fn check(megabytes: usize) {
        let bytes = save(megabytes);
        let wanted = megabytes * MEGABYTE;
        assert!(
            bytes.len().abs_diff(wanted) * 20 <= wanted,
            "{}",
            bytes.len()
        );
        assert!(bytes.len() <= sii_decode::LENGTH_LIMIT);
        let parsed = oracle::parse(&bytes).expect("the Rust reads it");
        assert_eq!(parsed.prototypes.len(), prototypes(megabytes));
        assert_eq!(parsed.data_blocks.len(), blocks(megabytes));
        let used: HashSet<u32> = parsed.data_blocks.iter().map(|b| b.prototype_id).collect();
        assert_eq!(used.len(), prototypes(megabytes));
        assert!(oracle::to_siin(&parsed).is_ok());
    }

    #[test]
    fn of_one() {
        check(1);
    }

    #[test]
    fn of_seven() {
        assert_eq!(blocks(7), 40_000);
        check(7);
    }

    #[test]
    fn of_the_largest() {
        check(LARGEST);
    }

    #[test]
    fn same_bytes_again() {
        assert!(save(1) == save(1));
    }

    #[test]
    fn counts_of_prototypes() {
        assert_eq!((prototypes(1), prototypes(LARGEST)), (150, 300));
    }

    /// The types of the fields of all prototypes.
    fn types_of(shape: Shape) -> HashSet<u32> {
        let kinds = (0..prototypes(1)).map(|number| kind(number, shape));
        kinds.flat_map(|kind| kind.types).collect()
    }

    #[test]
    fn every_type_that_the_rust_reads() {
        let mut read = HashSet::from(generate::LISTED);
        read.retain(|type_id| !matches!(type_id, 0x0a | 0x17));
        assert_eq!(types_of(Shape::Usual), read);
    }

    #[test]
    fn lists_of_enums() {
        let bytes = enum_lists();
        assert!(bytes.len().abs_diff(MEGABYTE) * 20 <= MEGABYTE);
        let parsed = oracle::parse(&bytes).expect("the Rust reads it");
        assert_eq!(parsed.prototypes.len(), prototypes(1));
        assert_eq!(parsed.data_blocks.len(), blocks(1));
        for prototype in parsed.prototypes() {
            let lists = prototype.fields().filter_map(|it| it.enum_values.as_ref());
            let lengths: Vec<usize> = lists.map(|list| list.len()).collect();
            assert!(lengths.len() >= prototype.fields().count() / 2);
            assert!(lengths.iter().all(|length| *length == PAIRS as usize));
        }
        let values = parsed.data_blocks.iter().flat_map(|block| &block.data);
        let numbers: HashSet<u32> = values
            .filter_map(|value| match value {
                oracle::DataValue::Enum(number) => Some(*number),
                _ => None,
            })
            .collect();
        assert_eq!(numbers, (0..PAIRS).collect());
    }

    /// The words of a named id.
    fn words_of(id: &oracle::Id) -> &[String] {
        match id {
            oracle::Id::Named(words) => words,
            nameless => panic!("{nameless:?}"),
        }
    }

    #[test]
    fn encoded_words_and_named_ids_alone() {
        assert_eq!(types_of(Shape::Words), HashSet::from(OF_WORDS));
        let bytes = words();
        assert!(bytes.len().abs_diff(MEGABYTE) * 20 <= MEGABYTE);
        let parsed = oracle::parse(&bytes).expect("the Rust reads it");
        assert_eq!(parsed.prototypes.len(), prototypes(1));
        assert_eq!(parsed.data_blocks.len(), blocks(1));
        let mut counts = HashSet::new();
        let mut lengths = HashSet::new();
        for block in &parsed.data_blocks {
            let mut ids = vec![&block.id];
            for value in &block.data {
                match value {
                    oracle::DataValue::EncodedString(word) => _ = lengths.insert(word.len()),
                    oracle::DataValue::EncodedStringArray(words) => {
                        lengths.extend(words.iter().map(String::len))
                    }
                    oracle::DataValue::Id(id) => ids.push(id),
                    oracle::DataValue::IdArray(more) => ids.extend(more),
                    other => panic!("{other:?}"),
                }
            }
            counts.extend(ids.into_iter().map(|id| words_of(id).len()));
        }
        assert_eq!(counts, HashSet::from([1, 2, 3, 4]));
        assert_eq!(lengths, (0..=12).filter(|length| *length != 1).collect());
    }

    #[test]
    fn both_kinds_of_ids() {
        let bytes = save(1);
        let parsed = oracle::parse(&bytes).unwrap();
        let nameless = |block: &&oracle::DataBlock<'_>| matches!(block.id, oracle::Id::Nameless(_));
        let count = parsed.data_blocks.iter().filter(nameless).count();
        assert!(
            count > blocks(1) / 4 && count < blocks(1) * 9 / 10,
            "{count}"
        );
    }
}
