//! The inputs that a run starts from.

use crate::harness::{index_input, value_input};
use generate::Random;
use model::Model;

/// No input is longer, seed or not.
pub const LONGEST: usize = 4096;

const SEED: u64 = 1;
const FILES: u64 = 1000;
const VALUES: u64 = 300;
const INDEXES: u64 = 300;

/// The files of `crates/replay`, 01's worked bytes first; then files and values of the generator,
/// and files with an index behind them.
pub fn seeds() -> Vec<Vec<u8>> {
    let recorded = record::entries().into_iter().map(|entry| entry.file);
    let drawn = (0..FILES).map(|index| generate::file(SEED, index));
    let mut seeds: Vec<_> = recorded
        .chain(drawn)
        .chain((0..VALUES).map(value))
        .chain((0..INDEXES).filter_map(indexed))
        .collect();
    seeds.retain(|seed| seed.len() <= LONGEST);
    seeds
}

/// A file with two blocks or more, and with the first two records of its index behind it.
fn indexed(index: u64) -> Option<Vec<u8>> {
    let file = generate::file(SEED, index);
    let written = Model::default().in_front_of_fault(&file).index();
    Some(index_input(&file, written.first_chunk()?))
}

fn value(stream: u64) -> Vec<u8> {
    let mut random = Random::new(!SEED, stream);
    let (version, type_id, part) = generate::element(&mut random);
    // 257 has no byte of its own, and its first one is that of 1.
    let version = u8::try_from(version).unwrap_or(u8::MAX);
    value_input(version, type_id as u8, random.below(6) as u8, &part)
}
