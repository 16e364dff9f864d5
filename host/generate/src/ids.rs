//! Prototype ids in the orders that are awkward for a table of them, and files of them.

use crate::bytes::{block, definition, file, prototype};
use crate::Random;

const SEED: u64 = 33;

/// A name, what it is, and so many different ids, at most 2^20; none is zero, which no block can have.
pub type Order = (&'static str, &'static str, fn(usize) -> Vec<u32>);

pub const ORDERS: [Order; 6] = [
    ("rising", "rising", rising),
    ("falling", "falling", falling),
    ("random", "in random order", random),
    (
        "low-equal",
        "with the same 12 lowest bits, in random order",
        low_equal,
    ),
    (
        "high-equal",
        "with the same 12 highest bits, in random order",
        high_equal,
    ),
    ("reversed", "that rise from the highest bit down", reversed),
];

fn rising(count: usize) -> Vec<u32> {
    (1..=count as u32).collect()
}

fn falling(count: usize) -> Vec<u32> {
    (1..=count as u32).rev().collect()
}

/// 2^20 numbers in random order: so many of them.
fn shuffled(count: usize) -> Vec<u32> {
    let mut random = Random::new(SEED, 0);
    let mut numbers: Vec<u32> = (0..1 << 20).collect();
    for i in 0..count {
        let left = numbers.len() - i;
        numbers.swap(i, i + random.below(left));
    }
    numbers.truncate(count);
    numbers
}

/// The low bits make them different.
fn random(count: usize) -> Vec<u32> {
    let mut random = Random::new(SEED, 1);
    let high = |low: u32| (random.number() as u32 % 0xfff + 1) << 20 | low;
    shuffled(count).into_iter().map(high).collect()
}

/// A search by the lowest bits has read 12 of them before they differ.
fn low_equal(count: usize) -> Vec<u32> {
    shuffled(count)
        .into_iter()
        .map(|high| high << 12 | 0xabc)
        .collect()
}

fn high_equal(count: usize) -> Vec<u32> {
    shuffled(count)
        .into_iter()
        .map(|low| 0xabc << 20 | low)
        .collect()
}

fn reversed(count: usize) -> Vec<u32> {
    (1..=count as u32).map(u32::reverse_bits).collect()
}

/// The smallest prototypes of these ids, then the smallest blocks of those.
pub fn smallest(ids: &[u32], blocks: &[u32]) -> Vec<u8> {
    let prototypes = ids.iter().map(|id| prototype(*id, b"", &[]));
    let blocks = blocks.iter().map(|id| block(*id, &[]));
    file(&[prototypes.chain(blocks).flatten().collect()])
}

/// A prototype of the id, under one of few names.
fn named(id: u32, number: usize) -> Vec<u8> {
    let (name, field) = (format!("p{}", number % 5), format!("f{}", number % 7));
    prototype(id, name.as_bytes(), &[definition(0x27, field.as_bytes())])
}

/// A prototype for each id, and behind some of them one that defines an earlier id again, or a block of one.
pub fn mixed(ids: &[u32], random: &mut Random) -> Vec<u8> {
    let mut records = Vec::new();
    for (i, id) in ids.iter().enumerate() {
        records.push(named(*id, i));
        let earlier = ids[random.below(i + 1)];
        if random.chance(20) {
            records.push(named(earlier, records.len()));
        }
        if random.chance(3) {
            records.push(block(earlier, &earlier.to_le_bytes()));
        }
    }
    file(&records)
}

#[cfg(test)]
mod tests {
    use super::*;
    use std::collections::BTreeSet;

    #[test]
    fn different_and_not_zero() {
        for (name, _, ids) in ORDERS {
            for count in [1, 2, 1000, 1 << 20] {
                let ids = ids(count);
                let set: BTreeSet<u32> = ids.iter().copied().collect();
                assert_eq!((ids.len(), set.len()), (count, count), "{name}");
                assert!(!set.contains(&0), "{name}");
            }
        }
    }

    #[test]
    fn in_their_orders() {
        let sorted = |ids: Vec<u32>| ids.windows(2).all(|pair| pair[0] < pair[1]);
        let backwards = |mut ids: Vec<u32>| {
            ids.reverse();
            ids
        };
        assert!(sorted(rising(1000)) && sorted(backwards(falling(1000))));
        assert!(sorted(
            reversed(1000).into_iter().map(u32::reverse_bits).collect()
        ));
        assert!(low_equal(1000).iter().all(|id| id & 0xfff == 0xabc));
        assert!(high_equal(1000).iter().all(|id| id >> 20 == 0xabc));
        for ids in [random(1000), low_equal(1000), high_equal(1000)] {
            assert!(!sorted(ids.clone()) && !sorted(backwards(ids)));
        }
    }
}
