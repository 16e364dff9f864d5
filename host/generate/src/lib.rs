//! Reproducible test files: file `index` of `seed` is always the same bytes.

pub mod bytes;
mod corners;
mod damage;
pub mod ids;
pub mod index;
mod random;
pub mod save;
mod short;
mod valid;
pub mod widening;

pub use random::Random;
pub use short::Short;
pub use valid::{worked_bytes, Made, ARRAYS, LISTED};

/// File `index` of `seed` before any damage, with the places that a fault can be aimed at. It may have
/// faults of its own.
pub fn whole(seed: u64, index: u64) -> Made {
    valid::file(&mut Random::new(seed, index))
}

/// A random file, whole or damaged.
pub fn file(seed: u64, index: u64) -> Vec<u8> {
    let mut random = Random::new(seed, index);
    let mut made = valid::file(&mut random);
    if random.chance(40) {
        damage::damage(&mut random, &mut made);
    }
    made.bytes
}

/// A version, a type and bytes for the element call, whole, cut or changed, or made by another version.
pub fn element(random: &mut Random) -> (u32, u32, Vec<u8>) {
    let mut made = valid::Made::default();
    let any = |random: &mut Random| random.pick(&[0, 1, 1, 1, 2, 2, 0x101, 0xffff_ffff]);
    let version = any(random);
    let by = if random.chance(80) {
        version
    } else {
        any(random)
    };
    let type_id = valid::value_alone(random, by, &mut made);
    if random.chance(50) {
        damage::damage(random, &mut made);
    } else if random.chance(50) {
        made.bytes.extend(b"rest");
    }
    (version, type_id, made.bytes)
}
