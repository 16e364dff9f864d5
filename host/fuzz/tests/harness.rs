//! The harness has to find the wrong answer out that the fuzzer is to come upon, and nothing else.

use fuzz::harness::{value_input, Harness};
use fuzz::seeds::seeds;
use generate::bytes::one_value;

const U32: u32 = 0x27;
const RARE: [u8; 4] = 0x6b1d_93e5_u32.to_le_bytes();

#[test]
fn finds_the_wrong_answer() {
    for input in [one_value(U32, &RARE), value_input(2, U32 as u8, 0, &RARE)] {
        assert!(Harness::new(false).input(&input).is_ok());
        assert!(Harness::new(true).input(&input).is_err());
    }
}

#[test]
fn no_seed_shows_it() {
    let mut harness = Harness::new(true);
    for seed in seeds() {
        harness.input(&seed).unwrap();
    }
}
