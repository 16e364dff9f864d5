//! Floats, and the sums of placements.

use super::Cases;
use crate::bytes::*;
use crate::bytes::{definition as field, floats as bytes_of};

/// Bits of floats: zeros, whole and other numbers, the limit of 10,000,000, the least and largest of
/// each class, infinities, NaNs.
const FLOATS: [u32; 44] = [
    0x00000000, 0x80000000, 0x00000001, 0x80000001, 0x00000010, 0x000fffff, 0x007fffff, 0x00800000,
    0x3f7fffff, 0x3f800000, 0xbf800000, 0x3f000000, 0xbf000000, 0x3fc00000, 0xbfc00000, 0x40200000,
    0x41200000, 0x42c80000, 0x447a0000, 0x4479ffff, 0x49742400, 0x4b18967f, 0x4b189680, 0x4b189681,
    0xcb189680, 0xcb189681, 0x4affffff, 0x4b000000, 0x4b000001, 0x4b7fffff, 0x4b800000, 0x4f000000,
    0xcf000000, 0x5f000000, 0x7f7fffff, 0xff7fffff, 0x7f800000, 0xff800000, 0x7fc00000, 0xffc00000,
    0x7f800001, 0xff800001, 0x7fffffff, 0xffffffff,
];

pub fn floats(cases: &mut Cases) {
    for bits in FLOATS {
        cases.value(format!("float {bits:#x}"), 5, &bytes_of(&[bits]));
    }
    let vectors: Vec<_> = FLOATS.chunks(4).map(bytes_of).collect();
    cases.value("floats by four", 0x18, &array(&vectors));
    for (i, four) in vectors.iter().enumerate() {
        cases.value(format!("four floats, {i}"), 0x17, four);
    }
    let vectors: Vec<_> = FLOATS.chunks_exact(3).map(bytes_of).collect();
    cases.value("floats by three", 0x0a, &array(&vectors));
}

/// f4 of placements: the worked cases, whole and other numbers around the steps of both sectors,
/// the ends of i32 and beyond.
const SECTORS: [f32; 25] = [
    0.0,
    -0.0,
    NOTHING_ADDED,
    -1.5,
    -0.5,
    0.999,
    1.0,
    -1.0,
    2047.0,
    2048.0,
    4095.5,
    4096.0,
    -4096.0,
    -4096.5,
    16_777_215.0,
    -16_777_216.0,
    2_147_483_520.0,
    2_147_483_648.0,
    -2_147_483_648.0,
    -2_147_483_904.0,
    1e20,
    f32::INFINITY,
    f32::NEG_INFINITY,
    f32::NAN,
    f32::from_bits(1),
];

/// The f4 with which both sums add 0.
const NOTHING_ADDED: f32 = 8_390_656.0;

pub fn placements(cases: &mut Cases) {
    for f4 in SECTORS {
        sum(cases, 1.0, 1.0, f4);
    }
    zeros_and_large_sums(cases);
    ties(cases);
    let nans = [
        0, 0x7fc00001, 0, 0x7fc00000, 0xffc00000, 0x7f800001, 0xff800000, 0x7fffffff,
    ];
    let label = "placement with NaNs where nothing is added";
    cases.add(label, one_value(0x19, &bytes_of(&nans)));
}

/// Seven floats, of which none is added to: the same classes as above, but in the places of f1 and f3, where
/// the Rust's stand-in adds 0, no NaN and no minus zero. Then other fields behind them, read by version 1
/// and by others.
pub fn placements_of_version_1(cases: &mut Cases) {
    let is_kept = |bits: &u32| *bits != 0x8000_0000 && !f32::from_bits(*bits).is_nan();
    let kept: Vec<u32> = FLOATS.into_iter().filter(is_kept).collect();
    let seven = |i: usize| {
        let mut bits = [0, 1, 2, 3, 4, 5, 6].map(|k| FLOATS[(5 * i + k) % FLOATS.len()]);
        bits[0] = kept[2 * i % kept.len()];
        bits[2] = kept[(2 * i + 1) % kept.len()];
        bytes_of(&bits)
    };
    let in_version_1 = |type_id: u32, value: &[u8]| {
        let fields = [field(type_id, b"f")];
        file_of(1, &[prototype(1, b"p", &fields), block(1, value)])
    };
    for i in 0..kept.len().div_ceil(2) {
        let whole = in_version_1(0x19, &seven(i));
        cases.add(format!("version 1, placement {i}"), whole);
    }
    for count in [0, 1, 5] {
        let all: Vec<_> = (0..count).map(seven).collect();
        let whole = in_version_1(0x1a, &array(&all));
        let label = format!("version 1, {count} placements");
        cases.add(label.clone(), whole.clone());
        if count > 0 {
            cases.cut(format!("{label}, last byte cut"), &whole, 1);
            cases.cut(format!("{label}, an element cut"), &whole, 28);
        }
    }
    let fields = [field(0x1a, b"a"), field(0x19, b"b"), field(0x01, b"s")];
    let values = [array(&[seven(3), seven(4)]), seven(5), string(b"behind")].concat();
    let records = [prototype(1, b"p", &fields), block(1, &values)];
    for version in [1, 0, 2, 0x101, 0x0100_0001] {
        let label = format!("placements of seven read by version {version}");
        cases.add(label, file_of(version, &records));
    }
}

/// A placement with these, and some floats that are not added to.
fn sum(cases: &mut Cases, f1: f32, f3: f32, f4: f32) {
    let bits = [f1, -0.0, f3, f4, 1.0, 0.0, -0.0, 0.5].map(f32::to_bits);
    let [f1, _, f3, f4, ..] = bits;
    let label = format!("placement {f1:x} {f3:x} {f4:x}");
    cases.value(label, 0x19, &bytes_of(&bits));
}

fn zeros_and_large_sums(cases: &mut Cases) {
    // Minus zero and zero: zero.
    sum(cases, -0.0, 0.0, NOTHING_ADDED);
    sum(cases, -0.0, -0.0, 0.0);
    sum(cases, 0.5, f32::from_bits(1), NOTHING_ADDED);
    sum(cases, f32::INFINITY, f32::NEG_INFINITY, NOTHING_ADDED);
    sum(cases, f32::MAX, -f32::MAX, 0.0);
    sum(cases, 1_048_576.0, 1_048_064.0, 0.0);
    sum(cases, -1_048_064.0, -1_048_576.0, 16_777_215.0);
}

fn ties(cases: &mut Cases) {
    let below = |float: f32| f32::from_bits(float.to_bits() - 1);
    let above = |float: f32| f32::from_bits(float.to_bits() + 1);
    // Around the ties of a sum with -1048576: its last place is 1/8, below it 1/16.
    for tie in [0.03125f32, 0.09375, 0.15625, 0.0625, 0.1875] {
        sum(cases, tie, -tie, 0.0);
        sum(cases, below(tie), above(tie), 0.0);
        sum(cases, -above(tie), -below(tie), 0.0);
    }
    // 2048 + 1 sectors, f1 = 512 + ..: its last place is 1/16384.
    let tie = f32::from_bits(0x3800_0000);
    let f4 = 2049.0 + 4096.0 * 2049.0;
    sum(cases, tie, 3.0 * tie, f4);
    sum(cases, below(tie), -tie, f4);
}
