//! Encoded words and ids.

use super::Cases;
use crate::bytes::*;

/// 38^12, the smallest word of thirteen digits.
const THIRTEEN: u64 = 9_065_737_908_494_995_456;

pub fn words(cases: &mut Cases) {
    let ones = |len: u32| (0..len).fold(0, |word: u64, _| word * 38 + 1);
    let short = [0, 1 << 63, 1, 10, 11, 36, 37, 38, 39, 75, 76];
    let two_or_three_digits = [
        38 * 37,
        38 * 37 + 37,
        38 * 38,
        38 * 38 + 1,
        38 * 38 + 38,
        ones(3),
    ];
    let long = [
        ones(11),
        ones(12),
        THIRTEEN - 1,
        THIRTEEN,
        THIRTEEN + ones(11),
        (1 << 63) - 1,
        (1 << 63) | 37,
        (1 << 63) | 38,
        u64::MAX,
        word(b"abcdefghijkl"),
        word(b"trip_2"),
    ];
    for number in short.into_iter().chain(two_or_three_digits).chain(long) {
        cases.value(format!("word {number}"), 3, &number.to_le_bytes());
    }
    let digits: Vec<_> = (1..=37u64).map(|n| n.to_le_bytes().to_vec()).collect();
    cases.value("word of each digit", 4, &array(&digits));
    zero_digits(cases);
}

/// Digit 0 in each place that has a word.
fn zero_digits(cases: &mut Cases) {
    let words = [1u64, 38, 1].map(|word| word.to_le_bytes().to_vec());
    cases.value("digit 0 in an array of words", 4, &array(&words));
    cases.value("digit 0 in an id", 0x39, &named(&[1, 76]));
    let ids = [nameless(38), named(&[1, 38])];
    cases.value("digit 0 in an array of ids", 0x3a, &array(&ids));
    block_with_id(cases, "digit 0 in a block's id", &named(&[38]));
}

fn block_with_id(cases: &mut Cases, label: impl Into<String>, id: &[u8]) {
    let block = [[1, 0, 0, 0].as_slice(), id].concat();
    cases.records(label, &[prototype(1, b"p", &[]), block]);
}

const NAMELESS: [u64; 15] = [
    0,
    1,
    0xfff,
    0xffff,
    0x1_0000,
    0x1_0001,
    0xabc_0def,
    0xffff_ffff,
    0x1_0000_0000,
    0x1_0000_0000_0000,
    0x1_0000_0001_0000,
    0x0123_4567_89ab_cdef,
    0xffff_0000_0000_0000,
    1 << 63,
    u64::MAX,
];

const NAMED: [&[u64]; 9] = [
    &[],
    &[0],
    &[0, 0],
    &[1 << 63],
    &[37],
    &[11, 0],
    &[0, 11],
    &[11, 0, 12],
    &[THIRTEEN - 1, 1, 37, THIRTEEN - 1],
];

pub fn ids(cases: &mut Cases) {
    for number in NAMELESS {
        cases.value(format!("nameless {number:#x}"), 0x39, &nameless(number));
    }
    for words in NAMED {
        let id = named(words);
        cases.value(format!("id of words {words:x?}"), 0x3d, &id);
        block_with_id(cases, format!("block's id of words {words:x?}"), &id);
    }
    let many: Vec<u64> = (0..254).map(|i| i % 38).collect();
    cases.value("id of 254 words", 0x3b, &named(&many));
    for number in [0, 0x10_0000, u64::MAX] {
        let label = format!("block's id nameless {number:#x}");
        block_with_id(cases, label, &nameless(number));
    }
    let whole = one_value(0x39, &nameless(1));
    cases.cut("nameless id cut", &whole, 4);
    let whole = one_value(0x39, &named(&[1, 1]));
    cases.cut("id of words cut", &whole, 4);
}
