//! Values at the edges of document 01's rules.

use crate::Random;

pub const NAMES: [&str; 18] = [
    "",
    "a",
    "b",
    "km",
    "w",
    "trip",
    "x y",
    "a\nb",
    "\n",
    "}",
    "a[0]",
    "a: 1",
    "é",
    "\u{7f}",
    "\u{800}",
    "\u{10ffff}",
    "SiiNunit",
    "_",
];

const CHARACTERS: [char; 24] = [
    'a',
    'Z',
    '0',
    '9',
    '_',
    ' ',
    '!',
    '"',
    '\\',
    '\0',
    '\u{1f}',
    '\n',
    '@',
    '[',
    '`',
    '{',
    '~',
    '\u{7f}',
    '\u{80}',
    '\u{7ff}',
    '\u{800}',
    '\u{d7ff}',
    '\u{e000}',
    '\u{10000}',
];

const BAD_UTF8: [&[u8]; 16] = [
    &[0x80],
    &[0xc0, 0x80],
    &[0xc1, 0xbf],
    &[0xc2],
    &[0xc2, 0x7f],
    &[0xe0, 0x9f, 0xbf],
    &[0xe1, 0x80],
    &[0xed, 0xa0, 0x80],
    &[0xef, 0xbf, 0xc0],
    &[0xf0, 0x8f, 0xbf, 0xbf],
    &[0xf1, 0x80, 0x80],
    &[0xf4, 0x90, 0x80, 0x80],
    &[0xf4, 0x8f, 0xbf, 0x7f],
    &[0xf5, 0x80, 0x80, 0x80],
    &[0xfe],
    &[0xff],
];

const FLOATS: [u32; 40] = [
    0x0000_0000,
    0x8000_0000,
    0x0000_0001,
    0x8000_0001,
    0x007f_ffff,
    0x0080_0000,
    0x3f80_0000,
    0xbf80_0000,
    0x3f00_0000,
    0xbf00_0000,
    0x3fc0_0000,
    0x3f7f_ffff,
    0x4b18_9680,
    0x4b18_9681,
    0x4b18_967f,
    0xcb18_9680,
    0xcb18_9681,
    0x4aff_ffff,
    0x4b00_0000,
    0x4b00_0001,
    0x4b7f_ffff,
    0x4b80_0000,
    0x4f00_0000,
    0xcf00_0000,
    0x4eff_ffff,
    0xcf00_0001,
    0x5f00_0000,
    0x7f7f_ffff,
    0xff7f_ffff,
    0x7f80_0000,
    0xff80_0000,
    0x7fc0_0000,
    0xffc0_0000,
    0x7f80_0001,
    0xff80_0001,
    0x7fff_ffff,
    0xffff_ffff,
    0x4480_0000,
    0x4980_0000,
    0xc980_0000,
];

const EDGE_U64: [u64; 12] = [
    0,
    1,
    0xffff,
    0x1_0000,
    0x1_0001,
    0xffff_ffff,
    0x1_0000_0000,
    0x1_0000_0000_0000,
    0x7fff_ffff_ffff_ffff,
    0x8000_0000_0000_0000,
    u64::MAX - 1,
    u64::MAX,
];

/// 38^12 - 1, the largest accepted word.
const LARGEST_WORD: u64 = 9_065_737_908_494_995_455;

pub fn string(random: &mut Random) -> String {
    if random.chance(40) {
        return random.pick(&NAMES).to_string();
    }
    let bare = random.chance(30);
    let from = if bare { 5 } else { CHARACTERS.len() };
    let len = random.below(7);
    (0..len).map(|_| CHARACTERS[random.below(from)]).collect()
}

pub fn bad_utf8(random: &mut Random) -> Vec<u8> {
    let mut bytes = string(random).into_bytes();
    bytes.extend_from_slice(random.pick(&BAD_UTF8));
    if random.chance(50) {
        bytes.extend(string(random).bytes());
    }
    bytes
}

pub fn float(random: &mut Random) -> u32 {
    match random.below(10) {
        0..=4 => random.pick(&FLOATS),
        5 | 6 => (random.below(2001) as f32 - 1000.0).to_bits(),
        7 => (random.below(40_000_001) as f32 - 20_000_000.0).to_bits(),
        8 => ((random.below(20_001) as f32 - 10_000.0) / 16.0).to_bits(),
        _ => random.number() as u32,
    }
}

/// f1 or f3 of a placement: often close to where the sum with a multiple of 512 ties.
pub fn coordinate(random: &mut Random) -> u32 {
    match random.below(8) {
        0 | 1 => {
            let odd = (2 * random.below(64) + 1) as f32;
            let tie = odd / (1u32 << random.below(16)) as f32;
            let close = tie.to_bits() + random.below(3) as u32 - 1;
            close | (random.below(2) as u32) << 31
        }
        2 => (512.0 * (random.below(4096) as f32 - 2048.0)).to_bits(),
        3 => [0, 0x8000_0000, 1, 0x8000_0001][random.below(4)],
        _ => float(random),
    }
}

/// f4 of a placement.
pub fn sector(random: &mut Random) -> u32 {
    let part = |random: &mut Random| match random.below(3) {
        0 => random.pick(&[0, 1, 2047, 2048, 2049, 4095]),
        _ => random.below(4096),
    };
    match random.below(8) {
        0..=3 => ((part(random) + 4096 * part(random)) as f32).to_bits(),
        4 => (-(part(random) as f32) - 0.5).to_bits(),
        5 => (-((part(random) + 4096 * part(random)) as f32)).to_bits(),
        6 => random
            .pick(&[8_390_656f32, -1.5, -0.5, 0.999, -1.0, -4096.0, -4096.5])
            .to_bits(),
        _ => float(random),
    }
}

/// An accepted word.
pub fn word(random: &mut Random) -> u64 {
    let word = match random.below(8) {
        0 => 0,
        1 => random.pick(&[1, 10, 11, 36, 37, 39, 75, 38 * 37 + 1, LARGEST_WORD]),
        2 => word_of(random, 12),
        _ => {
            let len = random.below(12);
            word_of(random, len)
        }
    };
    word | (random.below(4) as u64 / 3) << 63
}

fn word_of(random: &mut Random, len: usize) -> u64 {
    (0..len).fold(0, |word, _| word * 38 + 1 + random.below(37) as u64)
}

/// A word whose digits may hold a zero.
pub fn any_word(random: &mut Random) -> u64 {
    match random.below(4) {
        0 => random.pick(&[
            38,
            76,
            38 * 38,
            38 * 38 + 1,
            LARGEST_WORD + 1,
            (1 << 63) | 38,
        ]),
        1 => random.pick(&EDGE_U64),
        2 => random.number(),
        _ => word_of(random, 4) * 38,
    }
}

pub fn unsigned(random: &mut Random) -> u64 {
    match random.below(4) {
        0 | 1 => random.pick(&EDGE_U64),
        2 => random.below(1000) as u64,
        _ => random.number() >> random.below(64),
    }
}
