//! Strings, bad UTF-8 and enums.

use super::Cases;
use crate::bytes::*;

pub fn strings(cases: &mut Cases) {
    let edges = "\0\u{1f} !\"/09:@AZ[\\^_`az{~\u{7f}\u{80}\u{7ff}\u{800}\u{d7ff}\u{e000}\u{ffff}\u{10000}\u{10ffff}";
    for character in edges.chars() {
        let label = format!("string U+{:04X}", character as u32);
        cases.value(label, 1, &string(character.to_string().as_bytes()));
    }
    let texts = [
        "",
        "bare_9Z",
        "two words",
        "a.b",
        "tab\tline\nend",
        "x\"y\\z",
        "Æ",
        "a\0",
    ];
    for text in texts {
        let label = format!("string {text:?}");
        cases.value(label, 1, &string(text.as_bytes()));
    }
    let all: Vec<u8> = (0..128).collect();
    cases.value("string of all ASCII", 1, &string(&all));
    let whole = one_value(1, &[9, 0, 0, 0, b'a', b'b']);
    cases.cut("string longer than the file", &whole, 0);
}

/// Beyond each bound of the Unicode Standard's table 3-7.
const NOT_UTF8: [&[u8]; 20] = [
    &[0x80],
    &[0xbf],
    &[0xc0, 0x80],
    &[0xc1, 0xbf],
    &[0xc2],
    &[0xc2, 0x7f],
    &[0xdf, 0xc0],
    &[0xe0, 0x9f, 0xbf],
    &[0xe1, 0x80],
    &[0xe1, 0x7f, 0x80],
    &[0xed, 0xa0, 0x80],
    &[0xef, 0xbf, 0xc0],
    &[0xf0, 0x8f, 0xbf, 0xbf],
    &[0xf1, 0x80, 0x80],
    &[0xf3, 0x80, 0x80, 0x41],
    &[0xf4, 0x90, 0x80, 0x80],
    &[0xf4, 0x8f, 0xbf, 0x7f],
    &[0xf5, 0x80, 0x80, 0x80],
    &[0xfe],
    &[0xff],
];

pub fn not_utf8(cases: &mut Cases) {
    for bytes in NOT_UTF8 {
        cases.value(format!("not UTF-8 {bytes:x?}"), 1, &string(bytes));
    }
    let bad = b"ok\xff";
    let strings = array(&[string(b"ok"), string(bad)]);
    cases.value("not UTF-8 in an array", 2, &strings);
    let name = prototype(1, bad, &[]);
    cases.records("not UTF-8 in a prototype's name", &[name]);
    let field = prototype(1, b"p", &[definition(5, bad)]);
    cases.records("not UTF-8 in a field's name", &[field]);
    let list = prototype(1, b"p", &[choice(b"f", &[(0, b"ok"), (1, bad)])]);
    cases.records("not UTF-8 in an enum's list", &[list]);
}

pub fn enums(cases: &mut Cases) {
    for number in [0u32, 7, 9, 1, 8, u32::MAX] {
        cases.value(format!("enum {number}"), 0x37, &number.to_le_bytes());
    }
    let mut listed = |label: &str, pairs: &[(u32, &[u8])], value: u32| {
        let prototype = prototype(1, b"p", &[choice(b"f", pairs)]);
        cases.records(label, &[prototype, block(1, &value.to_le_bytes())]);
    };
    listed("enum without pairs", &[], 0);
    let twice: [(u32, &[u8]); 3] = [(1, b"first"), (2, b"x"), (1, b"last")];
    listed("enum, the last pair wins", &twice, 1);
    listed("enum, largest number", &[(u32::MAX, b"all ones")], u32::MAX);
    let escapes = b"\x01\xc3\xa9\x7f\"";
    listed("enum, string with escapes", &[(1, escapes)], 1);
    let mut two_fields = |label: &str, second: (u32, &[u8])| {
        let lists = [choice(b"e", &[(1, b"one")]), choice(b"f", &[second])];
        let block = block(1, &[1, 0, 0, 0, 1, 0, 0, 0]);
        cases.records(label, &[prototype(1, b"p", &lists), block]);
    };
    two_fields("two enums", (1, b"uno"));
    two_fields("enum of the other list", (2, b"two"));
}
