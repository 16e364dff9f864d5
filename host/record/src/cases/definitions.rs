//! Prototypes defined again, undefined ones, unlisted types, names.

use super::Cases;
use crate::bytes::*;

const FIVE: [u8; 4] = [5, 0, 0, 0];
const TWO: [u8; 4] = [2, 0, 0, 0];

fn u32_field(name: &[u8]) -> Vec<u8> {
    definition(0x27, name)
}

/// Prototype 1 with one u32.
fn one_u32() -> Vec<u8> {
    prototype(1, b"p", &[u32_field(b"old")])
}

/// Prototype 1 with one enum.
fn one_enum(pairs: &[(u32, &[u8])]) -> Vec<u8> {
    prototype(1, b"e", &[choice(b"f", pairs)])
}

pub fn redefinitions(cases: &mut Cases) {
    renamed(cases);
    other_numbers_of_fields(cases);
    other_types(cases);
    other_enum_lists(cases);
    order_of_8_and_9(cases);
}

fn renamed(cases: &mut Cases) {
    let new = prototype(1, b"q", &[u32_field(b"new")]);
    let both = [one_u32(), block(1, &FIVE), new.clone(), block(1, &TWO)];
    cases.records("earlier blocks under the last definition", &both);
    let no_block = [one_u32(), new.clone()];
    cases.records("defined again without blocks", &no_block);
    let later = [one_u32(), new, block(1, &TWO)];
    cases.records("defined again, then a block", &later);
}

fn other_numbers_of_fields(cases: &mut Cases) {
    let none = prototype(1, b"q", &[]);
    let more = prototype(1, b"q", &[u32_field(b"a"), u32_field(b"b")]);
    let fewer_last = [one_u32(), block(1, &FIVE), none.clone()];
    cases.records("last definition with fewer fields", &fewer_last);
    let more_last = [one_u32(), block(1, &FIVE), more];
    cases.records("last definition with more fields", &more_last);
    let block_last = [one_u32(), none, block(1, b"")];
    cases.records("fewer fields, and the block after it", &block_last);
}

fn other_types(cases: &mut Cases) {
    let old = [one_u32(), block(1, &FIVE)];
    let mut then = |label: &str, records: &[Vec<u8>]| {
        cases.records(label, &[old.as_slice(), records].concat());
    };
    let float = prototype(1, b"q", &[definition(0x06, b"w")]);
    let again = [float.clone()];
    then("last definition of another type", &again);
    let floats = block(1, &array(&[TWO.to_vec()]));
    then("types in force differ", &[float, floats]);
    let unlisted = prototype(1, b"q", &[definition(0x08, b"u")]);
    then("last definition of an unlisted type", &[unlisted]);
}

fn other_enum_lists(cases: &mut Cases) {
    let five = || one_enum(&[(5, b"five")]);
    let mut around = |label: &str, first: Vec<u8>, last: Vec<u8>| {
        cases.records(label, &[first, block(1, &FIVE), last]);
    };
    let cinq = one_enum(&[(5, b"cinq")]);
    around("enum with another list later", five(), cinq);
    let two = one_enum(&[(2, b"two")]);
    around("enum whose number is gone later", five(), two);
    let none = one_enum(&[]);
    around("enum that comes into its list later", none, five());
    let label = "enum whose last definition has no list";
    around(label, five(), one_u32());
    let label = "number whose last definition is an enum";
    around(label, one_u32(), five());
}

/// In text order.
fn order_of_8_and_9(cases: &mut Cases) {
    let five = || one_enum(&[(5, b"five")]);
    let nine = [five(), block(1, &TWO)];
    let x = prototype(2, b"r", &[u32_field(b"x")]);
    let eight = [x, block(2, &FIVE), prototype(2, b"r", &[])];
    cases.records("9 in front of 8", &[nine.as_slice(), &eight].concat());
    cases.records("8 in front of 9", &[eight.as_slice(), &nine].concat());
    let both = prototype(1, b"e", &[choice(b"f", &[]), u32_field(b"g")]);
    cases.records("8 and 9 in one block", &[five(), block(1, &FIVE), both]);
}

pub fn undefined_prototypes(cases: &mut Cases) {
    let one = prototype(1, b"p", &[]);
    cases.records("undefined prototype first", &[block(5, b"")]);
    let behind = [one.clone(), block(1, b""), block(2, b"")];
    cases.records("undefined prototype behind others", &behind);
    let later = [one.clone(), block(2, b""), prototype(2, b"q", &[])];
    cases.records("undefined prototype, defined later", &later);
    let whole = file(&[one, TWO.to_vec()]);
    cases.cut("undefined prototype at the end", &whole, 0);
}

const UNLISTED: [u32; 11] = [
    0x08, 0x0b, 0x16, 0x1b, 0x24, 0x2a, 0x30, 0x38, 0x3e, 0x101, 0x1000005,
];

pub fn unlisted_types(cases: &mut Cases) {
    for type_id in UNLISTED {
        cases.value(format!("type {type_id:#x} carried"), type_id, b"");
    }
    let whole = one_value(u32::MAX, b"");
    cases.cut("unlisted carried, and no more bytes", &whole, 0);
    let defined = prototype(1, b"p", &[definition(8, b"f")]);
    cases.records("unlisted defined only", &[defined]);
    let fields = [u32_field(b"a"), definition(8, b"b"), definition(1, b"c")];
    let unlisted = prototype(1, b"p", &fields);
    let behind = [unlisted.clone(), block(1, &[1; 4])];
    cases.records("unlisted behind a value", &behind);
    let whole = file(&[unlisted, block(1, &[1; 3])]);
    cases.cut("unlisted behind a cut value", &whole, 0);
}

const NAMES: [&str; 7] = ["", "a b", "a\nb", "}", "\"", "é\u{10ffff}", "\0\x7f"];

pub fn names(cases: &mut Cases) {
    let field = |name: &[u8]| definition(0x35, name);
    for name in NAMES {
        let bytes = name.as_bytes();
        let records = [prototype(1, bytes, &[field(bytes)]), block(1, b"\x01")];
        cases.records(format!("names {name:?}"), &records);
    }
    let twice = prototype(1, b"p", &[field(b"f"), field(b"f")]);
    cases.records("two fields of one name", &[twice, block(1, &[0, 1])]);
    prototypes_of_one_name(cases);
    let letter = |id: u32| [b'a' + id as u8 % 26];
    let many = (1..=60).map(|id| prototype(id, &letter(id), &[]));
    let blocks = (1..=60).rev().map(|id| block(id, b""));
    let records: Vec<_> = many.chain(blocks).collect();
    cases.records("sixty prototypes", &records);
}

fn prototypes_of_one_name(cases: &mut Cases) {
    let mut records = vec![
        prototype(1, b"p", &[]),
        prototype(2, b"q", &[]),
        prototype(3, b"p", &[]),
    ];
    records.extend([1, 2, 3, 2, 1, 3, 3].map(|id| block(id, b"")));
    cases.records("two prototypes of one name", &records);
    records.push(prototype(2, b"p", &[]));
    cases.records("three prototypes of one name in the end", &records);
    records.push(prototype(1, b"p2", &[]));
    cases.records("a name that is the start of another", &records);
}
