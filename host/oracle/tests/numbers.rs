//! The smallest inputs for each class and panic of the Rust, and the reply number each maps to.

use oracle::{parse, to_siin, Fault};

/// Prototype 1 without a name, up to its definitions.
const START: &[u8] = b"BSII\x02\0\0\0\0\0\0\0\x01\x01\0\0\0\0\0\0\0";
/// The zero after the definitions, and a block of prototype 1 up to its id.
const BLOCK: &[u8] = b"\0\0\0\0\x01\0\0\0";

fn reading(parts: &[&[u8]]) -> Fault {
    parse(&parts.concat()).err().expect("a refusal")
}

fn text(parts: &[&[u8]]) -> Fault {
    let file = parts.concat();
    match parse(&file) {
        Ok(parsed) => to_siin(&parsed).expect_err("a panic"),
        Err(fault) => panic!("refused: {fault:?}"),
    }
}

#[test]
fn classes() {
    assert_eq!(reading(&[b""]), Fault::Number(1));
    assert_eq!(reading(&[b"BSII\x01\0\0\0"]), Fault::Version);
    assert_eq!(Fault::Version.number(), None);
    for len in 4..8 {
        assert_eq!(reading(&[&b"BSII\x02\0\0\0"[..len]]), Fault::Number(3));
    }
    assert_eq!(reading(&[b"BSII\0\0\0\0\0\0\0\0\x02"]), Fault::Number(3));
}

#[test]
fn panics_of_the_reader() {
    let name = b"BSII\x02\0\0\0\0\0\0\0\x01\x01\0\0\0\x01\0\0\0\x80";
    assert_eq!(reading(&[name]), Fault::Number(4));
    let word = b"\x01\x26\0\0\0\0\0\0\0";
    assert_eq!(reading(&[START, BLOCK, word]), Fault::Number(5));
    assert_eq!(reading(&[b"BSII\x02\0\0\0\x01\0\0\0"]), Fault::Number(6));
    for type_id in [0x08, 0x0a, 0x17, 0x100, u32::MAX] {
        let todo = [type_id.to_le_bytes(), [0; 4]].concat();
        let found = reading(&[START, &todo, BLOCK, b"\0"]);
        assert_eq!(found, Fault::Todo(type_id));
        assert_eq!(found.number(), Some(7));
    }
}

#[test]
fn panics_of_the_writer() {
    let boolean = b"\x35\0\0\0\0\0\0\0";
    let end = b"\0\0\0\0\0";
    let again = [&START[8..], boolean, b"\0\0\0\0"].concat();
    assert_eq!(text(&[START, BLOCK, b"\0", &again, end]), Fault::Number(8));
    let list = b"\x37\0\0\0\0\0\0\0\0\0\0\0";
    let value = b"\0\0\0\0\0";
    assert_eq!(text(&[START, list, BLOCK, value, end]), Fault::Number(9));
    // In force an enum, in the last definition none.
    let without = [&START[8..], boolean, b"\0\0\0\0"].concat();
    assert_eq!(
        text(&[START, list, BLOCK, value, &without, end]),
        Fault::Number(9)
    );
}

/// An enum list of 2^32 - 1 pairs and no byte of them.
#[test]
fn huge_count() {
    let before = oracle::huge_requests();
    let list = b"\x37\0\0\0\0\0\0\0\xff\xff\xff\xff";
    assert_eq!(reading(&[START, list]), Fault::Number(3));
    assert!(oracle::huge_requests() > before);
}

/// Document 01 refuses this length with 12.
#[test]
fn no_length_limit() {
    let mut file = b"BSII\x02\0\0\0\0\0\0\0\0".to_vec();
    file.resize(16_777_217, 0xa5);
    assert!(parse(&file).is_ok());
}
