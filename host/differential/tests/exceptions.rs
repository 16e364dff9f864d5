//! Exceptions are counted, and met on the inputs that docs/DIFFERENCES.md shows.

use calls::LENGTH_LIMIT;
use differential::compare::Comparison;
use differential::report::Tally;
use generate::bytes::*;
use generate::Random;

/// The summary's line of exceptions after one file, which shows no difference.
fn exceptions(file: &[u8]) -> String {
    let mut tally = Tally::default();
    let mut random = Random::new(1, 0);
    Comparison::default()
        .whole(file, &mut random, &mut tally)
        .unwrap();
    let summary = tally.summary();
    let line = summary.lines().find(|line| line.starts_with("exceptions"));
    line.unwrap().to_string()
}

#[test]
fn nan_of_an_element() {
    let float = |bits: u32| one_value(0x05, &bits.to_le_bytes());
    assert_eq!(
        exceptions(&float(0xff80_0001)),
        "exceptions  element-nan: 1"
    );
    assert_eq!(exceptions(&float(0x7fc0_0000)), "exceptions  none");
    assert_eq!(exceptions(&float(0xff80_0000)), "exceptions  none");
}

const NONE: &str = "exceptions  none";
const ONE: &str = "exceptions  todo-type: 1";

/// A file of prototype 1 with these types, a block with these values, and what follows.
fn fields(types: &[u32], values: &[u8], rest: &[Vec<u8>]) -> Vec<u8> {
    let names = [b"a", b"b", b"c"];
    let fields = types.iter().zip(names);
    let fields: Vec<_> = fields
        .map(|(type_id, name)| definition(*type_id, name))
        .collect();
    let records = [prototype(1, b"p", &fields), block(1, values)];
    file(&[&records, rest].concat())
}

#[test]
fn todo_of_a_carried_type() {
    let four = floats(&[0x3f80_0000, 0, 0, 0x8000_0000]);
    let three = floats(&[0x3f00_0000, 0x3f80_0000, 0xc000_0000]);
    for count in 0..3 {
        let value = array(&vec![three.clone(); count]);
        assert_eq!(exceptions(&one_value(0x0a, &value)), ONE);
    }
    assert_eq!(exceptions(&one_value(0x17, &four)), ONE);
    // Counted once for a file; strings and names behind the values stand where they stood.
    let values = [&four[..], &array(&[three]), &string(b"after")].concat();
    let rest = [block(1, &values), prototype(7, b"behind", &[])];
    assert_eq!(
        exceptions(&fields(&[0x17, 0x0a, 0x01], &values, &rest)),
        ONE
    );
    // A NaN is an exception of its own.
    let nan = one_value(0x17, &floats(&[0xffc0_0000, 0, 0, 0x7f80_0001]));
    assert_eq!(exceptions(&nan), "exceptions  element-nan: 1, todo-type: 1");
}

#[test]
fn todo_and_a_fault() {
    let whole = one_value(0x17, &[0; 16]);
    for kept in 0..whole.len() {
        let expected = if kept < 40 { NONE } else { ONE };
        assert_eq!(exceptions(&whole[..kept]), expected, "{kept} bytes");
    }
    let value = [&[0; 16][..], &string(b"\xff")].concat();
    assert_eq!(exceptions(&fields(&[0x17, 0x01], &value, &[])), ONE);
    assert_eq!(
        exceptions(&fields(&[0x01, 0x17], &string(b"\xff"), &[])),
        NONE
    );
    // An unlisted type in front and behind.
    assert_eq!(exceptions(&fields(&[0x16, 0x17], &[0; 16], &[])), NONE);
    assert_eq!(exceptions(&fields(&[0x17, 0x16], &[0; 16], &[])), ONE);
    // A block without a prototype in front and behind.
    let undefined = block(9, &[]);
    let prototype = prototype(1, b"p", &[definition(0x0a, b"f")]);
    let carried = block(1, &[0; 4]);
    let front = [prototype.clone(), undefined.clone(), carried.clone()];
    assert_eq!(exceptions(&file(&front)), NONE);
    assert_eq!(exceptions(&file(&[prototype, carried, undefined])), ONE);
}

#[test]
fn todo_by_the_type_in_force() {
    let of = |type_id: u32| prototype(1, b"p", &[definition(type_id, b"f")]);
    let unused = [of(0x17), prototype(2, b"q", &[]), block(2, &[])];
    assert_eq!(exceptions(&file(&unused)), NONE);
    let replaced = [of(0x17), of(0x27), block(1, &[0; 4])];
    assert_eq!(exceptions(&file(&replaced)), NONE);
    let in_force = [of(0x17), block(1, &[0; 16]), of(0x27), block(1, &[0; 4])];
    assert_eq!(exceptions(&file(&in_force)), ONE);
    let at_last = [of(0x27), block(1, &[0; 4]), of(0x0a), block(1, &[0; 4])];
    assert_eq!(exceptions(&file(&at_last)), ONE);
    let without = prototype(1, b"p", &[]);
    assert_eq!(
        exceptions(&file(&[of(0x0a), block(1, &[0; 4]), without])),
        ONE
    );
}

#[test]
fn todo_in_a_file_above_the_limit() {
    let mut file = one_value(0x17, &[0; 16]);
    file.resize(LENGTH_LIMIT, 0);
    assert_eq!(exceptions(&file), ONE);
    file.push(0);
    assert_eq!(exceptions(&file), "exceptions  length-limit: 1");
}

#[test]
fn version_1() {
    const VERSION: &str = "exceptions  version-1: 1";
    let whole = worked_version_1();
    let all = "exceptions  element-nan: 1, version-1: 1, version-1-sum: 1";
    assert_eq!(exceptions(&whole), all);
    for kept in 0..whole.len() {
        let expected = if kept < 8 { NONE } else { VERSION };
        assert_eq!(exceptions(&whole[..kept]), expected, "{kept} bytes");
    }
    for version in [0, 2, 3, 257, 0x0100_0001, u32::MAX] {
        assert_eq!(exceptions(&file_of(version, &[])), NONE);
    }
    assert_eq!(exceptions(b"bSII\x01\0\0\0"), NONE);
    assert_eq!(exceptions(&file_of(1, &[])), VERSION);
    // Sums that the Rust makes as in version 1, and a type that it has no row for.
    let fields = [definition(0x1a, b"a"), definition(0x17, b"r")];
    let floats = |floats: [f32; 7]| floats.map(f32::to_le_bytes).concat();
    let placements = [
        floats([1.0, -0.0, 0.5, -1.5, 0.0, -0.0, 1e7]),
        floats([0.0, 1.0, f32::INFINITY, 4096.0, 2.0, 3.0, 4.0]),
    ];
    let values = [array(&placements), vec![0; 16]].concat();
    let records = [prototype(1, b"p", &fields), block(1, &values)];
    assert_eq!(exceptions(&file_of(1, &records)), VERSION);
    let mut long = whole;
    long.resize(LENGTH_LIMIT + 1, 0);
    assert_eq!(exceptions(&long), "exceptions  length-limit: 1");
}
