//! The Rust's `todo!` of 0x0a and 0x17 is right exactly where the reading comes to such a value, and its
//! UnsupportedVersion exactly in a file of version 1.

use differential::report::{Check, Tally};
use differential::stand_in::StandIn;
use generate::bytes::*;
use model::Model;
use oracle::DataValue;

/// A file, with what is read of another one in place of what is read of it.
fn stops(file: &[u8], read: &[u8]) -> Check {
    let mut model = Model::default();
    let stand_in = StandIn::new(file, model.in_front_of_fault(read));
    let parsed = stand_in.parse();
    stand_in.stops(&parsed, &mut Tally::default())
}

/// A value of these bytes is whole by 0x0a, by 0x12 and by 0x17.
const VALUE: [u8; 16] = *b"\x01\0\0\0abcdefghijkl";

#[test]
fn where_the_reading_comes_to_one() {
    for type_id in [0x0a, 0x17] {
        let carried = one_value(type_id, &VALUE);
        assert!(stops(&carried, &carried).is_ok());
        // Without a byte of the value, and in it.
        for kept in 40..carried.len() {
            let cut = &carried[..kept];
            assert!(stops(cut, cut).is_ok(), "{type_id:#x}, {kept} bytes");
        }
    }
}

#[test]
fn not_where_the_reading_comes_to_none() {
    let nothing = file(&[]);
    for type_id in [0x0a, 0x17] {
        assert!(stops(&one_value(type_id, &VALUE), &nothing).is_err());
    }
    // Other types, and bytes that run out.
    for type_id in [0x08, 0x12, 0x16] {
        assert!(stops(&one_value(type_id, &VALUE), &nothing).is_ok());
    }
}

#[test]
fn not_past_a_value_that_the_reading_comes_to() {
    for type_id in [0x0a, 0x17] {
        let carried = one_value(type_id, &VALUE);
        for other in [0x0a, 0x12, 0x16, 0x17]
            .into_iter()
            .filter(|o| *o != type_id)
        {
            assert!(stops(&one_value(other, &VALUE), &carried).is_err());
        }
    }
}

#[test]
fn not_at_another_value() {
    let two = |types: [u32; 2]| {
        let fields = types.map(|type_id| definition(type_id, b"f"));
        file(&[prototype(1, b"p", &fields), block(1, &[0; 8])])
    };
    let [first, second] = [two([0x0a, 0x27]), two([0x27, 0x0a])];
    assert!(stops(&first, &first).is_ok() && stops(&second, &second).is_ok());
    assert!(stops(&first, &second).is_err() && stops(&second, &first).is_err());
}

#[test]
fn in_version_1() {
    let whole = worked_version_1();
    for kept in 0..=whole.len() {
        let cut = &whole[..kept];
        assert!(stops(cut, cut).is_ok(), "{kept} bytes");
    }
    // The types that the Rust has no row for are read in version 1 too.
    for type_id in [0x0a, 0x17] {
        let fields = [definition(type_id, b"f")];
        let carried = file_of(1, &[prototype(1, b"p", &fields), block(1, &VALUE)]);
        assert!(stops(&carried, &carried).is_ok());
    }
}

#[test]
fn in_no_other_version() {
    let of = |version: u32| file_of(version, &[]);
    for version in [0, 2, 3, 257, 0x0100_0001, u32::MAX] {
        let other = of(version);
        assert!(stops(&other, &other).is_ok());
        assert!(stops(&of(1), &other).is_err());
        assert!(stops(&other, &of(1)).is_err());
    }
}

/// Where each float stands in what the Rust reads: the fourth is put in, also in one of several, and in
/// one that runs out behind its third.
#[test]
fn floats_of_version_1() {
    let seven = |from: u32| floats(&[0, 1, 2, 3, 4, 5, 6].map(|i| from + i));
    let fields = [definition(0x1a, b"a"), definition(0x01, b"s")];
    let values = [array(&[seven(10), seven(20)]), string(b"behind")].concat();
    let whole = file_of(1, &[prototype(1, b"p", &fields), block(1, &values)]);
    let stand_in = StandIn::of(&whole);
    let read = stand_in.parse().unwrap();
    let [DataValue::FloatVec8Array(all), DataValue::String(text)] = &read.data_blocks[0].data[..]
    else {
        panic!("{:?}", read.data_blocks[0].data);
    };
    for (at, p) in [10, 20].into_iter().zip(all) {
        let bits = [p.0, p.1, p.2, p.4, p.5, p.6, p.7].map(f32::to_bits);
        assert_eq!(bits, [0, 1, 2, 3, 4, 5, 6].map(|i| at + i));
        assert_eq!(p.3, 8_390_656.0);
    }
    let at = whole.len() - 5 - text.len();
    assert_eq!(stand_in.place(text), (at as u64, 6));
    assert_eq!(stand_in.up_to(whole.len()).unwrap().len(), whole.len() + 8);
}

#[test]
fn sums_that_are_open() {
    let open = |version: u32, f1: f32, f3: f32| {
        let mut bits = [f1, -0.0, f3, 1.0, 1.0, 1.0, 1.0, f32::NAN].map(f32::to_bits);
        bits[3] = 0x7fc0_0000;
        let count = if version == 1 { 7 } else { 8 };
        let fields = [definition(0x19, b"f")];
        let block = block(1, &floats(&bits[..count]));
        let file = file_of(version, &[prototype(1, b"p", &fields), block]);
        let stand_in = StandIn::of(&file);
        let read = stand_in.parse().unwrap();
        stand_in.has_open_sums(&read)
    };
    for version in [1, 2] {
        assert!(!open(version, 0.0, f32::INFINITY));
        assert!(open(version, f32::NAN, 0.0) && open(version, 0.0, f32::NAN));
    }
    assert!(open(1, -0.0, 0.0) && open(1, 0.0, -0.0));
    assert!(!open(2, -0.0, -0.0));
}
