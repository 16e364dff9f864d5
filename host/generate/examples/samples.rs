//! Writes a sample save to standard output:
//!
//!     cargo run --offline -q -p generate --example samples -- garage > ../samples/garage.bsii
//!     cargo run --offline -q -p generate --example samples -- depot > ../samples/depot.bsii
//!
//! Nothing in them comes from a game: the names and values are made up, so that a small save shows
//! each of the 34 listed types once in its first block, an enum, both kinds of ids, a prototype
//! that is used twice and one that is not used at all; and a smaller one, of version 1, what differs
//! there: a placement, an array of them, and a field behind them.

use generate::bytes::*;
use std::io::Write;

fn words(texts: &[&str]) -> Vec<u64> {
    texts.iter().map(|text| word(text.as_bytes())).collect()
}

/// A named id, given with its dots.
fn id(text: &str) -> Vec<u8> {
    named(&words(&text.split('.').collect::<Vec<_>>()))
}

fn word_bytes(text: &str) -> Vec<u8> {
    word(text.as_bytes()).to_le_bytes().to_vec()
}

fn singles(numbers: &[f32]) -> Vec<u8> {
    floats(&numbers.iter().map(|f| f.to_bits()).collect::<Vec<_>>())
}

fn whole(numbers: &[i32]) -> Vec<u8> {
    numbers.iter().flat_map(|i| i.to_le_bytes()).collect()
}

/// The block of a prototype under an id.
fn unit(prototype: u32, id: Vec<u8>, values: &[Vec<u8>]) -> Vec<u8> {
    [prototype.to_le_bytes().to_vec(), id, values.concat()].concat()
}

/// The garage's fields: type, name, value.
fn garage_fields() -> Vec<(u32, &'static str, Vec<u8>)> {
    // The fourth number of a placement is its sector: 2048 in both directions is the middle.
    let middle = 2048.0 * 4096.0 + 2048.0;
    let spot = |x, z, sector| singles(&[x, 0.5, z, sector, 1.0, 0.0, 0.0, -0.0]);
    vec![
        (0x01, "label", string("Köhler & Söhne".as_bytes())),
        (
            0x02,
            "remarks",
            array(&[string(b""), string(b"open_24h"), string(b"mind the gap")]),
        ),
        (0x03, "city", word_bytes("dresden")),
        (
            0x04,
            "tags",
            array(&[word_bytes("large"), word_bytes(""), word_bytes("no_2")]),
        ),
        (0x05, "rating", singles(&[4.75])),
        (
            0x06,
            "prices",
            array(&[
                singles(&[180000.0]),
                singles(&[-0.0]),
                singles(&[10000001.0]),
                singles(&[f32::INFINITY]),
            ]),
        ),
        (0x07, "gate", singles(&[3.0, 4.5])),
        (0x09, "camera", singles(&[1.0, -2.0, 0.125])),
        (
            0x0a,
            "waypoints",
            array(&[singles(&[0.0, -0.0, 12.0]), singles(&[3.5, 0.0, -7.0])]),
        ),
        (0x11, "sector", whole(&[12, -7, 0])),
        (
            0x12,
            "sectors",
            array(&[whole(&[1, 2, 3]), whole(&[i32::MIN, 0, i32::MAX])]),
        ),
        (0x17, "rotation", singles(&[0.5, 0.0, -1.0, -0.0])),
        (0x18, "turns", array(&[singles(&[1.0, 0.0, 0.5, -1.0])])),
        (0x19, "spot", spot(1.0, 1.0, middle)),
        (
            0x1a,
            "spots",
            array(&[spot(1.0, 1.0, -1.5), spot(0.09375, 20.0, 0.0)]),
        ),
        (0x25, "balance", whole(&[-150000])),
        (0x26, "ledger", array(&[whole(&[2500]), whole(&[-1])])),
        (0x27, "slots", 5u32.to_le_bytes().to_vec()),
        (
            0x28,
            "loads",
            array(&[0u32.to_le_bytes().to_vec(), u32::MAX.to_le_bytes().to_vec()]),
        ),
        (0x2b, "level", u16::MAX.to_le_bytes().to_vec()),
        (
            0x2c,
            "days",
            array(&[7u16.to_le_bytes().to_vec(), 365u16.to_le_bytes().to_vec()]),
        ),
        (0x2f, "edition", 2u32.to_le_bytes().to_vec()),
        (0x31, "profit", (-9_000_000_000i64).to_le_bytes().to_vec()),
        (0x32, "history", array(&[i64::MIN.to_le_bytes().to_vec()])),
        (0x33, "serial", 12_345_678_901_234u64.to_le_bytes().to_vec()),
        (0x34, "keys", array(&[u64::MAX.to_le_bytes().to_vec()])),
        (0x35, "open", vec![1]),
        (0x36, "lights", array(&[vec![0], vec![1], vec![2]])),
        (0x37, "state", 3u32.to_le_bytes().to_vec()),
        (0x39, "owner", id("player")),
        (
            0x3a,
            "trucks",
            array(&[nameless(0x1_2b40_f8a0), nameless(0)]),
        ),
        (0x3b, "depot", named(&[])),
        (
            0x3c,
            "drivers",
            array(&[id("driver.anna"), id("driver.b_2")]),
        ),
        (0x3d, "parent", id("company.west")),
    ]
}

fn garage() -> Vec<u8> {
    let states: [(u32, &[u8]); 3] = [(0, b"sold"), (3, b"in use"), (5, b"closed")];
    let (mut definitions, mut values) = (Vec::new(), Vec::new());
    for (type_id, name, value) in garage_fields() {
        definitions.push(match type_id {
            0x37 => choice(name.as_bytes(), &states),
            _ => definition(type_id, name.as_bytes()),
        });
        values.push(value);
    }
    let truck = [definition(0x01, b"plate"), definition(0x27, b"km")];
    let truck_of = |plate: &[u8], km: u32| [string(plate), km.to_le_bytes().to_vec()];
    file(&[
        prototype(1, b"garage", &definitions),
        prototype(2, b"truck", &truck),
        unit(1, id("garage.dresden"), &values),
        unit(2, nameless(0x1_2b40_f8a0), &truck_of(b"DD_KS_12", 81_250)),
        prototype(3, b"trailer", &[]),
        unit(2, nameless(0), &truck_of(b"DD KS 13", u32::MAX)),
    ])
}

fn depot() -> Vec<u8> {
    let fields = [
        definition(0x01, b"label"),
        definition(0x19, b"gate"),
        definition(0x1a, b"bays"),
        definition(0x27, b"slots"),
    ];
    let values = [
        string(b"Dresden Nord"),
        singles(&[-18344.0, 0.5, 2048.0, 1.0, 0.0, -0.0, 0.25]),
        array(&[
            singles(&[1.0, -0.0, 3.5, -1.0, 0.0, 0.0, 0.0]),
            singles(&[10000001.0, 0.0, 20.0, 8390656.0, 0.0, 1.0, 0.0]),
        ]),
        2u32.to_le_bytes().to_vec(),
    ];
    let depot = prototype(1, b"depot", &fields);
    file_of(1, &[depot, unit(1, id("depot.nord"), &values)])
}

fn main() {
    let save = match std::env::args().nth(1).as_deref() {
        Some("garage") => garage(),
        Some("depot") => depot(),
        _ => {
            eprintln!("which sample? garage or depot");
            std::process::exit(2);
        }
    };
    std::io::stdout().write_all(&save).unwrap();
}
