//! What is made about indexes: the right one of a save, and wrong ones of every kind.

use generate::index::{changed, changed_file, hostile, inside_a_string, record, RECORD};
use generate::save::{Block, Definition, Prototype, Record, Save, Value};
use generate::Random;

fn prototype(id: u32, fields: &[&str]) -> Record {
    let field = |name: &&str| Definition {
        type_id: 0x2b,
        name: name.as_bytes().to_vec(),
        list: Vec::new(),
        inserted: false,
    };
    Record::Prototype(Prototype {
        id,
        name: b"t".to_vec(),
        fields: fields.iter().map(field).collect(),
        inserted: false,
    })
}

fn block(prototype: u32, id: &[u8], values: &[[u8; 2]]) -> Record {
    let value = |bytes: &[u8; 2]| Value {
        bytes: bytes.to_vec(),
        inserted: false,
    };
    Record::Block(Block {
        prototype,
        id: id.to_vec(),
        values: values.iter().map(value).collect(),
        inserted: false,
    })
}

/// A u16 in two blocks, and a prototype without fields, whose block is its id.
#[test]
fn the_index_of_a_save() {
    let word = [1, 0x22, 0, 0, 0, 0, 0, 0, 0];
    let mut save = Save {
        version: 2,
        records: vec![
            prototype(3, &["n"]),
            block(3, &[0], &[[5, 0]]),
            block(3, &word, &[[7, 0]]),
        ],
        rest: b"rest".to_vec(),
    };
    let both = [record([35, 7, 8, 1]), record([42, 15, 8, 1])].concat();
    assert_eq!(both.len(), 2 * RECORD);
    assert_eq!(both[..3], [35, 0, 0]);
    assert_eq!(save.index(), both);
    save.records
        .extend([prototype(4, &[]), block(4, &[0], &[])]);
    assert_eq!(save.index()[24..], record([75, 5, 57, 0]));
    let empty = Save {
        version: 1,
        records: vec![prototype(3, &[])],
        rest: Vec::new(),
    };
    assert_eq!(empty.index(), b"");
}

#[test]
fn three_bytes_of_each_number() {
    let made = record([0x01_02_03, 0xff_ff_ff, 0x0100_0000, 256]);
    assert_eq!(made, [3, 2, 1, 0xff, 0xff, 0xff, 0, 0, 0, 0, 1, 0]);
}

/// Three records that differ in each byte.
fn index() -> Vec<u8> {
    (1..=3 * RECORD as u8).collect()
}

#[test]
fn every_kind_of_changed_index() {
    let (right, mut random) = (index(), Random::new(1, 1));
    let made: Vec<_> = (0..2000).map(|_| changed(&mut random, &right)).collect();
    let some = |is_one: &dyn Fn(&[u8]) -> bool| made.iter().any(|index| is_one(index));
    let differ = |index: &[u8]| index.iter().zip(&right).filter(|(a, b)| a != b).count();
    for len in 0..right.len() {
        assert!(some(&|index| index == &right[..len]), "cut at {len}");
    }
    for at in 0..right.len() {
        let at_one = |index: &[u8]| index[at] != right[at] && differ(index) == 1;
        assert!(
            some(&|index| index.len() == right.len() && at_one(index)),
            "{at}"
        );
    }
    for more in [1, 11, 12, 13, 24] {
        let len = right.len() + more;
        assert!(
            some(&|index| index.len() == len && index.starts_with(&right)),
            "{more}"
        );
    }
    let [first, second, third] = [0, 1, 2].map(|k| &right[k * RECORD..(k + 1) * RECORD]);
    assert!(some(&|index| index == [second, first, third].concat()));
    assert!(some(&|index| index == [third, second, first].concat()));
    assert!(some(&|index| index == [first, third].concat()));
    assert!(some(
        &|index| index == [first, second, third, third].concat()
    ));
    assert!(some(&|index| !index.is_empty()
        && index[0] != right[0]
        && differ(index) > 3));
    // None of an empty one panics, and some of them have bytes.
    let empty: Vec<_> = (0..200).map(|_| changed(&mut random, b"")).collect();
    assert!(empty.iter().any(|index| index.len() > RECORD));
}

#[test]
fn records_point_everywhere() {
    let mut random = Random::new(1, 2);
    let right = [record([35, 7, 8, 1]), record([42, 15, 20, 1])].concat();
    let number = |bytes: &[u8]| {
        (0..3)
            .map(|i| (bytes[i] as usize) << (8 * i))
            .sum::<usize>()
    };
    let mut offsets = Vec::new();
    for _ in 0..2000 {
        let made = hostile(&mut random, &right, 62, &[8, 22, 35, 42, 57]);
        let records = made.chunks_exact(RECORD);
        offsets.extend(records.map(|record| (number(record), number(&record[6..]))));
    }
    let some = |is_one: &dyn Fn(usize, usize) -> bool| offsets.iter().any(|(b, p)| is_one(*b, *p));
    for (block, prototype) in [(35, 8), (42, 20), (35, 20), (42, 8), (8, 35), (42, 57)] {
        assert!(
            some(&|b, p| (b, p) == (block, prototype)),
            "{block} {prototype}"
        );
    }
    for at in [0, 4, 60, 61, 62, 63, 64, 65, (1 << 24) - 1] {
        assert!(some(&|b, _| b == at), "block at {at}");
        assert!(some(&|_, p| p == at), "prototype at {at}");
    }
    assert!(some(&|b, p| b == p && b < 62) && some(&|b, p| b == p + 5));
    assert!(some(&|b, p| b > 62 && p > 62));
}

#[test]
fn a_file_inside_a_string() {
    let file = generate::worked_bytes();
    let (save, index) = inside_a_string(&file, &[record([48, 29, 8, 2]), vec![0; 5]].concat());
    assert_eq!(save[..8], file[..8]);
    let start = save.len() - 5 - file.len();
    assert_eq!(save[start..save.len() - 5], file);
    assert_eq!(save[start - 4..start], (file.len() as u32).to_le_bytes());
    assert_eq!(index, record([start + 48, 29, start + 8, 2]));
    let (save, _) = inside_a_string(b"BSII\x01\0\0", b"");
    assert_eq!(save[..8], *b"BSII\x02\0\0\0");
}

#[test]
fn a_changed_file_is_another() {
    let mut random = Random::new(1, 3);
    let file = generate::worked_bytes();
    let made = (0..200).map(|_| changed_file(&mut random, &file, &[8, 25, 48]));
    let (shorter, others): (Vec<_>, Vec<_>) = made
        .filter(|made| *made != file)
        .partition(|made| made.len() < file.len());
    assert!(shorter.len() > 20 && others.len() > 50);
    // Nothing to aim at, and nothing at all.
    for _ in 0..200 {
        changed_file(&mut random, &file, &[]);
        changed_file(&mut random, b"", &[4]);
    }
}
