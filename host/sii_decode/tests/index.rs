//! Answers by the index against those of the walk, on generated saves with and without an id that is
//! defined twice; and indexes that do not fit.

use generate::widening::widening;
use generate::{worked_bytes, Random};
use sii_decode::library;
use sii_decode::{longest_index, BsiiFile, DataField, Refusal, RECORD};
use std::collections::HashMap;

const ABSENT: Refusal = Refusal {
    number: 13,
    offset: 0,
    lacking: 0,
    needed: 0,
};

fn misfit(offset: u64) -> Refusal {
    Refusal {
        number: 14,
        offset,
        ..ABSENT
    }
}

/// The questions by the library's walk, with a table of its own.
struct Walk<'a> {
    content: &'a [u8],
    table: Vec<u32>,
}

impl<'a> Walk<'a> {
    fn new(content: &'a [u8]) -> Walk<'a> {
        Walk {
            content,
            table: vec![0; content.len() / 17 * 3],
        }
    }

    fn part(&self, offset: u64, len: u64) -> &'a [u8] {
        &self.content[offset as usize..][..len as usize]
    }

    /// The block's prototype id, and its id's bytes.
    fn block(&mut self, number: u64) -> Option<(u32, &'a [u8])> {
        let answer = library::block_at(self.content, &mut self.table, number);
        let found = answer.number == 0;
        assert!(found || answer.number == 13);
        found.then(|| {
            let id = self.part(answer.id_offset, answer.id_len);
            (answer.prototype_id, id)
        })
    }

    fn named(&mut self, name: &[u8]) -> Vec<u64> {
        let mut ask = |n| library::blocks_by_prototype_name(self.content, &mut self.table, name, n);
        let found = (0..).map_while(|n| Some(ask(n)).filter(|answer| answer.number == 0));
        found.map(|answer| answer.value).collect()
    }

    fn field(&mut self, block: u64, name: &[u8]) -> Option<(u32, &'a [u8])> {
        let answer = library::field_of(self.content, &mut self.table, block, name);
        let found = answer.number == 0;
        assert!(found || answer.number == 13);
        found.then(|| {
            let part = self.part(answer.part_offset, answer.part_len);
            (answer.type_id, part)
        })
    }

    fn prototype(&mut self, id: u32) -> (&'a [u8], u64) {
        let answer = library::get_prototype(self.content, &mut self.table, id);
        assert_eq!(answer.number, 0);
        let name = self.part(answer.name_offset, answer.name_len);
        (name, answer.fields)
    }
}

fn found<'a>(field: &Result<DataField<'a>, Refusal>) -> Option<(u32, &'a [u8])> {
    assert!(field.is_ok() || *field == Err(ABSENT));
    field.as_ref().ok().map(|field| (field.type_id, field.part))
}

/// The names that a file's questions are asked with: those of its prototypes and fields, and others.
fn names(file: &BsiiFile) -> Vec<Vec<u8>> {
    let mut names: Vec<Vec<u8>> = vec![b"".into(), b"no such name".into(), b"\xff".into()];
    for block in file.blocks() {
        names.push(block.prototype(file).unwrap().name.into());
        let fields = block.definitions(file).unwrap();
        names.extend(fields.map(|field| field.name.as_bytes().to_vec()));
    }
    names.sort();
    names.dedup();
    names
}

/// Every question about the file has the answer of the walk.
fn equals_the_walk(content: &[u8], file: &BsiiFile) {
    let mut walk = Walk::new(content);
    let count = file.block_count();
    assert_eq!(file.blocks().len() as u64, count);
    assert_eq!(file.block(count), Err(ABSENT));
    assert_eq!(file.block(u64::MAX), Err(ABSENT));
    assert!(walk.block(count).is_none());
    let names = names(file);
    for (number, block) in file.blocks().enumerate() {
        let number = number as u64;
        let (prototype_id, id) = walk.block(number).unwrap();
        assert_eq!(file.block(number), Ok(block.clone()));
        assert_eq!((block.number, block.prototype_id), (number, prototype_id));
        assert_eq!(block.id.to_string(), shown(id));
        let prototype = block.prototype(file).unwrap();
        let walked = walk.prototype(prototype_id);
        assert_eq!((prototype.name.as_bytes(), prototype.fields), walked);
        assert_eq!(file.get_prototype(prototype_id), Ok(prototype));
        for name in &names {
            let asked = file.field(number, name);
            assert_eq!(found(&asked), walk.field(number, name));
        }
    }
    for name in &names {
        let walked = walk.named(name);
        let listed: Vec<_> = file.blocks_by_prototype_name(name).collect();
        assert_eq!(listed, walked);
        for n in 0..=walked.len() {
            let nth = file.nth_by_prototype_name(name, n as u64);
            assert_eq!(nth, walked.get(n).copied().ok_or(ABSENT));
        }
        assert_eq!(file.nth_by_prototype_name(name, u64::MAX), Err(ABSENT));
        assert_eq!(file.field(count, name), Err(ABSENT));
        assert_eq!(file.field(u64::MAX, name), Err(ABSENT));
    }
}

/// An id's bytes as the text shows them, by the element call.
fn shown(id: &[u8]) -> String {
    let (version, type_id, part) = (2, 0x39, id);
    let field = DataField {
        version,
        type_id,
        part,
    };
    field.element(0).unwrap().to_string()
}

/// The definitions of each block's fields are those that it was read by: one value each, and the first
/// one of a name is what the name finds where no id is defined twice.
fn definitions_fit(file: &BsiiFile) {
    for block in file.blocks() {
        let fields: Vec<_> = block.definitions(file).unwrap().collect();
        if !file.defines_once() {
            continue;
        }
        assert_eq!(fields.len() as u64, block.prototype(file).unwrap().fields);
        for (at, field) in fields.iter().enumerate() {
            if fields[..at].iter().any(|first| first.name == field.name) {
                continue;
            }
            let value = block.field(file, field.name).unwrap();
            assert_eq!(value.type_id, field.type_id);
            assert_eq!(value.kind_name(), field.kind_name());
            assert_eq!(value.is_array(), field.is_array());
        }
    }
    assert_eq!(file.definitions(file.block_count()).err(), Some(ABSENT));
}

/// The definitions of prototypes: an id's last one is what the walk finds, and there is no other id.
fn prototypes_fit(content: &[u8], file: &BsiiFile) {
    let mut walk = Walk::new(content);
    let defined: Vec<_> = file.prototypes().unwrap().collect();
    let last: HashMap<_, _> = defined.iter().map(|it| (it.id, it)).collect();
    assert_eq!(last.len() as u64, file.prototype_count());
    assert_eq!(last.len() == defined.len(), file.defines_once());
    for (id, prototype) in last {
        let found = (prototype.name.as_bytes(), prototype.fields);
        assert_eq!(found, walk.prototype(id));
    }
}

/// The index kept and lent again, and changed in every way that a record can be.
fn only_its_own_index(random: &mut Random, content: &[u8], file: &BsiiFile) {
    let index = file.index().unwrap();
    assert_eq!(index.len() as u64, 12 * file.block_count());
    let lent = BsiiFile::with_index(content, index).unwrap();
    assert_eq!(lent.index(), Some(index));
    assert_eq!(lent.block_count(), file.block_count());
    equals_the_walk(content, &lent);
    let refused = |index: Vec<u8>| BsiiFile::with_index(content, index).err();
    let end = index.len() as u64;
    assert_eq!(refused([index, b"\0"].concat()), Some(misfit(end)));
    let Some(last) = index.len().checked_sub(1) else {
        return;
    };
    assert_eq!(refused(vec![]), Some(misfit(0)));
    assert_eq!(refused(index[..last].into()), Some(misfit(end - 12)));
    assert_eq!(refused(index[..last - 11].into()), Some(misfit(end - 12)));
    for _ in 0..4 {
        let mut changed = index.to_vec();
        let at = random.below(changed.len());
        changed[at] ^= 1 << random.below(8);
        assert_eq!(refused(changed), Some(misfit(at as u64 / 12 * 12)));
    }
}

#[test]
fn generated_saves() {
    let mut random = Random::new(5, 0);
    let (mut once, mut twice, mut blocks) = (0, 0, 0);
    for number in 0..3000 {
        let bytes = generate::file(5, number);
        let Ok(file) = BsiiFile::parse(&bytes) else {
            continue;
        };
        equals_the_walk(&bytes, &file);
        definitions_fit(&file);
        prototypes_fit(&bytes, &file);
        only_its_own_index(&mut random, &bytes, &file);
        let counted: &mut i32 = match file.defines_once() {
            true => &mut once,
            false => &mut twice,
        };
        *counted += i32::from(file.block_count() > 0);
        blocks += file.block_count();
    }
    assert!(
        once > 300 && twice > 100 && blocks > 3000,
        "{once} {twice} {blocks}"
    );
}

/// Without an index the answers are the same.
#[test]
fn without_an_index() {
    let mut blocks = 0;
    for number in 0..300 {
        let bytes = generate::file(7, number);
        let plain = BsiiFile::without_index(&bytes);
        let file = match BsiiFile::parse(&bytes) {
            Ok(file) => file,
            Err(refusal) => {
                assert_eq!(plain.err(), Some(refusal));
                continue;
            }
        };
        let plain = plain.unwrap();
        assert_eq!(plain.index(), None);
        assert_eq!(plain.block_count(), file.block_count());
        assert_eq!(plain.prototype_count(), file.prototype_count());
        assert_eq!(plain.end(), file.end());
        for (block, walked) in file.blocks().zip(plain.blocks()) {
            assert_eq!(block, walked);
            assert_eq!(walked.prototype(&plain), block.prototype(&file));
            for name in names(&file) {
                assert_eq!(walked.field(&plain, &name), block.field(&file, &name));
            }
            blocks += 1;
        }
    }
    assert!(blocks > 100, "{blocks}");
}

/// A save's index is stale as soon as an update has widened the save.
#[test]
fn widened_saves() {
    let mut stale = 0;
    for number in 0..300 {
        let list = widening(6, number);
        let (old, new) = (list.old.bytes(), list.new_save().bytes());
        let file = BsiiFile::parse(&old).unwrap();
        assert!(file.defines_once());
        equals_the_walk(&old, &file);
        let Ok(widened) = BsiiFile::parse(&new) else {
            continue;
        };
        equals_the_walk(&new, &widened);
        prototypes_fit(&new, &widened);
        let index = file.index().unwrap();
        match BsiiFile::with_index(&new, index) {
            Ok(_) => assert_eq!(Some(index), widened.index()),
            Err(refusal) => {
                assert_eq!(refusal.number, 14);
                stale += 1;
            }
        }
    }
    assert!(stale > 100, "{stale}");
}

/// Prototype 3 `t` with one u16 `n`; block 0 (`null`, 5) at 35, block 1 (`x`, 7) at 42.
const TWO_BLOCKS: &[u8] =
    b"BSII\x02\0\0\0\0\0\0\0\x01\x03\0\0\0\x01\0\0\0t\x2b\0\0\0\x01\0\0\0n\0\0\0\0\
    \x03\0\0\0\0\x05\0\x03\0\0\0\x01\x22\0\0\0\0\0\0\0\x07\0\0\0\0\0\0";

#[test]
fn an_index_that_is_stale() {
    let file = BsiiFile::parse(TWO_BLOCKS).unwrap();
    let index = b"\x23\0\0\x07\0\0\x08\0\0\x01\0\0\x2a\0\0\x0f\0\0\x08\0\0\x01\0\0";
    assert_eq!(file.index(), Some(&index[..]));
    let mut newer = TWO_BLOCKS.to_vec();
    newer.splice(35..35, *b"\x03\0\0\0\0\x09\0");
    // What the check is for: the look-up itself can not know.
    let wrong = library::field_by_index(&newer, index, 0, b"n");
    assert_eq!((wrong.number, wrong.part_offset), (0, 40));
    assert_eq!(newer[40], 9);
    let refusal = BsiiFile::with_index(&newer, &index[..]).unwrap_err();
    assert_eq!(refusal, misfit(12));
    let shown = "refused 14 at 12: the index is not that of this save, from its record 1 on";
    assert_eq!(refusal.to_string(), shown);
    let newest = BsiiFile::parse(&newer).unwrap();
    let parts = [0, 1, 2].map(|block| newest.field(block, "n").unwrap().part[0]);
    assert_eq!(parts, [9, 5, 7]);
}

/// The file's faults come in front of the index's.
#[test]
fn faults_of_the_file_first() {
    let whole = worked_bytes();
    for kept in 0..whole.len() {
        let cut = &whole[..kept];
        let refusal = BsiiFile::parse(cut).unwrap_err();
        assert_eq!(BsiiFile::with_index(cut, &b"?"[..]).err(), Some(refusal));
    }
    assert_eq!(
        BsiiFile::with_index(&whole, &b"?"[..]).err(),
        Some(misfit(0))
    );
}

/// P(a), a block, P(b): the block was read with a field `a`, and is asked for `b`.
#[test]
fn an_id_that_is_defined_twice() {
    let mut bytes = b"BSII\x02\0\0\0".to_vec();
    for (name, field) in [(b'p', b'a'), (b'q', b'b')] {
        bytes.extend(b"\0\0\0\0\x01\x01\0\0\0\x01\0\0\0");
        bytes.extend([name, 0x2b, 0, 0, 0, 1, 0, 0, 0, field, 0, 0, 0, 0]);
        bytes.extend(b"\x01\0\0\0\0\x05\0");
    }
    bytes.extend([0; 5]);
    let file = BsiiFile::parse(&bytes).unwrap();
    assert!(!file.defines_once());
    equals_the_walk(&bytes, &file);
    assert_eq!(file.field(0, "a"), Err(ABSENT));
    assert_eq!(file.field(0, "b").unwrap().type_id, 0x2b);
    let names: Vec<_> = file.blocks().map(|b| b.prototype(&file)).collect();
    assert!(names.iter().all(|prototype| prototype.unwrap().name == "q"));
    let listed: Vec<_> = file.blocks_by_prototype_name("q").collect();
    assert_eq!(listed, [0, 1]);
    let fields = |number| file.definitions(number).unwrap();
    let fields: Vec<_> = [0, 1].map(fields).into_iter().flatten().collect();
    let fields: Vec<_> = fields.iter().map(|field| field.name).collect();
    assert_eq!(fields, ["a", "b"]);
}

#[test]
fn definitions_of_the_sample() {
    let path = std::path::Path::new(env!("CARGO_MANIFEST_DIR")).join("../../samples/garage.bsii");
    let bytes = std::fs::read(path).unwrap();
    let file = BsiiFile::parse(&bytes).unwrap();
    definitions_fit(&file);
    let fields = file.definitions(1).unwrap();
    let shown: Vec<_> = fields
        .map(|field| (field.type_id, field.kind_name(), field.name))
        .collect();
    assert!(shown.contains(&(0x27, "u32", "km")), "{shown:?}");
    let first = file.definitions(0).unwrap();
    assert!(format!("{first:?}").starts_with("[Definition { version: 2, type_id: 1, name: "));
    assert_eq!(first.count(), 34);
    // What the caller has made of a block is asked for by its prototype id.
    let mut block = file.block(0).unwrap();
    block.prototype_id = 2;
    assert_eq!(block.prototype(&file).unwrap().name, "truck");
    block.prototype_id = 9;
    assert_eq!(block.prototype(&file), Err(ABSENT));
    let prototypes = file.prototypes().unwrap();
    assert_eq!(format!("{prototypes:?}"), "Prototypes { at: 8, .. }");
    let shown: Vec<_> = prototypes.map(|it| (it.id, it.name, it.fields)).collect();
    assert_eq!(shown[..2], [(1, "garage", 34), (2, "truck", 2)]);
    assert_eq!(shown.len(), 3);
}

/// An index that is owned, and one that is borrowed.
#[test]
fn lent_and_given() {
    assert_eq!((RECORD, longest_index(62)), (12, 144));
    let bytes = worked_bytes();
    let index = BsiiFile::parse(&bytes).unwrap().index().unwrap().to_vec();
    let borrowed = BsiiFile::with_index(&bytes, &index).unwrap();
    assert_eq!(borrowed.index(), Some(&index[..]));
    let owned = BsiiFile::with_index(&bytes, index.clone()).unwrap();
    assert_eq!(owned.index(), Some(&index[..]));
    for file in [borrowed, owned] {
        let counts = (file.prototype_count(), file.block_count(), file.end());
        assert_eq!(counts, (1, 1, 82));
        assert_eq!(file.field(0, "km").unwrap().part, b"\x2c\x01\0\0");
    }
}

/// The loop of README's example, by the index and, with an id defined twice, by the walk.
#[test]
fn the_loop_over_trucks() {
    let path = std::path::Path::new(env!("CARGO_MANIFEST_DIR")).join("../../samples/garage.bsii");
    let mut bytes = std::fs::read(path).unwrap();
    let kilometres = |bytes: &[u8]| -> Vec<u32> {
        let file = BsiiFile::parse(bytes).unwrap();
        let trucks = file.blocks_by_prototype_name("truck");
        let km = |block| file.field(block, "km").unwrap().element(0).unwrap();
        trucks.map(|block| km(block).try_into().unwrap()).collect()
    };
    assert_eq!(kilometres(&bytes), [81250, u32::MAX]);
    // In front of the end record an id of its own, twice.
    let end = bytes.len() - 5;
    let prototype = *b"\0\0\0\0\x01\xff\xff\xff\xff\0\0\0\0\0\0\0\0";
    bytes.splice(end..end, prototype.repeat(2));
    assert!(!BsiiFile::parse(&bytes).unwrap().defines_once());
    assert_eq!(kilometres(&bytes), [81250, u32::MAX]);
}
