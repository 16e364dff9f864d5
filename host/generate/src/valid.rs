//! Files by the layout, with a few faults mixed in where asked.

use crate::corners;
use crate::Random;

/// All listed types.
pub const LISTED: [u32; 34] = [
    0x01, 0x02, 0x03, 0x04, 0x05, 0x06, 0x07, 0x09, 0x0a, 0x11, 0x12, 0x17, 0x18, 0x19, 0x1a, 0x25,
    0x26, 0x27, 0x28, 0x2b, 0x2c, 0x2f, 0x31, 0x32, 0x33, 0x34, 0x35, 0x36, 0x37, 0x39, 0x3a, 0x3b,
    0x3c, 0x3d,
];

/// Of these, the arrays.
pub const ARRAYS: [u32; 15] = [
    0x02, 0x04, 0x06, 0x0a, 0x12, 0x18, 0x1a, 0x26, 0x28, 0x2c, 0x32, 0x34, 0x36, 0x3a, 0x3c,
];

pub const UNLISTED: [u32; 16] = [
    0x08,
    0x0b,
    0x0c,
    0x10,
    0x13,
    0x16,
    0x1b,
    0x24,
    0x29,
    0x2a,
    0x30,
    0x38,
    0x3e,
    0x40,
    0x100,
    0xffff_ffff,
];

pub const PROTOTYPE_IDS: [u32; 9] = [0, 1, 2, 3, 7, 0xff, 0x100, 0x0100_0000, 0xffff_ffff];

/// A listed type; an enum, whose list has forms of its own, twice as often as another.
pub fn listed(random: &mut Random) -> u32 {
    let drawn = random.below(LISTED.len() + 1);
    LISTED.get(drawn).copied().unwrap_or(0x37)
}

/// 1 in a fifth of the files; in the others mostly 2, and such as share bytes with 1.
pub fn version(random: &mut Random) -> u32 {
    match random.chance(20) {
        true => 1,
        false => random.pick(&[2, 2, 2, 2, 3, 0, 0x101, 0x0100_0001, 0xffff_ffff]),
    }
}

/// A file in the making.
#[derive(Default)]
pub struct Made {
    pub bytes: Vec<u8>,
    /// By which the floats of a placement are counted.
    version: u32,
    /// Where lengths, counts, types and record numbers stand, for aimed damage.
    pub numbers: Vec<usize>,
    /// Of these, the lengths of strings.
    pub lengths: Vec<usize>,
    /// Where the marks of prototypes and of the end record stand.
    pub marks: Vec<usize>,
    defined: Vec<Prototype>,
    /// Percent of the places that may get a fault. With none of them what was made is what is read.
    pub faults: usize,
}

#[derive(Clone)]
struct Prototype {
    id: u32,
    fields: Vec<Definition>,
}

#[derive(Clone)]
struct Definition {
    type_id: u32,
    list: Vec<u32>,
}

impl Made {
    fn u32(&mut self, number: u32) {
        self.bytes.extend(number.to_le_bytes());
    }

    fn u64(&mut self, number: u64) {
        self.bytes.extend(number.to_le_bytes());
    }

    /// A number that the layout hangs on.
    fn number(&mut self, number: u32) {
        self.numbers.push(self.bytes.len());
        self.u32(number);
    }

    fn string(&mut self, bytes: &[u8]) {
        self.lengths.push(self.bytes.len());
        self.number(bytes.len() as u32);
        self.bytes.extend_from_slice(bytes);
    }

    /// A record number 0 and its mark.
    fn marked(&mut self, mark: u8) {
        self.number(0);
        self.marks.push(self.bytes.len());
        self.bytes.push(mark);
    }

    fn any_string(&mut self, random: &mut Random) {
        if random.chance(self.faults) {
            self.string(&corners::bad_utf8(random));
        } else {
            self.string(corners::string(random).as_bytes());
        }
    }

    fn word(&mut self, random: &mut Random) {
        if random.chance(self.faults) {
            self.u64(corners::any_word(random));
        } else {
            self.u64(corners::word(random));
        }
    }
}

pub fn file(random: &mut Random) -> Made {
    let mut made = Made {
        faults: random.pick(&[0, 0, 1, 3]),
        ..Made::default()
    };
    if random.chance(1) {
        made.bytes.extend(random.pick(&[b"bSII", b"BSIi", b"ScsC"]));
    } else {
        made.bytes.extend(b"BSII");
    }
    made.version = version(random);
    made.u32(made.version);
    let most = if random.chance(2) { 40 } else { 9 };
    for _ in 0..random.below(most) {
        record(random, &mut made);
    }
    made.marked(0);
    if random.chance(20) {
        let len = random.below(12);
        made.bytes.extend((0..len).map(|_| random.number() as u8));
    }
    made
}

fn record(random: &mut Random, made: &mut Made) {
    let usable = made.defined.iter().filter(|p| p.id != 0).count();
    if usable == 0 || random.chance(35) {
        prototype(random, made);
    } else if random.chance(made.faults) {
        // A block whose prototype is undefined, or is defined only behind it.
        made.number(random.pick(&PROTOTYPE_IDS) | 4);
        id(random, made);
    } else {
        block(random, made);
    }
}

fn prototype(random: &mut Random, made: &mut Made) {
    let id = match random.below(10) {
        0 => random.number() as u32,
        1 | 2 if !made.defined.is_empty() => made.defined[random.below(made.defined.len())].id,
        _ => random.pick(&PROTOTYPE_IDS),
    };
    let old = made.defined.iter().position(|p| p.id == id);
    made.marked(1);
    made.number(id);
    made.any_string(random);
    let count = match old {
        // As many fields as before, so that the text gets past reply 8.
        Some(old) if random.chance(60) => made.defined[old].fields.len(),
        _ => random.below(6),
    };
    let mut fields = Vec::new();
    for i in 0..count {
        let before = old.and_then(|old| made.defined[old].fields.get(i));
        let kept = before
            .map(|field| field.type_id)
            .filter(|_| random.chance(60));
        fields.push(definition(random, made, kept));
    }
    made.number(0);
    let new = Prototype { id, fields };
    match old {
        Some(old) => made.defined[old] = new,
        None => made.defined.push(new),
    }
}

fn definition(random: &mut Random, made: &mut Made, kept: Option<u32>) -> Definition {
    let type_id = match kept {
        Some(type_id) => type_id,
        None if random.chance(made.faults) => random.pick(&UNLISTED),
        None => listed(random),
    };
    made.number(type_id);
    made.any_string(random);
    let mut list = Vec::new();
    if type_id == 0x37 {
        let count = random.below(5);
        made.number(count as u32);
        for _ in 0..count {
            let number = random.pick(&[0, 1, 1, 2, 3, 0xffff_ffff]);
            made.u32(number);
            made.any_string(random);
            list.push(number);
        }
    }
    Definition { type_id, list }
}

fn block(random: &mut Random, made: &mut Made) {
    let usable: Vec<usize> = (0..made.defined.len())
        .filter(|i| made.defined[*i].id != 0)
        .collect();
    let prototype = made.defined[random.pick(&usable)].clone();
    made.number(prototype.id);
    id(random, made);
    for field in &prototype.fields {
        value(random, made, field);
    }
}

fn id(random: &mut Random, made: &mut Made) {
    match random.below(1000) {
        0..=449 => {
            made.bytes.push(0xff);
            made.u64(corners::unsigned(random));
        }
        450..=997 => {
            let words = random.below(4);
            made.bytes.push(words as u8);
            (0..words).for_each(|_| made.word(random));
        }
        many => {
            let words = if many == 998 { 254 } else { 20 };
            made.bytes.push(words);
            (0..words).for_each(|_| made.word(random));
        }
    }
}

fn value(random: &mut Random, made: &mut Made, field: &Definition) {
    if !ARRAYS.contains(&field.type_id) {
        return single(random, made, field);
    }
    let count = random.below(5);
    made.number(count as u32);
    (0..count).for_each(|_| single(random, made, field));
}

fn single(random: &mut Random, made: &mut Made, field: &Definition) {
    let floats = |random: &mut Random, made: &mut Made, count: usize| {
        (0..count).for_each(|_| made.u32(corners::float(random)));
    };
    match field.type_id {
        0x01 | 0x02 => made.any_string(random),
        0x03 | 0x04 => made.word(random),
        0x05 | 0x06 => floats(random, made, 1),
        0x07 => floats(random, made, 2),
        0x09 | 0x0a => floats(random, made, 3),
        0x11 | 0x12 => (0..3).for_each(|_| made.u32(corners::unsigned(random) as u32)),
        0x17 | 0x18 => floats(random, made, 4),
        0x19 | 0x1a => placement(random, made),
        0x2b | 0x2c => {
            let number = corners::unsigned(random) as u16;
            made.bytes.extend(number.to_le_bytes());
        }
        0x25..=0x28 | 0x2f => made.u32(corners::unsigned(random) as u32),
        0x31..=0x34 => made.u64(corners::unsigned(random)),
        0x35 | 0x36 => made.bytes.push(random.pick(&[0, 1, 1, 2, 0xff])),
        0x37 if !field.list.is_empty() && !random.chance(3) => {
            let number = random.pick(&field.list);
            made.number(number);
        }
        0x37 => made.number(random.below(4) as u32),
        0x39..=0x3d => id(random, made),
        // Unlisted: any bytes or none.
        _ => {
            let len = random.below(9);
            made.bytes.extend((0..len).map(|_| random.number() as u8));
        }
    }
}

fn placement(random: &mut Random, made: &mut Made) {
    for i in 0..8 {
        made.u32(match i {
            0 | 2 => corners::coordinate(random),
            3 if made.version == 1 => continue,
            3 => corners::sector(random),
            _ => corners::float(random),
        });
    }
}

/// A value of a listed type without a fault; not for an enum, whose value hangs on its list.
pub fn well_formed(random: &mut Random, version: u32, type_id: u32) -> Vec<u8> {
    let mut made = Made {
        version,
        ..Made::default()
    };
    let list = Vec::new();
    value(random, &mut made, &Definition { type_id, list });
    made.bytes
}

/// One value by the version, and its type.
pub fn value_alone(random: &mut Random, version: u32, made: &mut Made) -> u32 {
    made.version = version;
    made.faults = random.pick(&[0, 0, 5]);
    let unlisted = random.chance(5);
    let type_id = match unlisted {
        true if random.chance(20) => 0,
        true => random.pick(&UNLISTED),
        false => listed(random),
    };
    let list = vec![0, 1, 0xffff_ffff];
    value(random, made, &Definition { type_id, list });
    type_id
}

/// Document 01's worked example.
pub fn worked_bytes() -> Vec<u8> {
    let mut made = Made::default();
    made.bytes.extend(b"BSII");
    made.u32(2);
    made.marked(1);
    made.number(7);
    made.string(b"trip");
    made.number(0x27);
    made.string(b"km");
    made.number(6);
    made.string(b"w");
    made.number(0);
    made.number(7);
    made.bytes.push(1);
    made.u64(0x57);
    made.u32(300);
    made.number(2);
    made.u32(0x3fc0_0000);
    made.u32(0xc000_0000);
    made.marked(0);
    made.bytes
}
