//! The Rust on files that its reader refuses and its values and writers know. It reads a stand-in of the
//! file, and what it has read is put back.
//!
//! It stops at 0x0a and 0x17 with a `todo!`: the stand-in has 0x12 for 0x0a, and 0x18 behind a count of
//! 1 for 0x17. It does not read version 1: the stand-in has version 2, and an f4 with which nothing is
//! added as the fourth of a placement's floats.

use crate::report::{differ, Check, Exception, Tally};
use model::{Model, Parsed};
use oracle::{BsiiFile, DataValue, Fault};
use std::borrow::Cow;

/// A listed type that the Rust's reader has no row for, and one that it reads in its place: the bytes
/// are the same, but for the count that a single value gets.
const UNREAD: [(u32, u32); 2] = [(0x0a, 0x12), (0x17, 0x18)];
const COUNTED: u32 = 0x17;
const COUNT: [u8; 4] = 1u32.to_le_bytes();

/// 2048 sectors in both directions, from which 2048 are taken away.
const F4: [u8; 4] = 0x4b00_0800u32.to_le_bytes();
/// The bytes of a placement of version 1, and of its floats in front of f4.
const SEVEN: usize = 28;
const THREE: usize = 12;

/// What is put in at one place: a count or an f4.
const PUT_IN: usize = 4;

fn stand_in_of(type_id: u32) -> Option<u32> {
    let found = UNREAD.iter().find(|(unread, _)| *unread == type_id);
    found.map(|(_, read)| *read)
}

/// Where the first placement of a value starts.
fn first_placement(type_id: u32, start: usize) -> Option<usize> {
    match type_id {
        0x19 => Some(start),
        0x1a => Some(start + COUNT.len()),
        _ => None,
    }
}

pub struct StandIn<'a> {
    file: &'a [u8],
    is_version_1: bool,
    /// What the Rust reads: the file itself if it is of another version and no block carries one of
    /// these types.
    bytes: Cow<'a, [u8]>,
    /// Where something was put in, in the stand-in.
    put_in: Vec<usize>,
    /// Block, position, type and offset in the file of each value of these types that the reading
    /// comes to.
    values: Vec<(usize, usize, u32, usize)>,
}

impl<'a> StandIn<'a> {
    /// By what the model reads of the file.
    pub fn of(file: &'a [u8]) -> StandIn<'a> {
        StandIn::new(file, Model::default().in_front_of_fault(file))
    }

    /// `read` is what stands in front of the file's first fault.
    pub fn new(file: &'a [u8], read: &Parsed) -> StandIn<'a> {
        let is_version_1 = read.version == 1;
        let (mut values, mut more) = (Vec::new(), Vec::new());
        for (number, block) in read.blocks.iter().enumerate() {
            for (position, value) in block.values.iter().enumerate() {
                let (type_id, start) = (value.type_id, value.place.offset);
                if stand_in_of(type_id).is_some() {
                    values.push((number, position, type_id, start));
                }
                if type_id == COUNTED {
                    more.push((start, COUNT));
                }
                // A value that runs out ends in front of the float that does.
                let end = start + value.place.len;
                if let Some(first) = first_placement(type_id, start).filter(|_| is_version_1) {
                    let fourths = (first + THREE..=end).step_by(SEVEN);
                    more.extend(fourths.map(|at| (at, F4)));
                }
            }
        }
        let (mut bytes, mut put_in) = (Cow::Borrowed(file), Vec::new());
        if is_version_1 || !values.is_empty() {
            let mut changed = file.to_vec();
            for (at, type_id) in &read.types {
                let stands_in = stand_in_of(*type_id).unwrap_or(*type_id);
                changed[*at..at + 4].copy_from_slice(&stands_in.to_le_bytes());
            }
            if is_version_1 {
                changed[4..8].copy_from_slice(&2u32.to_le_bytes());
            }
            let (mut longer, mut from) = (Vec::new(), 0);
            for (at, bytes) in more {
                longer.extend_from_slice(&changed[from..at]);
                put_in.push(longer.len());
                longer.extend(bytes);
                from = at;
            }
            longer.extend_from_slice(&changed[from..]);
            bytes = Cow::Owned(longer);
        }
        StandIn {
            file,
            is_version_1,
            bytes,
            put_in,
            values,
        }
    }

    pub fn is_version_1(&self) -> bool {
        self.is_version_1
    }

    /// What the Rust says, with the values of these types in their place.
    pub fn parse(&self) -> Result<BsiiFile<'_>, Fault> {
        let mut parsed = oracle::parse(&self.bytes)?;
        for (block, position, type_id, _) in &self.values {
            let block = parsed.data_blocks.get_mut(*block);
            if let Some(value) = block.and_then(|block| block.data.get_mut(*position)) {
                put_back(value, *type_id);
            }
        }
        Ok(parsed)
    }

    /// The Rust refuses the file itself where the stand-in is needed, and nowhere else, and for just that
    /// reason. `parsed` is what it says of the stand-in.
    pub fn stops(&self, parsed: &Result<BsiiFile<'_>, Fault>, tally: &mut Tally) -> Check {
        self.at_the_version(parsed, tally)?;
        self.at_a_type(parsed, tally)
    }

    /// At version 1 exactly, once all of its bytes are there.
    fn at_the_version(&self, parsed: &Result<BsiiFile<'_>, Fault>, tally: &mut Tally) -> Check {
        let label = ("Rust", "version 1");
        if let Err(Fault::Version) = parsed {
            return differ(label, "in a file of another version");
        }
        if !self.is_version_1 {
            return Ok(());
        }
        tally.except(Exception::Version1);
        let replies =
            [self.file, &self.file[..8], &self.file[..7]].map(|part| oracle::parse(part).err());
        let version = || Some(Fault::Version);
        let expected = [version(), version(), Some(Fault::Number(3))];
        tally.same(label, String::new, replies, expected)
    }

    /// At the `todo!` of one of these types exactly if the reading of the file comes to such a value, and
    /// at the first one. In version 1 it comes to none.
    fn at_a_type(&self, parsed: &Result<BsiiFile<'_>, Fault>, tally: &mut Tally) -> Check {
        let label = ("Rust", "todo of a listed type");
        if let Err(Fault::Todo(type_id)) = parsed {
            if stand_in_of(*type_id).is_some() {
                return differ(label, format!("{type_id:#x}, which no block carries"));
            }
        }
        let first = self.values.first().filter(|_| !self.is_version_1);
        let Some((_, _, type_id, at)) = first else {
            return Ok(());
        };
        tally.except(Exception::TodoType);
        // With the bytes in front of the value it stops there, with one fewer it does not get there.
        let replies = [self.file, &self.file[..*at], &self.file[..at - 1]]
            .map(|part| oracle::parse(part).err());
        let todo = || Some(Fault::Todo(*type_id));
        let expected = [todo(), todo(), Some(Fault::Number(3))];
        tally.same(label, || format!("{type_id:#x} at {at}"), replies, expected)
    }

    /// Where in the file a string stands that the Rust has read.
    pub fn place(&self, text: &str) -> (u64, u64) {
        let at = text.as_ptr() as usize - self.bytes.as_ptr() as usize;
        let in_front = self.put_in.partition_point(|put_in| *put_in < at);
        ((at - PUT_IN * in_front) as u64, text.len() as u64)
    }

    /// Where in the file bytes of it stand.
    pub fn place_in_file(&self, bytes: &[u8]) -> (u64, u64) {
        let at = bytes.as_ptr() as usize - self.file.as_ptr() as usize;
        (at as u64, bytes.len() as u64)
    }

    /// What the Rust reads in place of the file's first bytes, all values among them.
    pub fn up_to(&self, end: usize) -> Option<&[u8]> {
        let end = end.checked_add(PUT_IN * self.put_in.len())?;
        self.bytes.get(..end)
    }

    /// Whether the Rust's sum of an f1 or f3 leaves the text open: of a NaN always, and in version 1, where
    /// no sum is made, of minus zero.
    pub fn has_open_sums(&self, parsed: &BsiiFile<'_>) -> bool {
        let is_open = |float: f32| {
            float.is_nan() || self.is_version_1 && float == 0.0 && float.is_sign_negative()
        };
        let values = parsed.data_blocks.iter().flat_map(|block| &block.data);
        let mut coordinates = values.flat_map(|value| match value {
            DataValue::FloatVec8(p) => vec![p.0, p.2],
            DataValue::FloatVec8Array(all) => all.iter().flat_map(|p| [p.0, p.2]).collect(),
            _ => Vec::new(),
        });
        coordinates.any(is_open)
    }
}

fn put_back(value: &mut DataValue<'_>, type_id: u32) {
    let float = |bits: i32| f32::from_bits(bits as u32);
    match (type_id, &*value) {
        (0x0a, DataValue::Int32Vec3Array(all)) => {
            let all = all.iter().map(|v| (float(v.0), float(v.1), float(v.2)));
            *value = DataValue::FloatVec3Array(all.collect());
        }
        (COUNTED, DataValue::FloatVec4Array(all)) if all.len() == 1 => {
            *value = DataValue::FloatVec4(all[0]);
        }
        _ => {}
    }
}
