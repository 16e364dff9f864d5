//! What is asked about a file.

use calls::{enough_words, Call, ROW};
use model::{Model, Parsed, Place};

/// The text length up to which the Rust is asked for the text.
pub const TEXT_MEMORY: u64 = 64 << 20;

pub struct Plan {
    /// The file's, if it is accepted.
    pub version: u32,
    pub names: Vec<Vec<u8>>,
    pub ids: Vec<u32>,
    pub blocks: Vec<u64>,
    /// Words enough for the file, and two that hold nothing.
    pub words: usize,
    /// The distinct ids, if the file is accepted.
    pub distinct: Option<usize>,
    /// Whether the file is accepted and defines no id twice.
    pub is_once: bool,
    /// What an index is asked about, also of a file that is refused.
    pub index: IndexPlan,
}

/// By what stands in front of the file's first fault.
pub struct IndexPlan {
    pub index: Vec<u8>,
    /// Offsets of records, types, lengths and values.
    pub places: Vec<usize>,
    /// Some of the names, and one that is nowhere.
    pub names: Vec<Vec<u8>>,
}

/// Places and names that an index is asked about, so that a large file does not cost more.
const MOST: usize = 1000;

impl IndexPlan {
    fn new(file: &[u8], read: &Parsed) -> IndexPlan {
        let mut places = read.starts.clone();
        places.extend(read.types.iter().map(|(at, _)| at));
        // A string's length stands in front of it.
        places.extend(read.names.iter().map(|name| name.offset - 4));
        let values = read.blocks.iter().flat_map(|block| &block.values);
        places.extend(values.map(|value| value.place.offset));
        let mut names = vec![b"nowhere".to_vec()];
        names.extend(
            read.names
                .iter()
                .take(MOST)
                .map(|name| name.of(file).to_vec()),
        );
        let index = read.index();
        IndexPlan {
            index,
            places: places.into_iter().take(MOST).collect(),
            names,
        }
    }
}

impl Plan {
    pub fn new(model: &mut Model, file: &[u8]) -> Plan {
        let mut plan = Plan {
            version: 0,
            names: vec![b"".to_vec(), b"nowhere".to_vec(), vec![0xff]],
            ids: vec![0, 1, 0xffff_ffff],
            blocks: vec![0, u64::MAX, 1 << 32],
            words: enough_words(file.len()) + 2,
            distinct: None,
            is_once: false,
            index: IndexPlan::new(file, model.in_front_of_fault(file)),
        };
        if let Ok(parsed) = model.parsed(file, usize::MAX) {
            let name = |place: &Place| place.of(file).to_vec();
            plan.version = parsed.version;
            plan.names.extend(parsed.names.iter().map(name));
            plan.ids.extend(parsed.prototypes.iter().map(|p| p.id));
            plan.blocks.extend(0..=parsed.blocks.len() as u64);
            plan.distinct = Some(parsed.prototypes.len());
            plan.is_once = !parsed.redefined;
            plan.words = ROW * parsed.prototypes.len() + 2;
            plan.add_close_names();
        }
        plan.names.sort();
        plan.names.dedup();
        plan.ids.sort();
        plan.ids.dedup();
        plan.blocks.sort();
        plan.blocks.dedup();
        plan
    }

    /// One call of each kind that takes a file and a table.
    pub fn calls(&self) -> [Call<'_>; 10] {
        let name = self.names.last().expect("some are always asked for");
        let index = &self.index.index;
        [
            Call::Read,
            Call::GetPrototype { id: self.ids[0] },
            Call::BlockAt { n: 0 },
            Call::BlocksByPrototypeName { name, n: 0 },
            Call::FieldOf { block: 0, name },
            Call::ToSiin,
            Call::WriteIndex,
            Call::CheckIndex { index },
            Call::DefinesOnce,
            Call::Forecast,
        ]
    }

    /// Names that share a start with one of the file.
    fn add_close_names(&mut self) {
        let Some(longest) = self.names.iter().max_by_key(|name| name.len()) else {
            return;
        };
        let shorter = longest[..longest.len() - 1].to_vec();
        let longer = [longest.as_slice(), b"x"].concat();
        self.names.extend([shorter, longer]);
    }
}

/// The indices that are asked of a value with `count` elements: the first ones, the last one, and
/// three that are absent.
pub fn indices(count: u64) -> impl Iterator<Item = u64> {
    let last = count.saturating_sub(1);
    let first = 0..count.min(6);
    let tail = (last >= 6).then_some(last);
    first.chain(tail).chain([count, count + 1, u64::MAX])
}
