//! The lists that are stored for the definitions: such as 01 allows, and such as break one of its
//! words.

use super::broken::breaks;
use super::written::{Stored, Written};
use super::{Insertion, Sizes, Widening};
use crate::Random;

/// A checker computes them, so they are short.
const LONGEST: usize = 240;

impl Widening {
    /// The list without a last one, written down.
    fn written(&self) -> Vec<Written> {
        let mut save = self.old.clone();
        let mut written = Vec::new();
        for insertion in &self.list {
            written.push(insertion.written(&save));
            insertion.insert(&mut save);
        }
        written
    }
}

/// If it is short.
fn stored(made: &Widening, label: String, list: Vec<Written>, is_allowed: bool) -> Option<Stored> {
    let save = made.old.bytes();
    let length = |written: &Written| match written {
        Written::Field {
            definition, values, ..
        } => definition.len() + values.iter().map(Vec::len).sum::<usize>(),
        Written::Prototype { bytes, .. } | Written::Block { bytes, .. } => bytes.len(),
    };
    let is_short = save.len() + list.iter().map(length).sum::<usize>() <= LONGEST;
    is_short.then_some(Stored {
        label,
        is_allowed,
        save,
        list,
    })
}

/// All of them: the empty list, lists with every listed type, lists that bring placements into saves of
/// version 1, and the broken ones.
pub fn stored_lists() -> Vec<Stored> {
    let mut lists = allowed_lists(71, 200, |made| !made.list.is_empty());
    lists[0].list.clear();
    lists.extend(allowed_lists(1, 16, has_placements_of_version_1));
    lists.extend(broken_lists(1));
    lists
}

fn has_placements_of_version_1(made: &Widening) -> bool {
    let is_placement = |type_id: &u32| matches!(type_id, 0x19 | 0x1a);
    let types = made.inserted_types();
    made.old.version == 1 && types.iter().flatten().any(is_placement)
}

/// `count` lists that 01 allows, of those that are asked for.
fn allowed_lists(seed: u64, count: usize, is_asked: fn(&Widening) -> bool) -> Vec<Stored> {
    let all = (0..).map(|index| {
        let made = Widening::new(&mut Random::new(seed, index), Sizes::SMALL);
        (format!("list {index} of seed {seed}"), made)
    });
    let asked = all.filter(|(_, made)| is_asked(made));
    let short = asked.filter_map(|(label, made)| stored(&made, label, made.written(), true));
    short.take(count).collect()
}

/// Lists that break one word of 01: with their last insertion, one for each of the breaks,
/// and one with their order.
fn broken_lists(seed: u64) -> Vec<Stored> {
    let mut lists = Vec::new();
    for (number, (label, make)) in breaks().iter().enumerate() {
        let found = (0..).find_map(|index| {
            let mut random = Random::new(seed + number as u64, index);
            let mut made = Widening::new(&mut random, Sizes::SMALL);
            made.list.truncate(2);
            let last = make(&mut random, &made.new_save(), &made)?;
            let list = made.written().into_iter().chain([last]).collect();
            stored(&made, label.to_string(), list, false)
        });
        lists.extend(found);
    }
    lists.extend((0..).find_map(|index| out_of_order(seed, index)));
    lists
}

/// A list that has a block before its prototype, each of them otherwise in its place.
fn out_of_order(seed: u64, index: u64) -> Option<Stored> {
    let made = Widening::new(&mut Random::new(seed, index), Sizes::SMALL);
    let mut list = made.written();
    let [front @ .., Insertion::Prototype { prototype, .. }, Insertion::Block { block, .. }] =
        made.list.as_slice()
    else {
        return None;
    };
    if block.prototype != prototype.id {
        return None;
    }
    let end = made.shorter(front.len()).new_save().records.len();
    list.swap(front.len(), front.len() + 1);
    if let Some(Written::Block { record, .. }) = list.get_mut(front.len()) {
        *record = end;
    }
    let label = "(iii) before the (ii) of its prototype";
    stored(&made, label.to_string(), list, false)
}
