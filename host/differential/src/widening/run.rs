//! A run over many lists.

use super::{first_unlisted, Widenings};
use crate::report::{Difference, Tally};
use crate::shrink::hex_dump;
use crate::watch;
use generate::save::Save;
use generate::widening::{widening, Insertion, Widening};
use generate::Random;
use std::fmt::Write;

/// Differences that are shown.
const SHOWN: u64 = 3;
/// A run ends after so many.
const ENOUGH: u64 = 1000;

/// What the lists of a run had in them.
#[derive(Default)]
pub struct Counts {
    pub lists: u64,
    /// Of these, into saves of version 1.
    pub version_1: u64,
    pub bytes: u64,
    /// (i), (ii) and (iii).
    pub insertions: [u64; 3],
    /// Of these, into inserted parts.
    pub nested: u64,
    /// Values and blocks that were inserted.
    pub values: u64,
    /// Last definitions of an unlisted type, carried by a block and not.
    pub carried: u64,
    pub uncarried: u64,
}

impl Counts {
    pub fn add(&mut self, made: &Widening) {
        self.lists += 1;
        self.version_1 += u64::from(made.old.version == 1);
        let mut save = made.old.clone();
        for insertion in &made.list {
            self.nested += insertion.is_nested(&save) as u64;
            let kind = match insertion {
                Insertion::Field { values, .. } => {
                    self.values += values.len() as u64;
                    0
                }
                Insertion::Prototype { .. } => 1,
                Insertion::Block { .. } => 2,
            };
            self.insertions[kind] += 1;
            insertion.insert(&mut save);
        }
        self.bytes += save.bytes().len() as u64;
        self.add_last(made, save);
    }

    fn add_last(&mut self, made: &Widening, mut save: Save) {
        let Some(last) = &made.last else { return };
        last.insert(&mut save);
        match first_unlisted(last, &save) {
            Some(_) => self.carried += 1,
            None => self.uncarried += 1,
        }
    }

    pub fn summary(&self, tally: &Tally) -> String {
        let [fields, prototypes, blocks] = self.insertions;
        let all = fields + prototypes + blocks;
        let mut text = String::new();
        let _ = writeln!(
            text,
            "lists       {} ({} bytes), {} into saves of version 1",
            self.lists, self.bytes, self.version_1
        );
        let _ = writeln!(
            text,
            "insertions  {all}: {fields} definitions with {} values, {prototypes} prototypes, \
             {blocks} blocks; {} into inserted parts",
            self.values, self.nested
        );
        let _ = writeln!(
            text,
            "unlisted    {} carried, {} not carried",
            self.carried, self.uncarried
        );
        let _ = writeln!(text, "answers     {}", tally.answers);
        let _ = writeln!(text, "differences {}", tally.differences);
        text
    }
}

/// Lists `first` to `first + count - 1` of a seed; what was found, and how many differences.
pub fn run(asked: &mut Widenings, seed: u64, first: u64, count: u64) -> (String, u64) {
    let (mut tally, mut counts) = (Tally::default(), Counts::default());
    let mut report = String::new();
    for index in first..first + count {
        watch::now(index);
        let made = widening(seed, index);
        counts.add(&made);
        let garbage = Random::new(!seed, index).number() as u32;
        let Err(difference) = asked.list(&made, garbage, &mut tally) else {
            continue;
        };
        tally.differences += 1;
        if tally.differences <= SHOWN {
            report += &describe(asked, &made, garbage, index, difference);
        }
        if tally.differences == ENOUGH {
            break;
        }
    }
    watch::done();
    report += &counts.summary(&tally);
    (report, tally.differences)
}

/// The difference on the shortest start of the list that still shows it.
fn describe(
    asked: &mut Widenings,
    made: &Widening,
    garbage: u32,
    index: u64,
    whole: Difference,
) -> String {
    let mut shortest = (made.clone(), whole);
    for count in 0..=made.list.len() {
        let shorter = made.shorter(count);
        if let Err(found) = asked.list(&shorter, garbage, &mut Tally::default()) {
            shortest = (shorter, found);
            break;
        }
    }
    let (made, Difference { label, detail }) = shortest;
    let mut text = format!("difference: {label}\n  list {index}: {detail}\n");
    text += &hex_dump(&made.old.bytes());
    for insertion in made.list.iter().chain(&made.last) {
        let _ = writeln!(text, "    {insertion:?}");
    }
    text
}
