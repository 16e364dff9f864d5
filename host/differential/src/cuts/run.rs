//! A run over many files.

use super::Cuts;
use crate::report::{Difference, Tally};
use crate::shrink::hex_dump;
use crate::watch;
use std::fmt::Write;

/// Differences that are shown.
const SHOWN: u64 = 3;
/// A run ends after so many.
const ENOUGH: u64 = 1000;

/// What one side was asked about.
#[derive(Default)]
pub struct Counts {
    pub files: u64,
    /// Of these, saves that are read, and their bytes.
    pub saves: u64,
    pub bytes: u64,
    /// Of these saves, those of version 1.
    pub version_1: u64,
    /// Files that damage has made run out.
    pub damaged: u64,
    pub cuts: u64,
    /// Cut or damaged ones with bytes behind them.
    pub longer: u64,
    /// Cuts in a value, which was an element call too.
    pub values: u64,
    pub marks: u64,
    pub lengths: u64,
    /// Files that are refused by another number than 3, with bytes behind them.
    pub unchanged: u64,
}

impl Counts {
    fn add(&mut self, other: &Counts) {
        self.files += other.files;
        self.saves += other.saves;
        self.bytes += other.bytes;
        self.version_1 += other.version_1;
        self.damaged += other.damaged;
        self.cuts += other.cuts;
        self.longer += other.longer;
        self.values += other.values;
        self.marks += other.marks;
        self.lengths += other.lengths;
        self.unchanged += other.unchanged;
    }

    pub fn summary(&self, tally: &Tally) -> String {
        let Counts { saves, bytes, .. } = self;
        let mut text = String::new();
        let _ = writeln!(
            text,
            "files       {}: {saves} saves ({bytes} bytes, {} of version 1), {} that run out",
            self.files, self.version_1, self.damaged
        );
        let _ = writeln!(
            text,
            "cuts        {}, {} of them in values; {} with bytes behind them",
            self.cuts, self.values, self.longer
        );
        let _ = writeln!(
            text,
            "changes     {} marks, {} lengths; {} other refusals with bytes behind them",
            self.marks, self.lengths, self.unchanged
        );
        let _ = writeln!(text, "answers     {}", tally.answers);
        let _ = writeln!(text, "differences {}", tally.differences);
        text
    }
}

/// Files `first` to `first + count - 1` of a seed; what was found, and how many differences.
pub fn run(asked: &mut Cuts, seed: u64, first: u64, count: u64) -> (String, u64) {
    let (mut tally, mut counts) = (Tally::default(), Counts::default());
    let mut report = String::new();
    for index in first..first + count {
        watch::now(index);
        match asked.file(seed, index, &mut tally) {
            Ok(of_one) => counts.add(&of_one),
            Err(difference) => {
                tally.differences += 1;
                if tally.differences <= SHOWN {
                    report += &describe(seed, index, difference);
                }
            }
        }
        if tally.differences == ENOUGH {
            break;
        }
    }
    watch::done();
    report += &counts.summary(&tally);
    (report, tally.differences)
}

fn describe(seed: u64, index: u64, Difference { label, detail }: Difference) -> String {
    let [whole, damaged] = [
        generate::whole(seed, index).bytes,
        generate::file(seed, index),
    ];
    let mut text = format!("difference: {label}\n  file {index}: {detail}\n");
    text += &hex_dump(&whole);
    if damaged != whole {
        text += "  damaged\n";
        text += &hex_dump(&damaged);
    }
    text
}
