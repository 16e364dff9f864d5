//! `differential [--files N | --lists N | --cuts N] [--seed S] [--first I] [--short | --large]
//! [--source DIR]`

use calls::Implementation;
use differential::compare::Comparison;
use differential::cuts::{self, Cuts};
use differential::report::{Difference, Tally};
use differential::shrink::{hex_dump, shrink};
use differential::widening::{self, Widenings};
use differential::{large, watch};
use generate::{Random, Short};
use std::io::Write;
use std::path::Path;
use std::process::exit;

/// Differences that are shrunk and shown, each with another label.
const SHOWN: usize = 5;
/// A run ends after so many differences.
const ENOUGH: u64 = 1000;

struct Arguments {
    files: Option<u64>,
    /// Lists of insertions are asked about in place of files.
    lists: Option<u64>,
    /// Cuts of files are asked about in place of files.
    cuts: Option<u64>,
    seed: u64,
    first: u64,
    kind: Kind,
}

#[derive(PartialEq)]
enum Kind {
    Random,
    Short,
    Large,
}

fn stop(message: &str) -> ! {
    eprintln!("differential: {message}");
    exit(2)
}

fn number(text: &str) -> u64 {
    text.parse()
        .unwrap_or_else(|_| stop(&format!("{text} is no number")))
}

fn arguments() -> Arguments {
    let mut found = Arguments {
        files: None,
        lists: None,
        cuts: None,
        seed: 1,
        first: 0,
        kind: Kind::Random,
    };
    let mut words = std::env::args().skip(1);
    while let Some(word) = words.next() {
        let mut value = || {
            words
                .next()
                .unwrap_or_else(|| stop(&format!("{word} wants a value")))
        };
        match word.as_str() {
            "--files" => found.files = Some(number(&value())),
            "--lists" => found.lists = Some(number(&value())),
            "--cuts" => found.cuts = Some(number(&value())),
            "--seed" => found.seed = number(&value()),
            "--first" => found.first = number(&value()),
            "--short" => found.kind = Kind::Short,
            "--large" => found.kind = Kind::Large,
            "--source" => check_source(Path::new(&value())),
            other => stop(&format!("what is {other}?")),
        }
    }
    found
}

/// The source is compiled in: make sure that it is the one meant.
fn check_source(folder: &Path) {
    for (name, text) in oracle::SOURCE {
        let paths = [
            folder.join(format!("src--src--{name}.txt")),
            folder.join(name),
        ];
        let there = paths
            .iter()
            .find_map(|path| std::fs::read_to_string(path).ok());
        match there {
            Some(there) if there == text => {}
            Some(_) => stop(&format!(
                "built from another {name}: build again with SII_SOURCE={}",
                folder.display()
            )),
            None => stop(&format!("no {name} in {}", folder.display())),
        }
    }
}

#[cfg(feature = "linked")]
fn library() -> Option<Box<dyn Implementation + Send>> {
    Some(Box::new(differential::linked::Linked))
}

#[cfg(not(feature = "linked"))]
fn library() -> Option<Box<dyn Implementation + Send>> {
    None
}

type Files = Box<dyn Fn(u64) -> Vec<u8>>;

/// How many files there are, and each one.
fn files(arguments: &Arguments) -> (u64, Files) {
    let seed = arguments.seed;
    match arguments.kind {
        Kind::Random => {
            let count = arguments.files.unwrap_or(100_000);
            (count, Box::new(move |index| generate::file(seed, index)))
        }
        Kind::Short => {
            let short = Short::new(seed, 12, 90);
            let left = short.len().saturating_sub(arguments.first);
            let count = arguments.files.unwrap_or(left).min(left);
            (count, Box::new(move |index| short.file(index)))
        }
        Kind::Large => {
            let all = large::files();
            let left = (all.len() as u64).saturating_sub(arguments.first);
            (left, Box::new(move |index| all[index as usize].clone()))
        }
    }
}

fn main() {
    let arguments = arguments();
    if let Some(count) = arguments.lists {
        exit(lists(count, &arguments));
    }
    if let Some(count) = arguments.cuts {
        exit(cuts(count, &arguments));
    }
    let mut comparison = Comparison::default();
    comparison.library = library();
    let mut report = match oracle::silence_stdout() {
        Ok(stdout) => stdout,
        Err(error) => stop(&format!("standard output: {error}")),
    };
    watch::start();
    let (count, file) = files(&arguments);
    let mut tally = Tally::default();
    let mut shown: Vec<String> = Vec::new();
    for index in arguments.first..arguments.first + count {
        watch::now(index);
        let bytes = file(index);
        let mut random = Random::new(!arguments.seed, index);
        let Err(difference) = comparison.file(&bytes, &mut random, &mut tally) else {
            continue;
        };
        tally.differences += 1;
        if shown.len() < SHOWN && !shown.contains(&difference.label) {
            let text = describe(&mut comparison, &difference, &bytes, arguments.seed, index);
            let _ = report.write_all(text.as_bytes());
            shown.push(difference.label);
        }
        if tally.differences == ENOUGH {
            break;
        }
    }
    let _ = report.write_all(tally.summary().as_bytes());
    exit(if tally.differences > 0 { 1 } else { 0 });
}

/// Demand 3 on lists of insertions; the exit status.
fn lists(count: u64, arguments: &Arguments) -> i32 {
    let mut asked = Widenings::default();
    asked.library = library();
    watch::start();
    let Arguments { seed, first, .. } = *arguments;
    let (report, differences) = widening::run(&mut asked, seed, first, count);
    print!("{report}");
    i32::from(differences > 0)
}

/// Replies 3 and 15 on cut and changed files; the exit status.
fn cuts(count: u64, arguments: &Arguments) -> i32 {
    let mut asked = Cuts::default();
    asked.library = library();
    watch::start();
    let Arguments { seed, first, .. } = *arguments;
    let (report, differences) = cuts::run(&mut asked, seed, first, count);
    print!("{report}");
    i32::from(differences > 0)
}

/// The difference on the smallest file that still shows it.
fn describe(
    comparison: &mut Comparison,
    difference: &Difference,
    bytes: &[u8],
    seed: u64,
    index: u64,
) -> String {
    let mut last = difference.clone();
    let small = shrink(bytes, |smaller| {
        watch::now(index);
        let mut random = Random::new(!seed, index);
        match comparison.file(smaller, &mut random, &mut Tally::default()) {
            Err(found) if found.label == difference.label => {
                last = found;
                true
            }
            _ => false,
        }
    });
    let detail = &last.detail;
    let dump = hex_dump(&small);
    format!(
        "difference: {}\n  file {index}: {detail}\n{dump}",
        difference.label
    )
}
