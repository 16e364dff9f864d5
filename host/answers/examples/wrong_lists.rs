//! `--example wrong_lists -- LIST FOLDER`: LIST with wrong answers, and damaged, as files of FOLDER;
//! beside each list, as NAME.expected, what `crates/replay` must print about it. `tests/replay/run`
//! compares.

use answers::{Entry, LookUp, LONGEST_RECORD};
use std::path::Path;

/// An edit of a record: the call that must differ, and the change, which says whether the record
/// has what it changes.
type Edit = (&'static str, &'static str, fn(&mut Entry) -> bool);

/// The reading comes first, then the text, then the look-ups; the first that differs is named.
const EDITS: [Edit; 20] = [
    ("a reading refused", "reading", |e| {
        from_to(&mut e.answer.reading, 0..=0, |_| 3)
    }),
    ("a refusal read", "reading", |e| {
        from_to(&mut e.answer.reading, 1..=7, |_| 0)
    }),
    ("a refusal under another number", "reading", |e| {
        from_to(&mut e.answer.reading, 1..=7, |n| n % 7 + 1)
    }),
    // 15 counts as the Rust's 3, but the Rust has no 15.
    ("a cut or a bad mark as 15", "reading", |e| {
        from_to(&mut e.answer.reading, 3..=3, |_| 15)
    }),
    ("a prototype more", "reading", |e| {
        e.answer.prototypes += 1;
        e.answer.reading == 0
    }),
    ("a block more", "reading", |e| {
        e.answer.blocks += 1;
        e.answer.reading == 0
    }),
    ("a block less", "reading", |e| {
        e.answer.blocks = e.answer.blocks.wrapping_sub(1);
        e.answer.reading == 0
    }),
    ("a byte of a text", "text", |e| {
        let middle = e.answer.text.len() / 2;
        e.answer.text.get_mut(middle).map(|b| *b ^= 1).is_some()
    }),
    ("a text's last byte left out", "text", |e| {
        e.answer.text.pop().is_some()
    }),
    ("a text with a byte more", "text", |e| {
        e.answer.text.push(b'\n');
        e.answer.reply == 0
    }),
    ("a text refused", "text", |e| {
        e.answer.text.clear();
        from_to(&mut e.answer.reply, 0..=0, |_| 8)
    }),
    ("a refused text empty", "text", |e| {
        from_to(&mut e.answer.reply, 8..=9, |_| 0)
    }),
    ("8 as 9", "text", |e| {
        from_to(&mut e.answer.reply, 8..=8, |_| 9)
    }),
    ("9 as 8", "text", |e| {
        from_to(&mut e.answer.reply, 9..=9, |_| 8)
    }),
    ("a text's refusal under another number", "text", |e| {
        from_to(&mut e.answer.reply, 1..=7, |n| n % 7 + 1)
    }),
    ("a text's cut or bad mark as 15", "text", |e| {
        from_to(&mut e.answer.reply, 3..=3, |_| 15)
    }),
    ("a number of a look-up", "look-up", |e| {
        let number = found(e).and_then(|one| one.numbers.last_mut());
        number.map(|number| *number += 1).is_some()
    }),
    ("a look-up's last number left out", "look-up", |e| {
        found(e).and_then(|one| one.numbers.pop()).is_some()
    }),
    ("a look-up with a number more", "look-up", |e| {
        let look_up = e.answer.look_ups.last_mut();
        look_up.map(|one| one.numbers.push(0)).is_some()
    }),
    ("a look-up under another name", "look-up", |e| {
        found(e).map(|one| one.name.push(b'x')).is_some()
    }),
];

fn from_to(number: &mut u32, from: std::ops::RangeInclusive<u32>, to: fn(u32) -> u32) -> bool {
    let applies = from.contains(number);
    *number = to(*number);
    applies
}

/// The last look-up under whose name there are blocks.
fn found(entry: &mut Entry) -> Option<&mut LookUp> {
    let look_ups = entry.answer.look_ups.iter_mut();
    look_ups.rev().find(|one| !one.numbers.is_empty())
}

fn main() -> std::io::Result<()> {
    let arguments: Vec<String> = std::env::args().skip(1).collect();
    let [list, folder] = arguments.as_slice() else {
        eprintln!("usage: cargo run --release --offline --example wrong_lists -- LIST FOLDER");
        std::process::exit(2);
    };
    let whole = std::fs::read(list)?;
    let read = || answers::entries(&whole).expect("a list of answers");
    let write = |name: &str, list: &[u8], expected: &str| {
        let folder = Path::new(folder);
        std::fs::write(folder.join(name), list)?;
        std::fs::write(folder.join(format!("{name}.expected")), expected)
    };
    for edit in EDITS {
        let (name, ..) = edit;
        let applies = applying(read(), edit);
        let middle = applies[applies.len() / 2];
        let (list, expected) = edited(read(), edit, &[middle]);
        write(name, &list, &expected)?;
        let (list, expected) = edited(read(), edit, &applies);
        write(&format!("{name}, in all files"), &list, &expected)?;
    }
    let mut others = damaged(&whole, read().len());
    others.extend(damaged_record(&whole, &read()));
    others.extend(longest(read()));
    for (name, list, expected) in others {
        write(name, &list, &expected)?;
    }
    Ok(())
}

/// The records that have what the edit changes.
fn applying(mut entries: Vec<Entry>, (name, _, change): Edit) -> Vec<usize> {
    let numbered = entries.iter_mut().enumerate();
    let applies: Vec<usize> = numbered
        .filter_map(|(i, e)| change(e).then_some(i))
        .collect();
    assert!(!applies.is_empty(), "{name}: no such file");
    applies
}

/// The list with these records changed, and what the program must print.
fn edited(mut entries: Vec<Entry>, (_, call, change): Edit, which: &[usize]) -> (Vec<u8>, String) {
    let mut expected = String::new();
    for index in which {
        let entry = &mut entries[*index];
        change(entry);
        expected += &format!("file {index}, {}: {call}\n", entry.label);
    }
    expected += &replayed(entries.len(), entries.len() - which.len());
    (answers::list(&entries), expected)
}

fn replayed(files: usize, equal: usize) -> String {
    format!("replayed {files} files: {equal} equal\n")
}

const NO_LIST: &str = "this is no list of answers\n";
const EARLY: &str = "the list ends early\n";

/// What the program says of a list that is cut behind so many records.
fn early(files: usize) -> String {
    replayed(files, files) + EARLY
}

/// A list's name, its bytes, and what the program must print.
type Damaged = (&'static str, Vec<u8>, String);

/// Bytes put over others.
fn changed(whole: &[u8], at: usize, bytes: &[u8]) -> Vec<u8> {
    let mut list = whole.to_vec();
    list[at..at + bytes.len()].copy_from_slice(bytes);
    list
}

/// Cut, or with another magic or count.
fn damaged(whole: &[u8], count: usize) -> Vec<Damaged> {
    let cut = |length: usize| whole[..length].to_vec();
    let counted = |count: usize| changed(whole, 16, &(count as u32).to_le_bytes());
    let (more, less) = (counted(count + 1), counted(count - 1));
    vec![
        ("empty", cut(0), NO_LIST.into()),
        ("magic cut", cut(15), NO_LIST.into()),
        ("another magic", changed(whole, 14, b"2"), NO_LIST.into()),
        ("count cut", cut(19), EARLY.into()),
        ("cut in the end mark", cut(whole.len() - 1), early(count)),
        ("a record less than counted", more, early(count)),
        ("a record more than counted", less, early(count - 1)),
    ]
}

/// Cut or changed in the middle record: its label stands behind its length and four numbers.
fn damaged_record(whole: &[u8], entries: &[Entry]) -> Vec<Damaged> {
    let count = entries.len();
    let middle = count / 2;
    let lengths = entries[..middle]
        .iter()
        .map(|entry| 4 + answers::record(entry).len());
    let at = 20 + lengths.sum::<usize>();
    let cut = |length: usize| whole[..at + length].to_vec();
    let broken = format!("file {middle}, : broken record\n") + &replayed(count, count - 1);
    let label = changed(whole, at + 20, &[0xff; 4]);
    vec![
        ("cut in a record's length", cut(3), early(middle)),
        ("cut in a record", cut(30), early(middle)),
        ("a label beyond its record", label, broken),
    ]
}

/// A record as long as the program has room for, and one that is longer, by bytes after the file's
/// end record.
fn longest(mut entries: Vec<Entry>) -> [Damaged; 2] {
    entries.truncate(1);
    let room = LONGEST_RECORD - answers::record(&entries[0]).len();
    let file = entries[0].file.clone();
    let mut list = |more: usize| {
        entries[0].file = [file.as_slice(), &vec![0; more]].concat();
        answers::list(&entries)
    };
    [
        ("the longest record", list(room), replayed(1, 1)),
        ("a record without room", list(room + 1), early(0)),
    ]
}
