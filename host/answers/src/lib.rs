//! The list of small files with the Rust's answers, written and read. `crates/replay/README.md`
//! gives its format. Nothing here needs the Rust.

const MAGIC: &[u8; 16] = b"BSII answers, 1\n";
const END: &[u8; 4] = b"end\n";

/// The longest record, without the length in front of it, that the program which reads the list has
/// room for.
pub const LONGEST_RECORD: usize = 65_536;

/// A file, what it is there for, and the Rust's answer.
pub struct Entry {
    pub label: String,
    pub file: Vec<u8>,
    pub answer: Answer,
}

/// Replies are 0 or a number of document 01. If the reading is refused, the text's reply is the same
/// and all else empty; 8 and 9 come from the text alone.
#[derive(Default)]
pub struct Answer {
    pub reading: u32,
    pub reply: u32,
    pub prototypes: u32,
    pub blocks: u32,
    pub text: Vec<u8>,
    pub look_ups: Vec<LookUp>,
}

/// The numbers of the blocks under a prototype name.
pub struct LookUp {
    pub name: Vec<u8>,
    pub numbers: Vec<u32>,
}

/// The list's bytes.
pub fn list(entries: &[Entry]) -> Vec<u8> {
    let mut list = MAGIC.to_vec();
    list.extend(length(entries.len()));
    for entry in entries {
        list.extend(part(&record(entry)));
    }
    list.extend(END);
    list
}

/// A record's bytes, without the length in front of it.
pub fn record(entry: &Entry) -> Vec<u8> {
    let answer = &entry.answer;
    let numbers = [
        answer.reading,
        answer.reply,
        answer.prototypes,
        answer.blocks,
    ];
    let mut record = bytes(&numbers);
    record.extend(part(entry.label.as_bytes()));
    record.extend(part(&entry.file));
    record.extend(part(&answer.text));
    for LookUp { name, numbers } in &answer.look_ups {
        record.extend(part(name));
        record.extend(part(&bytes(numbers)));
    }
    record
}

fn bytes(numbers: &[u32]) -> Vec<u8> {
    numbers.iter().flat_map(|n| n.to_le_bytes()).collect()
}

fn length(length: usize) -> [u8; 4] {
    u32::try_from(length).expect("small").to_le_bytes()
}

/// Bytes with their length in front.
fn part(bytes: &[u8]) -> Vec<u8> {
    [&length(bytes.len()), bytes].concat()
}

/// The entries of a list, if it has the format and nothing follows it.
pub fn entries(list: &[u8]) -> Option<Vec<Entry>> {
    let mut rest = list;
    let magic = take(&mut rest, MAGIC.len())?;
    let count = number(&mut rest)?;
    let entries = (0..count)
        .map(|_| entry(next_part(&mut rest)?))
        .collect::<Option<_>>()?;
    (magic == MAGIC && rest == END).then_some(entries)
}

fn entry(mut record: &[u8]) -> Option<Entry> {
    let rest = &mut record;
    let [reading, reply, prototypes, blocks] =
        [number(rest)?, number(rest)?, number(rest)?, number(rest)?];
    let label = String::from_utf8(next_part(rest)?.to_vec()).ok()?;
    let file = next_part(rest)?.to_vec();
    let text = next_part(rest)?.to_vec();
    let mut look_ups = Vec::new();
    while !rest.is_empty() {
        let name = next_part(rest)?.to_vec();
        let numbers = numbers(next_part(rest)?)?;
        look_ups.push(LookUp { name, numbers });
    }
    let answer = Answer {
        reading,
        reply,
        prototypes,
        blocks,
        text,
        look_ups,
    };
    Some(Entry {
        label,
        file,
        answer,
    })
}

fn numbers(mut bytes: &[u8]) -> Option<Vec<u32>> {
    let mut numbers = Vec::new();
    while !bytes.is_empty() {
        numbers.push(number(&mut bytes)?);
    }
    Some(numbers)
}

fn take<'a>(rest: &mut &'a [u8], n: usize) -> Option<&'a [u8]> {
    let (taken, left) = rest.split_at_checked(n)?;
    *rest = left;
    Some(taken)
}

fn number(rest: &mut &[u8]) -> Option<u32> {
    let bytes = take(rest, 4)?;
    Some(u32::from_le_bytes(bytes.try_into().ok()?))
}

fn next_part<'a>(rest: &mut &'a [u8]) -> Option<&'a [u8]> {
    let length = number(rest)?;
    take(rest, length as usize)
}
