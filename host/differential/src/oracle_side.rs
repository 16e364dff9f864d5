//! An implementation against the unchanged Rust.

use crate::plan::{indices, Plan, TEXT_MEMORY};
use crate::report::{differ, Check, Difference, Exception, Label, Note, Tally};
use crate::side::Side;
use crate::stand_in::StandIn;
use calls::{kind, one_nan, Answer, Call, Element, Field, Forecast, LENGTH_LIMIT};
use model::{word_text, Model, Place};
use oracle::{BsiiFile, DataValue, Fault, Id};

/// What the Rust says about a file, or about its stand-in.
pub struct Verdict<'a> {
    stand_in: &'a StandIn<'a>,
    parsed: Result<BsiiFile<'a>, Fault>,
    text: Result<Option<String>, Fault>,
    /// The file has version 1, and the Rust's text shows 0 for a minus zero, or another NaN.
    has_lost_sums: bool,
    /// The length that 01 gives the text, and the places that are not compared.
    needed: u64,
    open: Vec<Place>,
}

/// Counts a file under the replies that the model gives.
fn count_replies(file: &[u8], reading: u32, text: u32, tally: &mut Tally) {
    tally.files += 1;
    tally.bytes += file.len() as u64;
    tally.readings[reading as usize] += 1;
    tally.texts[text as usize] += 1;
}

impl<'a> Verdict<'a> {
    pub fn new(
        file: &[u8],
        stand_in: &'a StandIn<'a>,
        model: &mut Model,
        tally: &mut Tally,
    ) -> Result<Verdict<'a>, Difference> {
        let reserved = oracle::huge_requests();
        let parsed = stand_in.parse();
        if oracle::huge_requests() > reserved {
            tally.note(Note::HugeCount);
        }
        if file.starts_with(b"BSII") && file.len() < 8 {
            tally.note(Note::ShortHeader);
        }
        let read = model
            .parsed(file, usize::MAX)
            .map_or_else(|fault| fault.number, |_| 0);
        let (number, needed, open) = match model.whole_text(file, 0) {
            Ok((_, length, open)) => (0, length, open),
            Err(fault) => (fault.number, 0, Vec::new()),
        };
        count_replies(file, read, number, tally);
        if file.len() <= LENGTH_LIMIT {
            stand_in.stops(&parsed, tally)?;
        }
        let text = match &parsed {
            Err(fault) => Err(fault.clone()),
            Ok(_) if needed > TEXT_MEMORY => Ok(None),
            Ok(parsed) => oracle::to_siin(parsed).map(Some),
        };
        let has_lost_sums = parsed
            .as_ref()
            .is_ok_and(|parsed| stand_in.is_version_1() && stand_in.has_open_sums(parsed));
        Ok(Verdict {
            stand_in,
            parsed,
            text,
            has_lost_sums,
            needed,
            open,
        })
    }

    fn reading_number(&self) -> u32 {
        self.parsed.as_ref().map_or_else(number, |_| 0)
    }
}

fn number(fault: &Fault) -> u32 {
    // No reply has this number, so an unknown panic shows as a difference.
    fault.number().unwrap_or(u32::MAX)
}

/// A reply under the number that the oracle has for it: the Rust's InvalidInput is a bad mark as well
/// as a cut. The two are told apart by the comparison with the model.
fn class(reply: u32) -> u32 {
    match reply {
        15 => 3,
        other => other,
    }
}

pub fn compare(
    side: &mut Side<'_>,
    file: &[u8],
    plan: &Plan,
    verdict: &Verdict<'_>,
    tally: &mut Tally,
) -> Check {
    if file.len() > LENGTH_LIMIT {
        tally.except(Exception::LengthLimit);
        return refusals(side, file, plan, 12, tally);
    }
    if let Err(Fault::Unknown(panic)) = &verdict.parsed {
        return differ(("Rust", "unknown panic in parse"), panic);
    }
    if let Err(Fault::Unknown(panic)) = &verdict.text {
        return differ(("Rust", "unknown panic in to_siin"), panic);
    }
    match &verdict.parsed {
        Err(_) => refusals(side, file, plan, verdict.reading_number(), tally)?,
        Ok(parsed) => {
            let mut lookups = Lookups {
                side,
                file,
                plan,
                stand_in: verdict.stand_in,
                parsed,
                tally,
            };
            lookups.reading()?;
            lookups.prototypes()?;
            lookups.blocks()?;
            lookups.names()?;
            let index = lookups.index()?;
            lookups.fields(index.as_deref())?;
        }
    }
    text(side, file, plan, verdict, tally)?;
    forecast(side, file, plan, verdict, tally)
}

fn label(side: &Side<'_>, call: &'static str) -> Label {
    match side.name {
        "model" => ("model and Rust", call),
        _ => ("library and Rust", call),
    }
}

/// Every call gives the file's first fault.
fn refusals(
    side: &mut Side<'_>,
    file: &[u8],
    plan: &Plan,
    expected: u32,
    tally: &mut Tally,
) -> Check {
    let mut found = [0; 10];
    for (found, call) in found.iter_mut().zip(plan.calls()) {
        *found = class(side.ask(call, file, plan.words)?.number());
    }
    let label = label(side, "class of a refused file");
    tally.same(
        label,
        || "reply to each call".to_string(),
        found,
        [expected; 10],
    )
}

struct Lookups<'a, 'b> {
    side: &'a mut Side<'b>,
    file: &'a [u8],
    plan: &'a Plan,
    stand_in: &'a StandIn<'a>,
    parsed: &'a BsiiFile<'a>,
    tally: &'a mut Tally,
}

impl Lookups<'_, '_> {
    fn ask(&mut self, call: Call<'_>) -> Result<Answer, Difference> {
        self.side.ask(call, self.file, self.plan.words)
    }

    fn reading(&mut self) -> Check {
        let reading = self.ask(Call::Read)?.reading();
        let found = (reading.number, reading.prototypes, reading.blocks);
        let counts = (self.parsed.prototypes.len(), self.parsed.data_blocks.len());
        let expected = (0, counts.0 as u64, counts.1 as u64);
        let label = label(self.side, "reading");
        self.tally.same(label, String::new, found, expected)?;
        self.next(reading.next as usize)
    }

    /// The Rust gives no offset after the end record. But it accepts the file cut there, and no
    /// shorter one.
    fn next(&mut self, next: usize) -> Check {
        let label = label(self.side, "offset after the end record");
        let whole = self.stand_in.up_to(next);
        let Some(whole) = whole.filter(|whole| !whole.is_empty()) else {
            return differ(label, format!("offset {next}"));
        };
        let replies = [whole, &whole[..whole.len() - 1]]
            .map(|cut| oracle::parse(cut).map_or_else(|fault| number(&fault), |_| 0));
        self.tally
            .same(label, || format!("offset {next}"), replies, [0, 3])
    }

    fn prototypes(&mut self) -> Check {
        let label = label(self.side, "prototype");
        for id in &self.plan.ids {
            let answer = self.ask(Call::GetPrototype { id: *id })?.prototype();
            let expected = match self.parsed.get_prototype(*id) {
                None => (13, 0, 0, 0),
                Some(prototype) => {
                    let (offset, len) = self.stand_in.place(prototype.name);
                    (0, offset, len, prototype.fields().count() as u64)
                }
            };
            let found = (
                answer.number,
                answer.name_offset,
                answer.name_len,
                answer.fields,
            );
            self.tally
                .same(label, || format!("id {id:#x}"), found, expected)?;
        }
        Ok(())
    }

    fn blocks(&mut self) -> Check {
        let label = label(self.side, "block");
        for n in &self.plan.blocks {
            let answer = self.ask(Call::BlockAt { n: *n })?.block();
            let block = self.parsed.data_blocks.get(*n as usize);
            let expected = block.map_or((13, 0), |block| (0, block.prototype_id));
            let found = (answer.number, answer.prototype_id);
            self.tally
                .same(label, || format!("block {n}"), found, expected)?;
            if let Some(block) = block {
                let place = part(self.file, answer.id_offset, answer.id_len);
                let ok = place.is_some_and(|bytes| same_id(bytes, &block.id));
                let label = (label.0, "block's id");
                self.tally
                    .same(label, || format!("block {n}: {answer:?}"), ok, true)?;
            }
        }
        Ok(())
    }

    fn names(&mut self) -> Check {
        let label = label(self.side, "blocks_by_prototype_name");
        for name in &self.plan.names {
            let mut expected = self.numbers_named(name);
            expected.push(None);
            for (n, expected) in expected.iter().enumerate() {
                let n = n as u64;
                let call = Call::BlocksByPrototypeName { name, n };
                let answer = self.ask(call)?.named();
                let found = (answer.number, answer.value);
                let expected = expected.map_or((13, 0), |value| (0, value));
                self.tally
                    .same(label, || format!("{name:?}, {n}"), found, expected)?;
            }
        }
        Ok(())
    }

    /// The numbers of the blocks that the Rust gives for a name, by their addresses.
    fn numbers_named(&self, name: &[u8]) -> Vec<Option<u64>> {
        let Ok(name) = std::str::from_utf8(name) else {
            return Vec::new();
        };
        let first = self.parsed.data_blocks.as_ptr() as usize;
        let size = std::mem::size_of::<oracle::DataBlock<'_>>();
        self.parsed
            .blocks_by_prototype_name(name)
            .map(|block| Some(((block as *const _ as usize - first) / size) as u64))
            .collect()
    }

    /// The index that the side writes, which it accepts, if no prototype id is defined twice.
    fn index(&mut self) -> Result<Option<Vec<u8>>, Difference> {
        let label = label(self.side, "index");
        let Some(index) = self.side.whole_index(self.file, self.plan.words)? else {
            return differ(label, "an accepted file has none");
        };
        let asked = || format!("{index:02x?}");
        let blocks = self.parsed.data_blocks.len();
        let bytes = blocks * calls::RECORD;
        self.tally.same(label, asked, index.len(), bytes)?;
        let checked = self.ask(Call::CheckIndex { index: &index })?;
        self.tally.same(label, asked, checked.fault(), (0, 0, 0))?;
        let once = self.ask(Call::DefinesOnce)?.named();
        Ok(Some(index).filter(|_| once.value == 1))
    }

    /// With an index also by it: what the Rust says of the field call then holds for the look-up too.
    fn fields(&mut self, index: Option<&[u8]>) -> Check {
        let plan = self.plan;
        for n in &plan.blocks {
            for name in &plan.names {
                let found = self.field(*n, name)?;
                if let Some(index) = index {
                    let block = *n;
                    let call = Call::FieldByIndex { index, block, name };
                    let by_index = self.side.ask(call, self.file, 0)?.field();
                    let asked = || format!("block {n}, name {name:?}");
                    let label = label(self.side, "field_by_index");
                    self.tally.same(label, asked, by_index, found)?;
                }
            }
        }
        Ok(())
    }

    fn field(&mut self, n: u64, name: &[u8]) -> Result<Field, Difference> {
        let answer = self.ask(Call::FieldOf { block: n, name })?.field();
        let block = self.parsed.data_blocks.get(n as usize);
        let value = match (block, std::str::from_utf8(name)) {
            (Some(block), Ok(name)) => block.field(self.parsed, name),
            _ => None,
        };
        let expected = if value.is_some() { 0 } else { 13 };
        let asked = || format!("block {n}, name {name:?}");
        let call = label(self.side, "field");
        self.tally.same(call, asked, answer.number, expected)?;
        let Some(value) = value else {
            return Ok(answer);
        };
        let Some(bytes) = part(self.file, answer.part_offset, answer.part_len) else {
            return differ(call, format!("{}: {answer:?}", asked()));
        };
        for index in indices(count(value)) {
            let version = self.plan.version;
            let element = self.side.element(version, answer.type_id, bytes, index);
            let (expected, is_other_nan) = expected_element(version, value, index).with_one_nan();
            if is_other_nan {
                self.tally.except(Exception::ElementNan);
            }
            let ok = same_element(&element, bytes, &expected, self.stand_in);
            let asked = || format!("{}, index {index}: {element:?}, Rust {value:?}", asked());
            let label = label(self.side, "element");
            self.tally.same(label, asked, ok, true)?;
        }
        Ok(answer)
    }
}

fn part(file: &[u8], offset: u64, len: u64) -> Option<&[u8]> {
    let start = usize::try_from(offset).ok()?;
    let end = start.checked_add(usize::try_from(len).ok()?)?;
    file.get(start..end)
}

/// What the Rust holds for one element.
enum Expected<'a> {
    Absent,
    String(&'a str),
    Word(&'a str),
    Id(&'a Id),
    Parts(u32, [u32; 8]),
    Value(u32, u64),
}

impl Expected<'_> {
    /// With the one NaN that there is for every other, and whether there is another.
    fn with_one_nan(self) -> (Self, bool) {
        match self {
            Expected::Parts(case, parts) if case != kind::THREE_I32 => {
                let one = parts.map(one_nan);
                (Expected::Parts(case, one), one != parts)
            }
            other => (other, false),
        }
    }
}

fn count(value: &DataValue<'_>) -> u64 {
    value.get_array_length().map_or(1, |length| length as u64)
}

/// Of a placement of version 1, all but the f4 that the stand-in has put in.
fn expected_element<'a>(version: u32, value: &'a DataValue<'_>, index: u64) -> Expected<'a> {
    if index >= count(value) {
        return Expected::Absent;
    }
    let i = index as usize;
    let bits = |floats: &[f32]| {
        let mut parts = [0; 8];
        for (part, float) in parts.iter_mut().zip(floats) {
            *part = float.to_bits();
        }
        parts
    };
    let placement = |p: &(f32, f32, f32, f32, f32, f32, f32, f32)| {
        if version == 1 {
            let parts = bits(&[p.0, p.1, p.2, p.4, p.5, p.6, p.7]);
            return Expected::Parts(kind::SEVEN_F32, parts);
        }
        let parts = bits(&[p.0, p.1, p.2, p.3, p.4, p.5, p.6, p.7]);
        Expected::Parts(kind::PLACEMENT, parts)
    };
    let three_floats =
        |v: &(f32, f32, f32)| Expected::Parts(kind::THREE_F32, bits(&[v.0, v.1, v.2]));
    let four_floats =
        |v: &(f32, f32, f32, f32)| Expected::Parts(kind::FOUR_F32, bits(&[v.0, v.1, v.2, v.3]));
    let three = |v: &(i32, i32, i32)| {
        let [a, b, c] = [v.0, v.1, v.2].map(|part| part as u32);
        Expected::Parts(kind::THREE_I32, [a, b, c, 0, 0, 0, 0, 0])
    };
    match value {
        DataValue::String(text) => Expected::String(text),
        DataValue::StringArray(texts) => Expected::String(texts[i]),
        DataValue::EncodedString(word) => Expected::Word(word),
        DataValue::EncodedStringArray(words) => Expected::Word(&words[i]),
        DataValue::Id(id) => Expected::Id(id),
        DataValue::IdArray(ids) => Expected::Id(&ids[i]),
        DataValue::Float(float) => Expected::Parts(kind::F32, bits(&[*float])),
        DataValue::FloatArray(floats) => Expected::Parts(kind::F32, bits(&[floats[i]])),
        DataValue::FloatVec2(v) => Expected::Parts(kind::TWO_F32, bits(&[v.0, v.1])),
        DataValue::FloatVec3(v) => three_floats(v),
        DataValue::FloatVec3Array(all) => three_floats(&all[i]),
        DataValue::FloatVec4(v) => four_floats(v),
        DataValue::FloatVec4Array(all) => four_floats(&all[i]),
        DataValue::FloatVec8(p) => placement(p),
        DataValue::FloatVec8Array(all) => placement(&all[i]),
        DataValue::Int32Vec3(v) => three(v),
        DataValue::Int32Vec3Array(all) => three(&all[i]),
        DataValue::Int32(number) => Expected::Value(kind::I32, *number as u64),
        DataValue::Int32Array(all) => Expected::Value(kind::I32, all[i] as u64),
        DataValue::UInt32(number) => Expected::Value(kind::U32, *number as u64),
        DataValue::UInt32Array(all) => Expected::Value(kind::U32, all[i] as u64),
        DataValue::UInt16(number) => Expected::Value(kind::U16, *number as u64),
        DataValue::UInt16Array(all) => Expected::Value(kind::U16, all[i] as u64),
        DataValue::Int64(number) => Expected::Value(kind::I64, *number as u64),
        DataValue::Int64Array(all) => Expected::Value(kind::I64, all[i] as u64),
        DataValue::UInt64(number) => Expected::Value(kind::U64, *number),
        DataValue::UInt64Array(all) => Expected::Value(kind::U64, all[i]),
        DataValue::Bool(truth) => Expected::Value(kind::BOOL, *truth as u64),
        DataValue::BoolArray(all) => Expected::Value(kind::BOOL, all[i] as u64),
        DataValue::Enum(number) => Expected::Value(kind::ENUM, *number as u64),
    }
}

fn same_element(
    found: &Element,
    bytes: &[u8],
    expected: &Expected<'_>,
    stand_in: &StandIn<'_>,
) -> bool {
    let place = || part(bytes, found.place_offset, found.place_len);
    if let Expected::Absent = expected {
        return found.number == 13;
    }
    if found.number != 0 {
        return false;
    }
    match expected {
        Expected::Absent => false,
        Expected::String(text) => {
            let same = |bytes: &[u8]| stand_in.place(text) == stand_in.place_in_file(bytes);
            found.kind == kind::STRING && place().is_some_and(same)
        }
        Expected::Word(word) => found.kind == kind::WORD && word_text(found.value) == **word,
        Expected::Id(id) => found.kind == kind::ID && place().is_some_and(|at| same_id(at, id)),
        Expected::Parts(kind, parts) => found.kind == *kind && found.parts == *parts,
        Expected::Value(kind, value) => found.kind == *kind && found.value == *value,
    }
}

/// Whether bytes, from an id's first one to its last, encode what the Rust read.
fn same_id(bytes: &[u8], id: &Id) -> bool {
    let Some((first, rest)) = bytes.split_first() else {
        return false;
    };
    let mut words = rest.chunks(8).map(|chunk| {
        let mut word = [0; 8];
        word[..chunk.len()].copy_from_slice(chunk);
        u64::from_le_bytes(word)
    });
    match id {
        Id::Nameless(number) => *first == 0xff && rest.len() == 8 && words.next() == Some(*number),
        Id::Named(parts) => {
            let lens = *first as usize == parts.len() && rest.len() == 8 * parts.len();
            lens && words
                .zip(parts)
                .all(|(word, part)| word_text(word % (1 << 63)) == *part)
        }
    }
}

/// The text with room to spare, with exact room, and with too little.
fn text(
    side: &mut Side<'_>,
    file: &[u8],
    plan: &Plan,
    verdict: &Verdict<'_>,
    tally: &mut Tally,
) -> Check {
    let call = label(side, "text");
    let (words, needed) = (plan.words, verdict.needed);
    match &verdict.text {
        Err(fault) => {
            let found = class(side.text(file, words, 64)?.number);
            tally.same(call, || "reply".to_string(), found, number(fault))
        }
        Ok(None) => {
            tally.except(Exception::TextMemory);
            Ok(())
        }
        Ok(Some(_)) if verdict.has_lost_sums => {
            tally.except(Exception::Version1Sum);
            Ok(())
        }
        Ok(Some(text)) => {
            tally.same(call, || "length".to_string(), needed, text.len() as u64)?;
            for room in [needed as usize + 9, needed as usize] {
                let answer = side.text(file, words, room)?;
                tally.same(call, || format!("room {room}"), answer.number, 0)?;
                same_text(side.written(answer.length), text, verdict, call, tally)?;
            }
            too_little_room(side, file, plan, verdict, tally)
        }
    }
}

/// Refused where the Rust does not print, and of what it prints the length. Of what it has read the
/// distinct ids, the blocks and, if no id is defined twice, the steps; a replaced prototype is not
/// among it.
fn forecast(
    side: &mut Side<'_>,
    file: &[u8],
    plan: &Plan,
    verdict: &Verdict<'_>,
    tally: &mut Tally,
) -> Check {
    let call = label(side, "forecast");
    let found = side.forecast(file, plan.words)?;
    let (parsed, text) = match (&verdict.parsed, &verdict.text) {
        (Ok(parsed), Ok(text)) => (parsed, text),
        (Err(fault), _) | (_, Err(fault)) => {
            return tally.same(
                call,
                || "reply".to_string(),
                class(found.number),
                number(fault),
            )
        }
    };
    let [prototypes, blocks, values] = counts(parsed);
    let shown = text.as_ref().filter(|_| !verdict.has_lost_sums);
    let expected = Forecast {
        table_words: calls::ROW as u64 * prototypes,
        index_len: calls::RECORD as u64 * blocks,
        text_len: shown.map_or(found.text_len, |text| text.len() as u64),
        steps: match plan.is_once {
            true => prototypes + blocks + values + 1,
            false => found.steps,
        },
        // The Rust has no bytes of a block.
        largest_block: found.largest_block,
        ..Forecast::default()
    };
    tally.same(call, String::new, found, expected)
}

/// Prototypes, blocks and values that the Rust has read.
fn counts(parsed: &BsiiFile<'_>) -> [u64; 3] {
    let values = parsed.data_blocks.iter().map(|block| block.data.len());
    [
        parsed.prototypes.len(),
        parsed.data_blocks.len(),
        values.sum(),
    ]
    .map(|count| count as u64)
}

fn too_little_room(
    side: &mut Side<'_>,
    file: &[u8],
    plan: &Plan,
    verdict: &Verdict<'_>,
    tally: &mut Tally,
) -> Check {
    let call = label(side, "needed length");
    let needed = verdict.needed as usize;
    for room in [needed - 1, (file.len() * 7) % needed] {
        let answer = side.text(file, plan.words, room)?;
        let found = (answer.number, answer.length);
        tally.same(call, || format!("room {room}"), found, (11, verdict.needed))?;
    }
    Ok(())
}

/// Compares two texts, but for the open places if they differ there.
fn same_text(
    found: &[u8],
    expected: &str,
    verdict: &Verdict<'_>,
    call: Label,
    tally: &mut Tally,
) -> Check {
    tally.answers += 1;
    if found == expected.as_bytes() {
        if !verdict.open.is_empty() {
            tally.note(Note::PlacementNanEqual);
        }
        return Ok(());
    }
    if same_but_open(found, expected.as_bytes(), &verdict.open) {
        tally.except(Exception::PlacementNan);
        return Ok(());
    }
    let show = |bytes: &[u8]| String::from_utf8_lossy(bytes).into_owned();
    let detail = format!("found\n{}\nexpected\n{expected}", show(found));
    differ(call, detail)
}

/// Equal outside the open places, where the Rust shows some NaN. A NaN has eight digits, so the
/// places are the same in both texts.
fn same_but_open(found: &[u8], expected: &[u8], open: &[Place]) -> bool {
    let is_open = |i: usize| {
        open.iter()
            .any(|place| (place.offset..place.offset + place.len).contains(&i))
    };
    found.len() == expected.len()
        && (0..found.len()).all(|i| found[i] == expected[i] || is_open(i))
        && open.iter().all(|place| shows_nan(place.of(expected)))
}

fn shows_nan(text: &[u8]) -> bool {
    let digits = std::str::from_utf8(text)
        .ok()
        .and_then(|text| text.strip_prefix('&'));
    let bits = digits.and_then(|digits| u32::from_str_radix(digits, 16).ok());
    bits.is_some_and(|bits| f32::from_bits(bits).is_nan())
}
