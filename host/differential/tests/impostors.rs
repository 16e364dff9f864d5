//! The comparison has to find each of these wrong implementations out.

use calls::{
    enough_words, Answer, Block, Call, Checked, Element, Field, Forecast, Implementation, Length,
    Lent, Number, Prototype, Reading, Text, LENGTH_LIMIT, RECORD, ROW,
};
use differential::compare::Comparison;
use differential::report::Tally;
use generate::bytes::one_value;
use generate::Random;
use model::Model;
use std::collections::HashSet;
use texts::store;

mod texts;

/// What an impostor does; otherwise it answers like the model.
#[derive(Clone, Copy, Debug, PartialEq)]
enum Fault {
    RefusesEach,
    FindsNoName,
    FirstBlockForAll,
    FirstBlocksText,
    WritesNothing,
    InventsLength,
    InventsNeededLength,
    FixedText,
    OutputTooEarly,
    TableTooEarly,
    TableTooLate,
    TableKeepsOddWords,
    TableKeptOnRefusal,
    WritesBeforeRefusing,
    WritesBeyondText,
    OffsetOfMalformed,
    AbsentComesFirst,
    StopsAtIndex,
    CountsIdZeroOut,
    EndRecordForgotten,
    IdWithoutFirstByte,
    NameWithLength,
    TypeOfLast,
    IgnoresBit63,
    EnumAsU32,
    NanKeepsItsBits,
    LackingIsTheSize,
    LackingToTheValuesEnd,
    LackingInAnotherNumber,
    LackingInAnAnswer,
    LackingInTheReadingAlone,
    MissingMarkIsBad,
    BadMarkAtTheRecord,
    BadMarkIsMalformed,
    SingleFourCounted,
    ThreesAsOne,
    SingleFourWithCommas,
    ElementUnlisted,
    SevenAsEight,
    BelowTwoAsOne,
    VersionByItsFirstByte,
    SumsInVersion1,
    ZeroAddedInVersion1,
    ElementAssumesTwo,
    SevenWithAnEighth,
    TwoForVersion1,
    TwoForTheHeaderAlone,
    IndexWrittenBeforeRefusing,
    IndexOfTheLastDefinition,
    IndexLengthInRecords,
    BlockLengthWithoutItsId,
    ShortSpaceBeforeFaults,
    CheckComparesLengths,
    CheckComparesBlockOffsets,
    CheckIgnoresWhatIsBehind,
    MisfitBeforeFaults,
    MisfitBeforeAFullTable,
    MisfitAtTheByte,
    MisfitAtTheLength,
    LookUpStopsAtTheValue,
    LookUpTrustsTheLength,
    LookUpTrustsTheFields,
    LookUpByTheLastDefinition,
    LookUpMultiplies,
    LookUpChecksTheHeader,
    LookUpAssumesTwo,
    LookUpFindsABadMark,
    LookUpEndsAtTheEnd,
    LookUpMissesAtThePrototype,
    LookUpOfACutRecord,
    AlwaysOnce,
    OnceWithoutIdZero,
    TwiceIfTheyDiffer,
    WordsOfEachDefinition,
    StepsByElements,
    StepsWithoutTheEnd,
    StepsWithoutReplaced,
    EmptyArrayNoStep,
    PassesOver8,
    PassesOver9,
    PassesOverAFullTable,
    ForetellsWithoutAnEnd,
    TextStepsAreTheFile,
    TextStepsOfRecords,
    StepsBesideNeededLength,
    StepsOfARefusedText,
    RefusalForetells,
    LargestWithoutItsHead,
    LargestIsTheLast,
    IndexOfOneMore,
    TextWithoutItsFrame,
    ForecastLeavesTheTable,
    LackingNotForetold,
    StepsAboveTheFile,
    LargestOfAnExactTable,
    LengthOfAnExactTable,
    AnswersInAFullTable,
    ShortRoomIsAFullTable,
    TextCutToTheRoom,
    FullTableAtTheFirstRecord,
    LargestOfAWideTable,
}

const FAULTS: [Fault; 47] = [
    Fault::RefusesEach,
    Fault::FindsNoName,
    Fault::FirstBlockForAll,
    Fault::FirstBlocksText,
    Fault::WritesNothing,
    Fault::InventsLength,
    Fault::InventsNeededLength,
    Fault::FixedText,
    Fault::OutputTooEarly,
    Fault::TableTooEarly,
    Fault::TableTooLate,
    Fault::TableKeepsOddWords,
    Fault::TableKeptOnRefusal,
    Fault::WritesBeforeRefusing,
    Fault::WritesBeyondText,
    Fault::OffsetOfMalformed,
    Fault::AbsentComesFirst,
    Fault::StopsAtIndex,
    Fault::CountsIdZeroOut,
    Fault::EndRecordForgotten,
    Fault::IdWithoutFirstByte,
    Fault::NameWithLength,
    Fault::TypeOfLast,
    Fault::IgnoresBit63,
    Fault::EnumAsU32,
    Fault::NanKeepsItsBits,
    Fault::LackingIsTheSize,
    Fault::LackingToTheValuesEnd,
    Fault::LackingInAnotherNumber,
    Fault::LackingInAnAnswer,
    Fault::LackingInTheReadingAlone,
    Fault::MissingMarkIsBad,
    Fault::BadMarkAtTheRecord,
    Fault::BadMarkIsMalformed,
    Fault::SingleFourCounted,
    Fault::ThreesAsOne,
    Fault::SingleFourWithCommas,
    Fault::ElementUnlisted,
    Fault::SevenAsEight,
    Fault::BelowTwoAsOne,
    Fault::VersionByItsFirstByte,
    Fault::SumsInVersion1,
    Fault::ZeroAddedInVersion1,
    Fault::ElementAssumesTwo,
    Fault::SevenWithAnEighth,
    Fault::TwoForVersion1,
    Fault::TwoForTheHeaderAlone,
];

/// About an index, each with the check that finds it out first.
const INDEX_FAULTS: [(Fault, &str); 26] = [
    (Fault::IndexWrittenBeforeRefusing, "library: output"),
    (Fault::IndexOfTheLastDefinition, "library and Rust: index"),
    (Fault::IndexLengthInRecords, "library: write_index"),
    (Fault::BlockLengthWithoutItsId, "library and Rust: index"),
    (
        Fault::ShortSpaceBeforeFaults,
        "library and Rust: class of a refused file",
    ),
    (
        Fault::CheckComparesLengths,
        "library and model: check_index",
    ),
    (
        Fault::CheckComparesBlockOffsets,
        "library and model: check_index",
    ),
    (
        Fault::CheckIgnoresWhatIsBehind,
        "library and model: check_index",
    ),
    (Fault::MisfitBeforeFaults, "library and model: check_index"),
    (
        Fault::MisfitBeforeAFullTable,
        "library and model: check_index",
    ),
    (Fault::MisfitAtTheByte, "library and model: check_index"),
    (Fault::MisfitAtTheLength, "library and model: check_index"),
    (
        Fault::LookUpStopsAtTheValue,
        "library and model: field_by_index",
    ),
    (
        Fault::LookUpTrustsTheLength,
        "library and model: field_by_index",
    ),
    (
        Fault::LookUpTrustsTheFields,
        "library and model: field_by_index",
    ),
    (
        Fault::LookUpByTheLastDefinition,
        "library and model: field_by_index",
    ),
    (Fault::LookUpMultiplies, "library and model: field_by_index"),
    (
        Fault::LookUpChecksTheHeader,
        "library and model: field_by_index",
    ),
    (Fault::LookUpAssumesTwo, "library and Rust: field_by_index"),
    (
        Fault::LookUpFindsABadMark,
        "library and model: field_by_index",
    ),
    (
        Fault::LookUpEndsAtTheEnd,
        "library and model: field_by_index",
    ),
    (
        Fault::LookUpMissesAtThePrototype,
        "library and model: field_by_index",
    ),
    (
        Fault::LookUpOfACutRecord,
        "library and model: field_by_index",
    ),
    (Fault::AlwaysOnce, "library and Rust: field_by_index"),
    (Fault::OnceWithoutIdZero, "library and model: defines_once"),
    (Fault::TwiceIfTheyDiffer, "library and model: defines_once"),
];

/// About a forecast and steps, each with the check that finds it out first.
const FORECAST_FAULTS: [(Fault, &str); 28] = [
    (Fault::WordsOfEachDefinition, "library and Rust: forecast"),
    (Fault::StepsByElements, "library and model: text"),
    (Fault::StepsWithoutTheEnd, "library and Rust: forecast"),
    // The Rust has no replaced prototypes.
    (Fault::StepsWithoutReplaced, "library and model: text"),
    (Fault::EmptyArrayNoStep, "library and Rust: forecast"),
    (Fault::PassesOver8, "library and Rust: forecast"),
    (Fault::PassesOver9, "library and Rust: forecast"),
    (Fault::PassesOverAFullTable, "library: forecast and text"),
    (
        Fault::ForetellsWithoutAnEnd,
        "library and Rust: class of a refused file",
    ),
    (Fault::TextStepsAreTheFile, "library: text foretold"),
    (Fault::TextStepsOfRecords, "library: text foretold"),
    (
        Fault::StepsBesideNeededLength,
        "library: steps of a refusal",
    ),
    (Fault::StepsOfARefusedText, "library: steps of a refusal"),
    (Fault::RefusalForetells, "library: forecast and text"),
    (Fault::LargestWithoutItsHead, "library: index foretold"),
    (Fault::LargestIsTheLast, "library: index foretold"),
    (Fault::IndexOfOneMore, "library and Rust: forecast"),
    (Fault::TextWithoutItsFrame, "library and Rust: forecast"),
    (Fault::ForecastLeavesTheTable, "library: table"),
    (Fault::LackingNotForetold, "library: forecast and text"),
    (Fault::StepsAboveTheFile, "library: limits"),
    (Fault::LargestOfAnExactTable, "library: words foretold"),
    (Fault::LengthOfAnExactTable, "library: words foretold"),
    (Fault::AnswersInAFullTable, "library: fewer words"),
    (Fault::ShortRoomIsAFullTable, "library: less room"),
    (Fault::TextCutToTheRoom, "library: less room"),
    (
        Fault::FullTableAtTheFirstRecord,
        "library and model: forecast",
    ),
    (Fault::LargestOfAWideTable, "library and model: forecast"),
];

struct Impostor {
    model: Model,
    fault: Fault,
}

impl Impostor {
    fn is(&self, fault: Fault) -> bool {
        self.fault == fault
    }

    fn spoil_table(&self, table: &mut [u32], answer: Answer) {
        let Some(last) = table.len().checked_sub(1) else {
            return;
        };
        let is_spoilt = match self.fault {
            Fault::TableKeepsOddWords => !table.len().is_multiple_of(3),
            Fault::TableKeptOnRefusal => answer.number() != 0,
            Fault::ForecastLeavesTheTable => matches!(answer, Answer::Forecast(_)),
            _ => false,
        };
        if is_spoilt {
            table[last] = 1;
        }
    }

    /// The words that the model is given in place of the table.
    fn words(&self, table: &[u32]) -> Vec<u32> {
        let more = if self.is(Fault::TableTooLate) { 3 } else { 0 };
        let less = if self.is(Fault::TableTooEarly) { 1 } else { 0 };
        vec![0; (table.len() + more).saturating_sub(less)]
    }

    /// The text with the first block's text in place of every block's.
    fn first_block_repeated(&mut self, file: &[u8]) -> Vec<u8> {
        let parsed = self.model.parsed(file, usize::MAX).expect("it answered");
        let (mut one, mut from) = (Vec::new(), 0);
        for block in parsed.blocks.iter().skip(1) {
            one.extend_from_slice(&file[from..block.start]);
            let last = block.values.last().map_or(block.id, |value| value.place);
            from = last.offset + last.len;
        }
        one.extend_from_slice(&file[from..]);
        let count = parsed.blocks.len();
        let (text, _, _) = self
            .model
            .whole_text(&one, usize::MAX)
            .expect("fewer blocks");
        let first = &text[11..text.len() - 2];
        [b"SiiNunit\n{\n", first.repeat(count).as_slice(), b"}\n"].concat()
    }
}

impl Implementation for Impostor {
    fn answer(&mut self, call: Call<'_>, lent: Lent<'_>) -> Answer {
        let Lent { file, table, out } = lent;
        let before = out.to_vec();
        let mut words = self.words(table);
        table.fill(0);
        let read = self.retyped(file);
        let lent = Lent {
            file: &read,
            table: &mut words,
            out,
        };
        let asked = self.changed_call(call, file);
        let answer = self.model.answer(asked, lent);
        self.spoil_table(table, answer);
        let answer = self.cut_or_mark(answer, call, file);
        let answer = self.retired(answer, call, file);
        match answer {
            Answer::Reading(answer) => Answer::Reading(self.reading(answer, file)),
            Answer::Prototype(answer) => Answer::Prototype(self.prototype(answer)),
            Answer::Block(answer) => Answer::Block(self.block(answer)),
            Answer::Field(answer) => Answer::Field(match call {
                Call::FieldByIndex { index, block, name } => {
                    self.looked_up(answer, file, index, block, name)
                }
                _ => self.field(answer, call, file),
            }),
            Answer::Element(answer) => Answer::Element(self.element(answer, call)),
            Answer::Text(answer) => {
                let answer = self.text(answer, file, out, &before);
                let answer = self.text_by_words(answer, file, table.len(), out);
                Answer::Text(self.text_steps(answer, file))
            }
            Answer::Forecast(answer) => {
                let answer = self.forecast(answer, file);
                Answer::Forecast(self.forecast_by_words(answer, file, table.len()))
            }
            Answer::Number(_) => self.once(answer, call, file),
            Answer::Length(answer) => Answer::Length(self.written(answer, file, out)),
            Answer::Checked(answer) => Answer::Checked(self.checked(answer, call, file)),
        }
    }
}

impl Impostor {
    fn blocks(&mut self, file: &[u8]) -> u64 {
        let parsed = self.model.parsed(file, usize::MAX);
        parsed.map_or(0, |parsed| parsed.blocks.len() as u64)
    }

    /// What the model is given for a version.
    fn version(&self, version: u32) -> u32 {
        match (self.fault, version) {
            (Fault::SevenAsEight, 1) => 2,
            (Fault::BelowTwoAsOne, 0) => 1,
            (Fault::VersionByItsFirstByte, _) => version & 0xff,
            _ => version,
        }
    }

    /// The file with another version, or another type in each definition of one of 0x0a and 0x17.
    fn retyped(&mut self, file: &[u8]) -> Vec<u8> {
        let mut read = file.to_vec();
        if let Some(bytes) = read.get_mut(4..8) {
            let version = u32::from_le_bytes(bytes.try_into().unwrap());
            bytes.copy_from_slice(&self.version(version).to_le_bytes());
        }
        for (at, type_id) in &self.model.in_front_of_fault(file).types {
            let other = match (self.fault, type_id) {
                (Fault::SingleFourCounted, 0x17) => 0x18,
                (Fault::ThreesAsOne, 0x0a) => 0x09,
                _ => continue,
            };
            read[*at] = other;
        }
        read
    }

    /// What stands in the text for a single four f32.
    fn four_text(&mut self, bytes: &[u8]) -> Vec<u8> {
        let alone = one_value(0x17, bytes);
        let text = self.model.whole_text(&alone, usize::MAX);
        let (text, _, _) = text.expect("a value that was read");
        text["SiiNunit\n{\np : null {\n  f".len()..text.len() - "}\n}\n".len()].to_vec()
    }

    /// A comma behind the first number of each single four f32.
    fn with_commas(&mut self, file: &[u8], text: &mut [u8]) {
        let parsed = self.model.parsed(file, usize::MAX).expect("it answered");
        let values = parsed.blocks.iter().flat_map(|block| &block.values);
        let fours = values.filter(|value| value.type_id == 0x17);
        let fours: Vec<_> = fours.map(|value| value.place.of(file)).collect();
        for four in fours {
            let shown = self.four_text(four);
            let semicolon = shown.iter().position(|byte| *byte == b';').expect("a four");
            for at in 0..text.len() {
                if text[at..].starts_with(&shown) {
                    text[at + semicolon] = b',';
                }
            }
        }
    }

    /// What the model is asked in place of the call.
    fn changed_call<'a>(&mut self, call: Call<'a>, file: &[u8]) -> Call<'a> {
        match call {
            Call::FieldOf { block, name }
                if self.is(Fault::FirstBlockForAll) && block < self.blocks(file) =>
            {
                Call::FieldOf { block: 0, name }
            }
            Call::ElementOf {
                version,
                type_id,
                part,
                index,
            } => Call::ElementOf {
                version: match self.fault {
                    Fault::ElementAssumesTwo => 2,
                    _ => self.version(version),
                },
                type_id,
                part,
                index,
            },
            call => call,
        }
    }

    /// Reply 2 where it stood.
    fn retired(&self, answer: Answer, call: Call<'_>, file: &[u8]) -> Answer {
        let is_version_1 = file.starts_with(b"BSII\x01\0\0\0");
        let is_asked = match self.fault {
            Fault::TwoForVersion1 => is_version_1,
            Fault::TwoForTheHeaderAlone => is_version_1 && file.len() == 8,
            _ => false,
        };
        match call {
            Call::ElementOf { .. } => answer,
            _ if is_asked => answer.refused(2, 8),
            _ => answer,
        }
    }

    /// A file of version 1 as one of version 2, with an f4 in each placement, which the bytes behind it
    /// decide.
    fn with_sums(&mut self, file: &[u8], f4: fn(&[u8]) -> &[u8]) -> Vec<u8> {
        let parsed = self.model.parsed(file, usize::MAX).expect("it answered");
        let (mut read, mut from) = (b"BSII\x02\0\0\0".to_vec(), 8);
        for value in parsed.blocks.iter().flat_map(|block| &block.values) {
            let (start, end) = (value.place.offset, value.place.offset + value.place.len);
            let first = match value.type_id {
                0x19 => start + 12,
                0x1a => start + 16,
                _ => continue,
            };
            for at in (first..end).step_by(28) {
                read.extend_from_slice(&file[from..at]);
                read.extend_from_slice(f4(&file[at..]));
                from = at;
            }
        }
        read.extend_from_slice(&file[from..]);
        read
    }

    /// What is wrong about replies 3 and 15.
    fn cut_or_mark(&mut self, answer: Answer, call: Call<'_>, file: &[u8]) -> Answer {
        let (number, offset, lacking) = answer.fault();
        let bytes = match call {
            Call::ElementOf { part, .. } => part,
            _ => file,
        };
        let there = (bytes.len() as u64).saturating_sub(offset);
        match (self.fault, number) {
            (Fault::LackingIsTheSize, 3) => answer.lacking(lacking + there),
            (Fault::LackingToTheValuesEnd, 3) => answer.lacking(self.lacking_of_all(call, lacking)),
            (Fault::LackingInAnotherNumber, 1..) if number != 3 => answer.lacking(1),
            (Fault::LackingInAnAnswer, 0) => answer.lacking(1),
            (Fault::LackingInTheReadingAlone, 3) if call != Call::Read => answer.lacking(0),
            (Fault::MissingMarkIsBad, 3) if self.is_mark(file, offset) => {
                answer.refused(15, offset)
            }
            (Fault::BadMarkAtTheRecord, 15) => answer.refused(15, offset - 4),
            (Fault::BadMarkIsMalformed, 15) => answer.refused(3, offset).lacking(1),
            _ => answer,
        }
    }

    /// Of a value that runs out, the bytes that are lacking of all of it, if the rest are zeros.
    fn lacking_of_all(&mut self, call: Call<'_>, lacking: u64) -> u64 {
        let Call::ElementOf {
            version,
            type_id,
            part,
            ..
        } = call
        else {
            return lacking;
        };
        let mut whole = part.to_vec();
        for more in 1..=64 {
            whole.push(0);
            let call = Call::ElementOf {
                version,
                type_id,
                part: &whole,
                index: 0,
            };
            if self.model.answer(call, Lent::default()).number() != 3 {
                return more;
            }
        }
        lacking
    }

    /// Whether a mark would stand at the end of the file: another byte than 0 and 1 is 15 there.
    fn is_mark(&mut self, file: &[u8], offset: u64) -> bool {
        let marked = [file, &[2]].concat();
        let fault = self.model.parsed(&marked, usize::MAX).err();
        fault.is_some_and(|fault| (fault.number, fault.offset as u64) == (15, offset))
    }

    fn reading(&mut self, mut answer: Reading, file: &[u8]) -> Reading {
        match self.fault {
            Fault::RefusesEach => return Reading::refused(3, 0),
            Fault::OffsetOfMalformed if answer.number == 3 => answer.offset += 1,
            Fault::EndRecordForgotten => answer.next -= answer.next.min(5),
            Fault::CountsIdZeroOut if answer.number == 0 => {
                let parsed = self.model.parsed(file, usize::MAX).expect("it answered");
                answer.prototypes -= parsed.prototype(0).is_some() as u64;
            }
            _ => {}
        }
        answer
    }

    fn prototype(&self, mut answer: Prototype) -> Prototype {
        if self.is(Fault::NameWithLength) {
            answer.name_offset = answer.name_offset.saturating_sub(4);
            answer.name_len += 4;
        }
        answer
    }

    fn block(&self, mut answer: Block) -> Block {
        if self.is(Fault::AbsentComesFirst) && answer.number == 3 {
            return Block::refused(13, 0);
        }
        if self.is(Fault::IdWithoutFirstByte) && answer.number == 0 {
            answer.id_offset += 1;
            answer.id_len -= 1;
        }
        answer
    }

    fn field(&mut self, mut answer: Field, call: Call<'_>, file: &[u8]) -> Field {
        match (self.fault, call) {
            (Fault::FindsNoName, _) if answer.number == 0 => return Field::refused(13, 0),
            (Fault::TypeOfLast, Call::FieldOf { block, name }) if answer.number == 0 => {
                let parsed = self.model.parsed(file, usize::MAX).expect("it answered");
                let last = parsed.last_of(&parsed.blocks[block as usize]);
                let field = last.fields.iter().find(|f| f.name.of(file) == name);
                answer.type_id = field.expect("it answered").type_id;
            }
            _ => {}
        }
        answer
    }

    fn element(&mut self, whole: Element, call: Call<'_>) -> Element {
        let Call::ElementOf {
            version,
            type_id,
            part,
            index,
        } = call
        else {
            return whole;
        };
        match self.fault {
            Fault::StopsAtIndex if matches!(whole.number, 3..=5) && part.len() >= 4 => {
                let mut less = part.to_vec();
                less[..4].copy_from_slice(&(index as u32).saturating_add(1).to_le_bytes());
                let call = Call::ElementOf {
                    version,
                    type_id,
                    part: &less,
                    index,
                };
                self.model.answer(call, Lent::default()).element()
            }
            Fault::IgnoresBit63 if type_id == 3 && whole.number == 0 => Element {
                value: u64::from_le_bytes(part[..8].try_into().unwrap()),
                ..whole
            },
            Fault::EnumAsU32 if whole.kind == calls::kind::ENUM => Element {
                kind: calls::kind::U32,
                ..whole
            },
            Fault::ElementUnlisted if matches!(type_id, 0x0a | 0x17) => Element::refused(7, 0),
            Fault::SevenWithAnEighth if whole.kind == calls::kind::SEVEN_F32 => Element {
                kind: calls::kind::PLACEMENT,
                ..whole
            },
            Fault::NanKeepsItsBits if type_id == 5 && whole.number == 0 => {
                let bits = u32::from_le_bytes(part[..4].try_into().unwrap());
                Element {
                    parts: [bits, 0, 0, 0, 0, 0, 0, 0],
                    ..whole
                }
            }
            _ => whole,
        }
    }

    fn text(&mut self, mut answer: Text, file: &[u8], out: &mut [u8], before: &[u8]) -> Text {
        match (self.fault, answer.number) {
            (Fault::WritesNothing, 0) => out.copy_from_slice(before),
            (Fault::InventsLength, 0) => answer.length -= 1,
            (Fault::InventsNeededLength, 11) => answer.length += 1,
            (Fault::WritesBeforeRefusing, 8..=11) if !out.is_empty() => out[0] = !out[0],
            (Fault::WritesBeyondText, 0) if out.len() > answer.length as usize => {
                out[answer.length as usize] ^= 1
            }
            (Fault::OutputTooEarly, 0) if out.len() == answer.length as usize => {
                out.copy_from_slice(before);
                answer.number = 11;
            }
            (Fault::SingleFourWithCommas, 0) => {
                self.with_commas(file, &mut out[..answer.length as usize])
            }
            (Fault::FixedText, 0) => {
                out.copy_from_slice(before);
                out[..13].copy_from_slice(b"SiiNunit\n{\n}\n");
                answer.length = 13;
            }
            (Fault::FirstBlocksText, 0) => {
                let text = self.first_block_repeated(file);
                answer = in_place_of_text(&text, answer.steps, out, before);
            }
            (Fault::SumsInVersion1 | Fault::ZeroAddedInVersion1, 0)
                if file.starts_with(b"BSII\x01\0\0\0") =>
            {
                let f4: fn(&[u8]) -> &[u8] = match self.fault {
                    Fault::SumsInVersion1 => |behind| &behind[..4],
                    _ => |_| b"\0\x08\0\x4b",
                };
                let summed = self.with_sums(file, f4);
                let made = self.model.whole_text(&summed, usize::MAX);
                let (text, _, _) = made.expect("as many fields");
                answer = in_place_of_text(&text, answer.steps, out, before);
            }
            _ => {}
        }
        answer
    }
}

/// A number of a record.
fn number(record: &[u8], at: usize) -> usize {
    (0..3).map(|i| (record[at + i] as usize) << (8 * i)).sum()
}

/// What is wrong about an index.
impl Impostor {
    fn own_index(&mut self, file: &[u8]) -> Vec<u8> {
        let parsed = self.model.parsed(file, usize::MAX).expect("it answered");
        let mut index = parsed.index();
        for (record, block) in index.chunks_mut(RECORD).zip(&parsed.blocks) {
            let start = parsed.last_of(block).start.to_le_bytes();
            match self.fault {
                Fault::IndexOfTheLastDefinition => record[6..9].copy_from_slice(&start[..3]),
                Fault::BlockLengthWithoutItsId => {
                    let shorter = (number(record, 3) - 4).to_le_bytes();
                    record[3..6].copy_from_slice(&shorter[..3]);
                }
                _ => {}
            }
        }
        index
    }

    fn written(&mut self, mut answer: Length, file: &[u8], out: &mut [u8]) -> Length {
        match (self.fault, answer.number) {
            (Fault::IndexWrittenBeforeRefusing, 11) if !out.is_empty() => out[0] = !out[0],
            (Fault::IndexLengthInRecords, 0 | 11) => answer.length /= RECORD as u64,
            (Fault::ShortSpaceBeforeFaults, 3..=7) if out.is_empty() => {
                answer = Length::refused(11, 0)
            }
            (Fault::IndexOfTheLastDefinition | Fault::BlockLengthWithoutItsId, 0) => {
                let index = self.own_index(file);
                out[..index.len()].copy_from_slice(&index);
            }
            _ => {}
        }
        answer
    }

    /// Whether the index would be one with the right bytes in place of all but block offsets.
    fn has_its_offsets(&mut self, index: &[u8], file: &[u8]) -> Checked {
        let mut made = index.to_vec();
        for (record, own) in made
            .chunks_mut(RECORD)
            .zip(self.own_index(file).chunks(RECORD))
        {
            if record.len() == RECORD {
                record[3..].copy_from_slice(&own[3..]);
            }
        }
        let call = Call::CheckIndex { index: &made };
        let answer = self.model.answer(call, Lent::file(file, &mut [0; 300]));
        answer.checked()
    }

    /// Whether the first block stands in front of the offset, and its record differs.
    fn misfit_in_front(&mut self, index: &[u8], file: &[u8], offset: u64) -> bool {
        let own = self.model.in_front_of_fault(file).index();
        let first = own.first_chunk::<RECORD>();
        first.is_some_and(|own| number(own, 0) < offset as usize && !index.starts_with(own))
    }

    fn checked(&mut self, answer: Checked, call: Call<'_>, file: &[u8]) -> Checked {
        let Call::CheckIndex { index } = call else {
            return answer;
        };
        let stops_at_a_misfit = match answer.number {
            3..=7 => self.is(Fault::MisfitBeforeFaults),
            10 => self.is(Fault::MisfitBeforeAFullTable),
            _ => false,
        };
        if stops_at_a_misfit {
            return match self.misfit_in_front(index, file, answer.offset) {
                true => Checked::refused(14, 0),
                false => answer,
            };
        }
        if answer.number != 14 {
            return answer;
        }
        let own = self.own_index(file);
        let offset = match self.fault {
            Fault::CheckComparesLengths if index.len() == own.len() => return Checked::default(),
            Fault::CheckComparesBlockOffsets => return self.has_its_offsets(index, file),
            Fault::CheckIgnoresWhatIsBehind if index.starts_with(&own) => {
                return Checked::default()
            }
            Fault::MisfitAtTheByte => index.iter().zip(&own).take_while(|(a, b)| a == b).count(),
            Fault::MisfitAtTheLength => index.len().min(own.len()),
            _ => return answer,
        };
        Checked::refused(14, offset as u64)
    }

    /// The prototype and the block alone behind a header, as the model reads them, and how far the
    /// block stands behind its place in the file.
    fn alone(&mut self, file: &[u8], record: &[u8]) -> Option<(Vec<u8>, i64)> {
        let (block, of) = (number(record, 0), number(record, 6));
        let from = [&file[..8], file.get(of..)?].concat();
        let end = *self.model.in_front_of_fault(&from).starts.get(1)?;
        let both = [&from[..end], file.get(block..)?].concat();
        Some((both, end as i64 - block as i64))
    }

    /// The position of the first definition so named in a record's prototype, and the value there, if
    /// the block has a value behind it, so that this one is whole.
    fn value_alone(&mut self, file: &[u8], record: &[u8], name: &[u8]) -> Option<(usize, Field)> {
        let (both, behind) = self.alone(file, record)?;
        let parsed = self.model.in_front_of_fault(&both);
        let (of, block) = (parsed.prototypes.first()?, parsed.blocks.first()?);
        let position = of.fields.iter().position(|f| f.name.of(&both) == name)?;
        let is_whole = position + 1 < block.values.len();
        let value = block.values.get(position).filter(|_| is_whole)?;
        let found = Field {
            type_id: value.type_id,
            part_offset: (value.place.offset as i64 - behind) as u64,
            part_len: value.place.len as u64,
            ..Field::default()
        };
        Some((position, found))
    }

    fn looked_up(
        &mut self,
        answer: Field,
        file: &[u8],
        index: &[u8],
        block: u64,
        name: &[u8],
    ) -> Field {
        let whole = block < (index.len() / RECORD) as u64;
        let at = block.wrapping_mul(RECORD as u64) as usize;
        let record = index.get(at..at.saturating_add(RECORD));
        let mut ask = |file: &[u8], index: &[u8]| {
            let call = Call::FieldByIndex {
                index,
                block: 0,
                name,
            };
            let answer = self.model.answer(call, Lent::file(file, &mut []));
            answer.field()
        };
        if !whole {
            return match self.fault {
                Fault::LookUpMultiplies if file.len() <= LENGTH_LIMIT => {
                    record.map_or(answer, |record| ask(file, record))
                }
                Fault::LookUpOfACutRecord if at < index.len() && file.len() <= LENGTH_LIMIT => {
                    let padded = [&index[at..], &[0; RECORD]].concat();
                    ask(file, &padded)
                }
                _ => answer,
            };
        }
        let record = record.expect("it is there");
        let (start, of) = (number(record, 0), number(record, 6));
        let end = answer.part_offset + answer.part_len;
        match (self.fault, answer.number) {
            (Fault::LookUpChecksTheHeader, 0..=11) if !file.starts_with(b"BSII") => {
                Field::refused(1, 0)
            }
            (Fault::LookUpAssumesTwo, 0..=11) if file.len() >= 8 => {
                ask(&[&file[..4], &[2, 0, 0, 0], &file[8..]].concat(), record)
            }
            (Fault::LookUpStopsAtTheValue, 3 | 4 | 5 | 7) if file.len() >= 8 => {
                let found = self.value_alone(file, record, name);
                found.map_or(answer, |(_, found)| found)
            }
            (Fault::LookUpTrustsTheLength, 0) if end > (start + number(record, 3)) as u64 => {
                Field::refused(13, 0)
            }
            (Fault::LookUpTrustsTheFields, 0) => {
                let found = self.value_alone(file, record, name);
                match found.is_some_and(|(position, _)| position >= number(record, 9)) {
                    true => Field::refused(13, 0),
                    false => answer,
                }
            }
            (Fault::LookUpByTheLastDefinition, 0 | 13) => {
                let parsed = self.model.in_front_of_fault(file);
                let id = file.get(start..start + 4);
                let id = id.map_or(0, |id| u32::from_le_bytes(id.try_into().unwrap()));
                let Some(last) = parsed.prototype(id).map(|last| last.start) else {
                    return answer;
                };
                let last = generate::index::record([start, 0, last, 0]);
                let call = Call::FieldByIndex {
                    index: &last,
                    block: 0,
                    name,
                };
                let lent = Lent::file(file, &mut []);
                self.model.answer(call, lent).field()
            }
            (Fault::LookUpFindsABadMark, 6) if file.get(of..of + 4) == Some(&[0; 4]) => {
                match file[of + 4] {
                    0 | 1 => answer,
                    _ => Field::refused(15, of as u64 + 4),
                }
            }
            (Fault::LookUpEndsAtTheEnd, 3) => Field {
                offset: answer.offset.min(file.len() as u64),
                ..answer
            },
            (Fault::LookUpMissesAtThePrototype, 6) => Field::refused(6, of as u64),
            _ => answer,
        }
    }

    fn once(&mut self, answer: Answer, call: Call<'_>, file: &[u8]) -> Answer {
        let (
            Call::DefinesOnce,
            Answer::Number(Number {
                number: 0, value, ..
            }),
        ) = (call, answer)
        else {
            return answer;
        };
        let records = |parsed: &model::Parsed| {
            let ends = parsed.starts[1..].to_vec();
            let both = parsed.starts.clone().into_iter().zip(ends);
            let prototypes = both.map(|(start, end)| &file[start..end]);
            prototypes.filter(|record| record.starts_with(&[0; 4]))
        };
        let parsed = self.model.parsed(file, usize::MAX).expect("it answered");
        let value = match self.fault {
            Fault::AlwaysOnce => 1,
            // Twice by id 0, and by no other.
            Fault::OnceWithoutIdZero => {
                let ids = records(parsed).map(|record| record[5..9].to_vec());
                let others: Vec<_> = ids.filter(|id| *id != [0; 4]).collect();
                let distinct: HashSet<_> = others.iter().collect();
                u64::from(distinct.len() == others.len())
            }
            // A definition that is repeated byte by byte does not count.
            Fault::TwiceIfTheyDiffer => {
                let records: HashSet<_> = records(parsed).collect();
                u64::from(records.len() == parsed.prototypes.len())
            }
            _ => value,
        };
        Answer::Number(Number {
            value,
            ..Number::default()
        })
    }
}

/// What is wrong about a forecast and the steps of a text.
impl Impostor {
    /// The file's records with room, which the reading call has answered.
    fn read(&mut self, file: &[u8]) -> &model::Parsed {
        self.model.parsed(file, usize::MAX).expect("it answered")
    }

    fn steps(&mut self, steps: u64, file: &[u8]) -> u64 {
        match self.fault {
            Fault::StepsByElements => {
                let counts = self.element_counts(file);
                steps - counts.len() as u64 + counts.iter().sum::<u64>()
            }
            Fault::EmptyArrayNoStep => {
                let counts = self.element_counts(file);
                steps - counts.iter().filter(|count| **count == 0).count() as u64
            }
            Fault::StepsWithoutTheEnd => steps - 1,
            Fault::StepsWithoutReplaced => {
                let parsed = self.read(file);
                let replaced = definitions(parsed) - parsed.prototypes.len();
                steps - replaced as u64
            }
            // The Rust says the steps where no id is defined twice.
            Fault::StepsAboveTheFile => {
                let parsed = self.read(file);
                match definitions(parsed) > parsed.prototypes.len() {
                    true => file.len() as u64 + 1,
                    false => steps,
                }
            }
            _ => steps,
        }
    }

    /// Of each value of a block.
    fn element_counts(&mut self, file: &[u8]) -> Vec<u64> {
        let parsed = self.read(file);
        let version = parsed.version;
        let values = parsed.blocks.iter().flat_map(|block| &block.values);
        let values: Vec<_> = values.map(|it| (it.type_id, it.place.of(file))).collect();
        let mut is_there = |type_id, part, index| {
            let call = Call::ElementOf {
                version,
                type_id,
                part,
                index,
            };
            self.model.answer(call, Lent::default()).number() == 0
        };
        let count = |(type_id, part)| (0..).find(|index| !is_there(type_id, part, *index));
        values.into_iter().filter_map(count).collect()
    }

    fn text_steps(&mut self, mut answer: Text, file: &[u8]) -> Text {
        match (self.fault, answer.number) {
            (Fault::StepsBesideNeededLength, 11) => answer.steps = 1,
            (Fault::StepsOfARefusedText, 3..=10) => answer.steps = 1,
            (Fault::TextStepsAreTheFile, 0) => answer.steps = file.len() as u64,
            (Fault::TextStepsOfRecords, 0) => answer.steps = self.read(file).starts.len() as u64,
            (_, 0) => answer.steps = self.steps(answer.steps, file),
            _ => {}
        }
        answer
    }

    fn forecast(&mut self, mut answer: Forecast, file: &[u8]) -> Forecast {
        match (self.fault, answer.number) {
            (Fault::PassesOver8, 8)
            | (Fault::PassesOver9, 9)
            | (Fault::ForetellsWithoutAnEnd, 3) => Forecast::default(),
            (Fault::PassesOverAFullTable, 10) => {
                let mut table = vec![0; enough_words(file.len())];
                let lent = Lent::file(file, &mut table);
                self.model.answer(Call::Forecast, lent).forecast()
            }
            (Fault::RefusalForetells, 8..=10) => Forecast {
                table_words: 3,
                ..answer
            },
            (Fault::LackingNotForetold, 3) => Forecast {
                lacking: 0,
                ..answer
            },
            (_, 0) => {
                answer.steps = self.steps(answer.steps, file);
                self.figures(answer, file)
            }
            _ => answer,
        }
    }

    fn figures(&mut self, mut answer: Forecast, file: &[u8]) -> Forecast {
        let fault = self.fault;
        let parsed = self.read(file);
        let last = parsed.blocks.last();
        match fault {
            Fault::WordsOfEachDefinition => answer.table_words = 3 * definitions(parsed) as u64,
            Fault::LargestWithoutItsHead => {
                let head = |block: &model::BlockRecord| (block.size() - 4 - block.id.len) as u64;
                answer.largest_block = parsed.blocks.iter().map(head).max().unwrap_or(0);
            }
            Fault::LargestIsTheLast => {
                answer.largest_block = last.map_or(0, |block| block.size() as u64)
            }
            Fault::IndexOfOneMore => answer.index_len += RECORD as u64,
            Fault::TextWithoutItsFrame => answer.text_len -= 13,
            _ => {}
        }
        answer
    }
}

/// What depends on the table: the Rust is compared with a table that has words to spare.
impl Impostor {
    /// Whether the table has just the words that the file takes.
    fn is_exact(&mut self, file: &[u8], words: usize) -> bool {
        words == ROW * self.read(file).prototypes.len()
    }

    fn forecast_by_words(&mut self, mut answer: Forecast, file: &[u8], words: usize) -> Forecast {
        match (self.fault, answer.number) {
            (Fault::LargestOfAnExactTable, 0) if self.is_exact(file, words) => {
                answer.largest_block = 0
            }
            (Fault::LengthOfAnExactTable, 0) if self.is_exact(file, words) => answer.text_len -= 1,
            // Wider than any that the library is asked with by itself.
            (Fault::LargestOfAWideTable, 0) if words > enough_words(file.len()) + 9 => {
                answer.largest_block = 0
            }
            (Fault::FullTableAtTheFirstRecord, 10) => answer.offset = 8,
            _ => {}
        }
        answer
    }

    fn text_by_words(
        &mut self,
        mut answer: Text,
        file: &[u8],
        words: usize,
        out: &mut [u8],
    ) -> Text {
        match (self.fault, answer.number) {
            (Fault::LengthOfAnExactTable, 11) if self.is_exact(file, words) => answer.length -= 1,
            (Fault::FullTableAtTheFirstRecord, 10) => answer.offset = 8,
            (Fault::AnswersInAFullTable, 10) => match self.model.whole_text(file, usize::MAX) {
                Ok((text, _, _)) if text.len() <= out.len() => {
                    answer = store(&text, self.read(file).steps(), out)
                }
                _ => {}
            },
            // Without room it is 11, as the forecast has it.
            (Fault::ShortRoomIsAFullTable, 11) if !out.is_empty() && self.is_exact(file, words) => {
                answer = Text::refused(10, 8)
            }
            (Fault::TextCutToTheRoom, 11) if !out.is_empty() && self.is_exact(file, words) => {
                let text = self.model.whole_text(file, usize::MAX);
                let (text, _, _) = text.expect("it asked for room");
                answer = store(&text[..out.len()], self.read(file).steps(), out)
            }
            _ => {}
        }
        answer
    }
}

/// All records but the blocks and the end, replaced ones too.
fn definitions(parsed: &model::Parsed) -> usize {
    parsed.starts.len() - parsed.blocks.len() - 1
}

/// Another text than the one that was written, if there is room for it.
fn in_place_of_text(text: &[u8], steps: u64, out: &mut [u8], before: &[u8]) -> Text {
    out.copy_from_slice(before);
    store(text, steps, out)
}

/// The labels of the differences in so many files.
fn differences(fault: Option<Fault>, most: u64) -> impl Iterator<Item = String> {
    let model = Model::default();
    let library: Box<dyn Implementation + Send> = match fault {
        Some(fault) => Box::new(Impostor { model, fault }),
        None => Box::new(model),
    };
    let mut comparison = Comparison::default();
    comparison.library = Some(library);
    (0..most).filter_map(move |index| {
        let file = generate::file(1, index);
        let mut random = Random::new(2, index);
        let check = comparison.file(&file, &mut random, &mut Tally::default());
        check.err().map(|difference| difference.label)
    })
}

#[test]
fn each_impostor_is_found() {
    for fault in FAULTS {
        let found = differences(Some(fault), 2000).next();
        assert!(found.is_some(), "{fault:?} was not found");
    }
}

#[test]
fn each_impostor_of_an_index_is_found() {
    for (fault, by) in INDEX_FAULTS {
        let found = differences(Some(fault), 2000).next();
        assert_eq!(found.as_deref(), Some(by), "{fault:?}");
    }
}

#[test]
fn each_impostor_of_a_forecast_is_found() {
    for (fault, by) in FORECAST_FAULTS {
        let found = differences(Some(fault), 2000).next();
        assert_eq!(found.as_deref(), Some(by), "{fault:?}");
    }
}

/// The look-ups of a fuzzer, whose inputs bring their index.
#[test]
fn any_bytes_as_an_index() {
    let file = one_value(0x27, &[7, 0, 0, 0]);
    let index = Model::default().parsed(&file, 1).unwrap().index();
    let of_no_length = [&index[..3], &[0; 3], &index[6..]].concat();
    for (fault, index, is_found) in [
        (Fault::LookUpTrustsTheLength, &index[..], false),
        (Fault::LookUpTrustsTheLength, &of_no_length, true),
        (Fault::LookUpStopsAtTheValue, &of_no_length, false),
        (Fault::LookUpOfACutRecord, &index, false),
        (Fault::LookUpOfACutRecord, &index[..11], true),
        (Fault::LookUpOfACutRecord, b"", false),
    ] {
        let model = Model::default();
        let mut comparison = Comparison::default();
        comparison.library = Some(Box::new(Impostor { model, fault }));
        let check = comparison.by_index(&file, index, &mut Tally::default());
        let label = check.err().map(|difference| difference.label);
        let expected = is_found.then_some("library and model: field_by_index");
        assert_eq!(label.as_deref(), expected, "{fault:?}, {index:?}");
    }
}

#[test]
fn the_model_passes_as_a_library() {
    assert_eq!(differences(None, 5000).next(), None);
}

/// Types that the Rust's reader stops at, and version 1: it still says how they are read and written,
/// by a stand-in.
#[test]
fn the_rust_finds_them_by_a_stand_in() {
    for (fault, call) in [
        (Fault::SevenAsEight, "reading"),
        (Fault::SumsInVersion1, "text"),
        (Fault::ElementAssumesTwo, "element"),
        (Fault::SevenWithAnEighth, "element"),
        (Fault::TwoForVersion1, "reading"),
        (Fault::TwoForTheHeaderAlone, "class of a refused file"),
        (Fault::SingleFourCounted, "reading"),
        (Fault::ThreesAsOne, "reading"),
        (Fault::SingleFourWithCommas, "text"),
        (Fault::ElementUnlisted, "element"),
    ] {
        let label = format!("library and Rust: {call}");
        let found = differences(Some(fault), 2000).any(|found| found == label);
        assert!(found, "{fault:?} by {label}");
    }
}
