//! The run over lists of insertions has to find each of these wrong implementations out.

use calls::{
    Answer, Call, Checked, Field, Forecast, Implementation, Length, Lent, Number, Reading, Text,
    RECORD,
};
use differential::report::Tally;
use differential::widening::{first_unlisted, run, Widenings};
use generate::save::{Block, Prototype, Record, Save};
use generate::widening::{widening, Insertion, Widening};
use model::Model;
use texts::store;

mod texts;

/// What an impostor does to a save with insertions; otherwise it answers like the model.
#[derive(Clone, Copy, Debug, PartialEq)]
enum Fault {
    /// Skips an inserted value as if it had four bytes.
    GuessesLength,
    OldNumbers,
    OldPositions,
    OldTypes,
    OldCounts,
    OldText,
    RefusesNew,
    /// Reads a save of version 1 as one of version 2.
    LosesTheVersion,
    DropsALine,
    InsertedFieldsLast,
    InsertedBlocksLast,
    SevenForInsertedNames,
    SevenAtTheBlock,
    SevenAtTheLastValue,
    SevenWithoutABlock,
    ReadsUnlisted,
    FindsNothingUnlisted,
    AbsentBeforeSeven,
    OutputBeforeSeven,
    /// Writes records without the inserted blocks, and accepts them.
    IndexOfOldBlocks,
    /// Counts the fields of the old save.
    IndexOfOldFields,
    AcceptsTheOldIndex,
    RefusesTheIndexWritten,
    NotOnce,
    LooksUpByOldNumbers,
    LooksUpOldPositions,
    LooksUpNoInsertedNames,
    IndexSevenWithoutABlock,
    SpaceBeforeSeven,
    MisfitBeforeSeven,
    /// Looks a name up without reading what stands behind its value.
    LooksUpUnlisted,
    SevenInEveryBlock,
    /// Of the text.
    OldSteps,
    ForetellsTheOldSteps,
    ForetellsTheOldText,
    ForetellsTheOldWords,
    ForetellsTheOldIndex,
    ForetellsTheOldLargest,
    ForecastSevenWithoutABlock,
    ForetellsUnlisted,
}

/// Each with the check that finds it out first.
const FAULTS: [(Fault, &str); 40] = [
    (Fault::GuessesLength, "a field after"),
    (Fault::OldNumbers, "a field after"),
    (Fault::OldPositions, "a field after"),
    (Fault::OldTypes, "a field after"),
    (Fault::OldCounts, "reading"),
    (Fault::OldText, "an inserted part"),
    (Fault::RefusesNew, "reading"),
    (Fault::LosesTheVersion, "reading"),
    (Fault::DropsALine, "the old text"),
    (Fault::InsertedFieldsLast, "an inserted part"),
    (Fault::InsertedBlocksLast, "an inserted part"),
    (Fault::SevenForInsertedNames, "found or absent"),
    (Fault::SevenAtTheBlock, "reading of an unlisted type"),
    (Fault::SevenAtTheLastValue, "reading of an unlisted type"),
    (Fault::SevenWithoutABlock, "reading"),
    (Fault::ReadsUnlisted, "reading of an unlisted type"),
    (Fault::FindsNothingUnlisted, "field of an unlisted type"),
    (Fault::AbsentBeforeSeven, "field of an unlisted type"),
    (Fault::OutputBeforeSeven, "text of an unlisted type"),
    (Fault::IndexOfOldBlocks, "index"),
    (Fault::IndexOfOldFields, "index"),
    (Fault::AcceptsTheOldIndex, "check of an index"),
    (Fault::RefusesTheIndexWritten, "check of an index"),
    (Fault::NotOnce, "once"),
    (Fault::LooksUpByOldNumbers, "a field by index after"),
    (Fault::LooksUpOldPositions, "a field by index after"),
    (Fault::LooksUpNoInsertedNames, "found or absent by index"),
    (Fault::IndexSevenWithoutABlock, "index"),
    (Fault::SpaceBeforeSeven, "index of an unlisted type"),
    (Fault::MisfitBeforeSeven, "check of an index"),
    (Fault::LooksUpUnlisted, "look-up of an unlisted type"),
    (Fault::SevenInEveryBlock, "look-up beside an unlisted type"),
    (Fault::OldSteps, "text"),
    (Fault::ForetellsTheOldSteps, "forecast"),
    (Fault::ForetellsTheOldText, "forecast"),
    (Fault::ForetellsTheOldWords, "forecast"),
    (Fault::ForetellsTheOldIndex, "forecast"),
    (Fault::ForetellsTheOldLargest, "forecast"),
    (Fault::ForecastSevenWithoutABlock, "forecast"),
    (Fault::ForetellsUnlisted, "forecast of an unlisted type"),
];

/// Knows the list, so that it can be wrong about what was inserted and about nothing else.
struct Impostor {
    model: Model,
    fault: Fault,
    old: Save,
    new: Save,
    /// The save with the last definition.
    newest: Option<(Insertion, Save)>,
}

impl Impostor {
    fn new(fault: Fault, made: &Widening) -> Impostor {
        let new = made.new_save();
        let newest = made.last.as_ref().map(|last| {
            let mut save = new.clone();
            last.insert(&mut save);
            (last.clone(), save)
        });
        Impostor {
            model: Model::default(),
            fault,
            old: made.old.clone(),
            new,
            newest,
        }
    }
}

impl Implementation for Impostor {
    fn answer(&mut self, call: Call<'_>, lent: Lent<'_>) -> Answer {
        let Lent { file, table, out } = lent;
        let before = out.to_vec();
        let is_new = self.new.bytes() == file && self.old.bytes() != file;
        let asked = if is_new {
            self.changed_call(call)
        } else {
            call
        };
        let mut read = file.to_vec();
        if is_new && self.fault == Fault::LosesTheVersion && self.new.version == 1 {
            read[4] = 2;
        }
        let whole = Lent {
            file: &read,
            table,
            out: &mut *out,
        };
        let answer = self.model.answer(asked, whole);
        let unlisted = self.newest.clone();
        if let Some((last, save)) = unlisted.filter(|(_, save)| save.bytes() == file) {
            return self.unlisted(answer, call, &last, &save);
        }
        match (answer, call) {
            (answer, _) if !is_new => answer,
            (Answer::Reading(answer), _) => Answer::Reading(self.reading(answer)),
            (Answer::Field(answer), Call::FieldOf { block, name }) => {
                Answer::Field(self.field(answer, block, name))
            }
            (Answer::Field(answer), Call::FieldByIndex { block, name, .. }) => {
                Answer::Field(self.looked_up(answer, block, name))
            }
            (Answer::Length(answer), _) => {
                let Some(index) = self.other_index() else {
                    return Answer::Length(answer);
                };
                out.copy_from_slice(&before);
                let Text { number, length, .. } = store(&index, 0, out);
                Answer::Length(Length {
                    number,
                    length,
                    ..Length::default()
                })
            }
            (Answer::Checked(answer), Call::CheckIndex { index }) => {
                Answer::Checked(self.checked(answer, index))
            }
            (Answer::Number(answer), Call::DefinesOnce) if self.fault == Fault::NotOnce => {
                Answer::Number(Number { value: 0, ..answer })
            }
            (Answer::Text(_), _) => {
                out.copy_from_slice(&before);
                let steps = match self.fault {
                    Fault::OldSteps => self.old.steps(),
                    _ => self.new.steps(),
                };
                Answer::Text(store(&self.text(), steps, out))
            }
            (Answer::Forecast(answer), _) => Answer::Forecast(self.forecast(answer)),
            (answer, _) => answer,
        }
    }
}

impl Impostor {
    fn reading(&self, answer: Reading) -> Reading {
        match self.fault {
            Fault::RefusesNew => Reading::refused(3, 8),
            Fault::OldCounts => Reading {
                prototypes: self.old.prototypes().count() as u64,
                ..answer
            },
            _ => answer,
        }
    }

    /// What the model is asked in place of a call about the new save.
    fn changed_call<'a>(&self, call: Call<'a>) -> Call<'a> {
        match call {
            Call::FieldOf { block, name } if self.fault == Fault::OldNumbers => {
                let numbers = self.new.new_numbers();
                let block = numbers.get(block as usize).map_or(u64::MAX, |new| *new);
                Call::FieldOf { block, name }
            }
            Call::FieldByIndex { index, block, name }
                if self.fault == Fault::LooksUpByOldNumbers =>
            {
                let numbers = self.new.new_numbers();
                let block = numbers.get(block as usize).map_or(u64::MAX, |new| *new);
                Call::FieldByIndex { index, block, name }
            }
            call => call,
        }
    }

    /// What is written in place of the new save's index.
    fn other_index(&self) -> Option<Vec<u8>> {
        let index = self.new.index();
        let records = index.chunks(RECORD).zip(self.new.blocks());
        match self.fault {
            Fault::IndexOfOldBlocks => {
                let old = records.filter(|(_, block)| !block.inserted);
                Some(old.flat_map(|(record, _)| record.to_vec()).collect())
            }
            Fault::IndexOfOldFields => {
                let counted = records.flat_map(|(record, block)| {
                    let fields = &self.new.of(block).fields;
                    let old = fields.iter().filter(|field| !field.inserted).count();
                    [&record[..9], &old.to_le_bytes()[..3]].concat()
                });
                Some(counted.collect())
            }
            _ => None,
        }
    }

    fn checked(&self, answer: Checked, index: &[u8]) -> Checked {
        match self.fault {
            Fault::AcceptsTheOldIndex if index == self.old.index() => Checked::default(),
            Fault::RefusesTheIndexWritten if answer.number == 0 && !index.is_empty() => {
                Checked::refused(14, 0)
            }
            _ => answer,
        }
    }

    /// A block of the new save, its prototype, and the position of the first definition so named, with
    /// the inserted ones in front of it and without.
    fn named(&self, block: u64, name: &[u8]) -> Option<(&Block, &Prototype, [usize; 2])> {
        let there = self.new.blocks().nth(block as usize)?;
        let of = self.new.of(there);
        let position = of.position(name)?;
        let in_front = of.fields[..position].iter();
        let old = in_front.filter(|field| !field.inserted).count();
        Some((there, of, [position, old]))
    }

    fn looked_up(&self, answer: Field, block: u64, name: &[u8]) -> Field {
        let Some((there, of, [position, old_position])) = self.named(block, name) else {
            return answer;
        };
        match self.fault {
            Fault::LooksUpOldPositions => Field {
                part_offset: self.start(block, old_position),
                part_len: there.values[old_position].bytes.len() as u64,
                ..answer
            },
            Fault::LooksUpNoInsertedNames if of.fields[position].inserted => Field::refused(13, 0),
            _ => answer,
        }
    }

    fn field(&self, answer: Field, block: u64, name: &[u8]) -> Field {
        let Some((there, of, [position, old_position])) = self.named(block, name) else {
            return answer;
        };
        match self.fault {
            Fault::OldPositions => Field {
                part_offset: self.start(block, old_position),
                part_len: there.values[old_position].bytes.len() as u64,
                ..answer
            },
            Fault::OldTypes => Field {
                type_id: of.fields[old_position].type_id,
                ..answer
            },
            Fault::GuessesLength => {
                let inserted = there.values[..position].iter().filter(|v| v.inserted);
                let wrong: i64 = inserted.map(|value| 4 - value.bytes.len() as i64).sum();
                Field {
                    part_offset: answer.part_offset.wrapping_add_signed(wrong),
                    ..answer
                }
            }
            Fault::SevenForInsertedNames if of.fields[position].inserted => Field::refused(7, 8),
            _ => answer,
        }
    }

    /// One figure of the old save.
    fn forecast(&mut self, mut answer: Forecast) -> Forecast {
        let file = self.old.bytes();
        let mut table = vec![0; calls::enough_words(file.len())];
        let lent = Lent::file(&file, &mut table);
        let old = self.model.answer(Call::Forecast, lent).forecast();
        match self.fault {
            Fault::ForetellsTheOldSteps => answer.steps = old.steps,
            Fault::ForetellsTheOldText => answer.text_len = old.text_len,
            Fault::ForetellsTheOldWords => answer.table_words = old.table_words,
            Fault::ForetellsTheOldIndex => answer.index_len = old.index_len,
            Fault::ForetellsTheOldLargest => answer.largest_block = old.largest_block,
            _ => {}
        }
        answer
    }

    /// Where a value of a block of the new save starts.
    fn start(&self, block: u64, position: usize) -> u64 {
        let id = self.new.blocks().nth(block as usize).unwrap().prototype;
        let earlier = self.new.blocks().take(block as usize);
        let nth = earlier.filter(|earlier| earlier.prototype == id).count();
        self.new.value_starts(id, position)[nth] as u64
    }

    fn text(&mut self) -> Vec<u8> {
        let mut save = self.new.clone();
        match self.fault {
            Fault::OldText => save = self.old.clone(),
            Fault::InsertedFieldsLast => inserted_last(&mut save),
            Fault::InsertedBlocksLast => save
                .records
                .sort_by_key(|record| matches!(record, Record::Block(block) if block.inserted)),
            _ => {}
        }
        let made = self.model.whole_text(&save.bytes(), usize::MAX);
        let (text, _, _) = made.expect("it converts");
        match self.fault {
            Fault::DropsALine if self.ends_with_an_old_value() => without_a_line(&text),
            _ => text,
        }
    }

    /// Whether the last line of a field is none of an inserted part.
    fn ends_with_an_old_value(&self) -> bool {
        let last = self.new.blocks().filter(|block| !block.values.is_empty());
        last.last().is_some_and(|block| {
            let value = block.values.last().expect("not empty");
            !block.inserted && !value.inserted
        })
    }

    /// The save with the last definition.
    fn unlisted(&self, answer: Answer, call: Call<'_>, last: &Insertion, save: &Save) -> Answer {
        let Insertion::Field { id, position, .. } = last else {
            unreachable!("the last one is a definition");
        };
        let starts = save.value_starts(*id, *position);
        match (self.fault, first_unlisted(last, save)) {
            (Fault::SevenWithoutABlock, None) => answer.refused(7, 8),
            (Fault::IndexSevenWithoutABlock, None) if call == Call::WriteIndex => {
                answer.refused(7, 8)
            }
            (Fault::ForecastSevenWithoutABlock, None) if call == Call::Forecast => {
                answer.refused(7, 8)
            }
            (_, None) => answer,
            (Fault::SevenAtTheBlock, Some(_)) => {
                let first = save.value_starts(*id, 0)[0];
                let block = save.blocks().find(|block| block.prototype == *id).unwrap();
                answer.refused(7, (first - 4 - block.id.len()) as u64)
            }
            (Fault::SevenAtTheLastValue, Some(_)) => {
                answer.refused(7, *starts.last().unwrap() as u64)
            }
            (fault, Some(_)) => carried(fault, answer, call, save),
        }
    }
}

/// A wrong answer of one call, where a block carries the last definition.
fn carried(fault: Fault, answer: Answer, call: Call<'_>, save: &Save) -> Answer {
    match (fault, call) {
        (Fault::ReadsUnlisted, Call::Read) => Answer::Reading(Reading {
            prototypes: save.prototypes().count() as u64,
            blocks: save.blocks().count() as u64,
            next: save.next() as u64,
            ..Reading::default()
        }),
        (Fault::FindsNothingUnlisted, Call::FieldOf { .. }) => answer.refused(13, 0),
        (Fault::AbsentBeforeSeven, Call::FieldOf { block, .. })
            if block == save.blocks().count() as u64 =>
        {
            answer.refused(13, 0)
        }
        (Fault::OutputBeforeSeven, Call::ToSiin) => answer.refused(11, 0),
        (Fault::SpaceBeforeSeven, Call::WriteIndex) => answer.refused(11, 0),
        (Fault::ForetellsUnlisted, Call::Forecast) => Answer::Forecast(Forecast::default()),
        (Fault::LooksUpUnlisted, Call::FieldByIndex { .. }) if answer.number() == 7 => {
            Answer::Field(Field::default())
        }
        (Fault::SevenInEveryBlock, Call::FieldByIndex { .. }) if answer.number() == 0 => {
            answer.refused(7, 8)
        }
        (Fault::MisfitBeforeSeven, Call::CheckIndex { index }) if index != save.index() => {
            answer.refused(14, 0)
        }
        _ => answer,
    }
}

/// The inserted definitions and their values behind the others. An inserted block's values are not
/// marked by themselves, so the definitions decide.
fn inserted_last(save: &mut Save) {
    let before = save.clone();
    for record in &mut save.records {
        match record {
            Record::Prototype(of) => of.fields.sort_by_key(|field| field.inserted),
            Record::Block(block) => {
                let fields = &before.of(block).fields;
                let values = std::mem::take(&mut block.values);
                let mut values: Vec<_> = fields.iter().zip(values).collect();
                values.sort_by_key(|(field, _)| field.inserted);
                block.values = values.into_iter().map(|(_, value)| value).collect();
            }
        }
    }
}

/// Without the last line of a field.
fn without_a_line(text: &[u8]) -> Vec<u8> {
    let lines: Vec<&[u8]> = text.split_inclusive(|byte| *byte == b'\n').collect();
    let dropped = lines.iter().rposition(|line| line.starts_with(b"  "));
    let kept = lines
        .iter()
        .enumerate()
        .filter(|(i, _)| Some(*i) != dropped);
    kept.flat_map(|(_, line)| line.to_vec()).collect()
}

/// What the first difference is about, and the number of its list.
fn first_difference(fault: Option<Fault>, most: u64) -> Option<(String, u64)> {
    (0..most).find_map(|index| {
        let made = widening(1, index);
        let mut asked = Widenings::default();
        asked.library = Some(match fault {
            Some(fault) => Box::new(Impostor::new(fault, &made)),
            None => Box::new(Model::default()),
        });
        let found = asked.list(&made, 1, &mut Tally::default()).err()?;
        Some((found.label, index))
    })
}

#[test]
fn each_impostor_is_found() {
    for (fault, by) in FAULTS {
        let found = first_difference(Some(fault), 500);
        let label = found.expect("a difference").0;
        assert_eq!(label, format!("widening, library: {by}"), "{fault:?}");
    }
}

/// Counts one prototype too many.
struct OneMore(Model);

impl Implementation for OneMore {
    fn answer(&mut self, call: Call<'_>, lent: Lent<'_>) -> Answer {
        let mut answer = self.0.answer(call, lent);
        if let Answer::Reading(reading) = &mut answer {
            reading.prototypes += 1;
        }
        answer
    }
}

#[test]
fn a_run_says_what_it_found() {
    let mut asked = Widenings::default();
    let (report, differences) = run(&mut asked, 1, 0, 20);
    assert_eq!(differences, 0);
    assert!(report.starts_with("lists       20 ("), "{report}");
    asked.library = Some(Box::new(OneMore(Model::default())));
    let (report, differences) = run(&mut asked, 1, 0, 20);
    assert_eq!(differences, 20);
    let first = "difference: widening, library: reading\n  list 0: ";
    assert!(report.starts_with(first), "{report}");
    assert!(report.ends_with("differences 20\n"), "{report}");
}

#[test]
fn the_model_passes_as_a_library() {
    assert_eq!(first_difference(None, 1000), None);
}
