//! Demand 3 by running: a side is asked about a save before and after a list of insertions.
//!
//! What is expected comes from the save's records as they were made, and from the answers before; the
//! model is asked only for the text of single parts.

mod parts;
mod run;

pub use run::{run, Counts};

use crate::report::{Check, Difference, Label, Tally};
use crate::side::Side;
use calls::{Answer, Call, Field, Forecast, Implementation, Length, Reading, RECORD, ROW};
use generate::save::{Block, Save};
use generate::widening::{Insertion, Widening};
use model::Model;
use parts::{text_parts, Part};
use std::fmt;

/// Number, offset and lacking bytes.
type Fault = (u32, u64, u64);

#[derive(Default)]
pub struct Widenings {
    model: Model,
    /// A second one, so that the model as a side keeps its own last file.
    parts: Model,
    /// Asked as the model is, if it is there.
    pub library: Option<Box<dyn Implementation + Send>>,
}

impl Widenings {
    /// Asks the model and the library about one list; the table comes in full of `garbage`.
    pub fn list(&mut self, made: &Widening, garbage: u32, tally: &mut Tally) -> Check {
        let model = Side::new("model", &mut self.model, garbage);
        one_side(model, made, &mut self.parts, tally)?;
        match &mut self.library {
            None => Ok(()),
            Some(library) => {
                let library = Side::new("library", library.as_mut(), garbage);
                one_side(library, made, &mut self.parts, tally)
            }
        }
    }
}

fn one_side(side: Side<'_>, made: &Widening, model: &mut Model, tally: &mut Tally) -> Check {
    let mut asked = Asked { side, model, tally };
    let before = asked.before(&made.old)?;
    let mut save = made.new_save();
    asked.still_converts(&before, &save)?;
    let Some(last) = &made.last else {
        return Ok(());
    };
    last.insert(&mut save);
    match first_unlisted(last, &save) {
        Some(offset) => asked.stops(&save, last, offset as u64),
        None => asked.still_converts(&before, &save),
    }
}

/// Where the first value of a last definition starts, if a block carries it.
pub fn first_unlisted(last: &Insertion, save: &Save) -> Option<usize> {
    match last {
        Insertion::Field { id, position, .. } => save.value_starts(*id, *position).first().copied(),
        _ => None,
    }
}

/// A field that was found in the old save: by block and name, with type and bytes.
struct Found {
    block: usize,
    name: Vec<u8>,
    type_id: u32,
    bytes: Vec<u8>,
}

/// The answers about the old save.
struct Before {
    text: Vec<u8>,
    index: Vec<u8>,
    /// By the field call and by the old save's index alike.
    found: Vec<Found>,
}

struct Asked<'a, 'b> {
    side: Side<'a>,
    model: &'b mut Model,
    tally: &'b mut Tally,
}

/// Words enough for the save's ids, and none too many.
fn words(save: &Save) -> usize {
    ROW * save.prototypes().count()
}

/// Every name in the save, and one that is nowhere.
fn names(save: &Save) -> Vec<&[u8]> {
    let mut names: Vec<&[u8]> = vec![b"nowhere"];
    for prototype in save.prototypes() {
        names.push(&prototype.name);
        names.extend(prototype.fields.iter().map(|field| &field.name[..]));
    }
    names.sort();
    names.dedup();
    names
}

impl Asked<'_, '_> {
    fn label(&self, what: &'static str) -> Label {
        match self.side.name {
            "model" => ("widening, model", what),
            _ => ("widening, library", what),
        }
    }

    fn same<T: PartialEq + std::fmt::Debug>(
        &mut self,
        what: &'static str,
        asked: impl FnOnce() -> String,
        found: T,
        expected: T,
    ) -> Check {
        let label = self.label(what);
        self.tally.same(label, asked, found, expected)
    }

    /// The old save converts, and its fields are those that it was made with: else nothing would be
    /// asked afterwards.
    fn before(&mut self, old: &Save) -> Result<Before, Difference> {
        self.reading(old)?;
        let text = self.text(old)?;
        self.forecast(old, &text)?;
        let file = old.bytes();
        let index = self.index(old)?;
        let mut found = Vec::new();
        for (number, block) in old.blocks().enumerate() {
            for name in names(old) {
                let block_number = number as u64;
                let call = Call::FieldOf {
                    block: block_number,
                    name,
                };
                let answer = self.side.ask(call, &file, words(old))?.field();
                let part = part_of(&file, answer).map(|bytes| (answer.type_id, bytes.to_vec()));
                let expected = made_value(old, block, name);
                let asked = || format!("block {number}, name {name:?}");
                self.same("a field before", asked, part.clone(), expected)?;
                let by_index = self.by_index(&file, &index, block_number, name)?;
                self.same("a field by index before", asked, by_index, answer)?;
                if let Some((type_id, bytes)) = part {
                    found.push(Found {
                        block: number,
                        name: name.to_vec(),
                        type_id,
                        bytes,
                    });
                }
            }
        }
        Ok(Before { text, index, found })
    }

    /// The index is that of the records which the save was made of; it fits, no id is defined twice.
    fn index(&mut self, save: &Save) -> Result<Vec<u8>, Difference> {
        let (file, words, expected) = (save.bytes(), words(save), save.index());
        let written = self.side.whole_index(&file, words)?;
        self.same("index", String::new, written, Some(expected.clone()))?;
        self.check(&file, words, &expected, (0, 0, 0))?;
        let once = self.side.ask(Call::DefinesOnce, &file, words)?.named();
        self.same("once", String::new, (once.number, once.value), (0, 1))?;
        Ok(expected)
    }

    fn check(&mut self, file: &[u8], words: usize, index: &[u8], expected: Fault) -> Check {
        let call = Call::CheckIndex { index };
        let checked = self.side.ask(call, file, words)?.fault();
        let asked = || format!("{index:02x?}");
        self.same("check of an index", asked, checked, expected)
    }

    fn by_index(
        &mut self,
        file: &[u8],
        index: &[u8],
        block: u64,
        name: &[u8],
    ) -> Result<Field, Difference> {
        let call = Call::FieldByIndex { index, block, name };
        Ok(self.side.ask(call, file, 0)?.field())
    }

    /// The counts are those of the records that the save was made of.
    fn reading(&mut self, save: &Save) -> Check {
        let answer = self.side.ask(Call::Read, &save.bytes(), words(save))?;
        let expected = Answer::Reading(Reading {
            prototypes: save.prototypes().count() as u64,
            blocks: save.blocks().count() as u64,
            next: save.next() as u64,
            ..Reading::default()
        });
        self.same("reading", String::new, answer, expected)
    }

    /// The text, which is the same with room to spare and with exact room.
    fn text(&mut self, save: &Save) -> Result<Vec<u8>, Difference> {
        let needed = self.side.text(&save.bytes(), words(save), 0)?;
        let asked = || "needed length".to_string();
        self.same("text", asked, needed.number, 11)?;
        let room = needed.length as usize;
        let spare = self.text_in(save, room, room + 9)?;
        let exact = self.text_in(save, room, room)?;
        let asked = || "with exact room".to_string();
        self.same("text", asked, Shown(&exact), Shown(&spare))?;
        Ok(exact)
    }

    fn text_in(&mut self, save: &Save, length: usize, room: usize) -> Result<Vec<u8>, Difference> {
        let answer = self.side.text(&save.bytes(), words(save), room)?;
        let found = (answer.number, answer.length, answer.steps);
        let asked = || format!("with {room} bytes");
        self.same("text", asked, found, (0, length as u64, save.steps()))?;
        Ok(self.side.written(answer.length).to_vec())
    }

    /// What is foretold is the text's length, and what follows from the records that the save was made
    /// of.
    fn forecast(&mut self, save: &Save, text: &[u8]) -> Check {
        let found = self.side.forecast(&save.bytes(), words(save))?;
        let expected = Forecast {
            table_words: words(save) as u64,
            text_len: text.len() as u64,
            index_len: (RECORD * save.blocks().count()) as u64,
            largest_block: save.largest_block(),
            steps: save.steps(),
            ..Forecast::default()
        };
        self.same("forecast", String::new, found, expected)
    }

    /// What demand 3 says of a save after insertions.
    fn still_converts(&mut self, before: &Before, new: &Save) -> Check {
        self.reading(new)?;
        let text = self.text(new)?;
        let parts = text_parts(self.model, new);
        self.left_out(&text, &parts, &before.text)?;
        self.forecast(new, &text)?;
        let (file, numbers) = (new.bytes(), new.new_numbers());
        let index = self.index(new)?;
        self.stale(&file, words(new), &before.index, &index)?;
        for found in &before.found {
            let (block, name) = (numbers[found.block], &found.name[..]);
            let call = Call::FieldOf { block, name };
            let answer = self.side.ask(call, &file, words(new))?.field();
            let part = part_of(&file, answer).map(|bytes| (answer.type_id, bytes));
            let asked = || format!("old block {}, {call:?}", found.block);
            let expected = Some((found.type_id, &found.bytes[..]));
            self.same("a field after", asked, part, expected)?;
            let by_index = self.by_index(&file, &index, block, name)?;
            let part = part_of(&file, by_index).map(|bytes| (by_index.type_id, bytes));
            self.same("a field by index after", asked, part, expected)?;
        }
        self.found_or_absent(new, &index)
    }

    /// The index of the old save is that of the new one, or the check tells the first record that is not.
    fn stale(&mut self, file: &[u8], words: usize, old: &[u8], new: &[u8]) -> Check {
        let records = old.len().max(new.len()) / RECORD;
        let differs = (0..records).find(|k| {
            let of = k * RECORD..(k + 1) * RECORD;
            old.get(of.clone()) != new.get(of)
        });
        let expected = differs.map_or((0, 0, 0), |k| (14, (k * RECORD) as u64, 0));
        self.check(file, words, old, expected)
    }

    /// No field call is refused for the save, and a look-up by its index finds the same.
    fn found_or_absent(&mut self, save: &Save, index: &[u8]) -> Check {
        let file = save.bytes();
        for block in 0..=save.blocks().count() as u64 {
            for name in names(save) {
                let call = Call::FieldOf { block, name };
                let answer = self.side.ask(call, &file, words(save))?.field();
                let asked = || format!("{call:?} gives {}", answer.number);
                let is_so = matches!(answer.number, 0 | 13);
                self.same("found or absent", asked, is_so, true)?;
                let by_index = self.by_index(&file, index, block, name)?;
                self.same("found or absent by index", asked, by_index, answer)?;
            }
        }
        Ok(())
    }

    /// The inserted parts stand in the new text at their places, and without them it is the old one.
    fn left_out(&mut self, text: &[u8], parts: &[Part], old: &[u8]) -> Check {
        let (mut at, mut left) = (0, Vec::new());
        for part in parts {
            let end = (at + part.text.len()).min(text.len());
            let there = &text[at..end];
            if part.inserted {
                let asked = || format!("at {at} of the text");
                self.same("an inserted part", asked, Shown(there), Shown(&part.text))?;
            } else {
                left.extend_from_slice(there);
            }
            at = end;
        }
        left.extend_from_slice(&text[at..]);
        let asked = || "the text without the inserted parts".to_string();
        self.same("the old text", asked, Shown(&left), Shown(old))
    }

    /// A look-up reads one block: of another prototype's what it was made with, and of this one's it
    /// gives 7 at its own value.
    fn beside_unlisted(&mut self, save: &Save, last: &Insertion) -> Check {
        let Insertion::Field { id, position, .. } = last else {
            return Ok(());
        };
        let (file, index) = (save.bytes(), save.index());
        let mut starts = save.value_starts(*id, *position).into_iter();
        for (number, block) in save.blocks().enumerate() {
            let start = match block.prototype == *id {
                true => starts.next(),
                false => None,
            };
            for name in names(save) {
                let answer = self.by_index(&file, &index, number as u64, name)?;
                let asked = || format!("block {number}, name {name:?}: {answer:?}");
                match start {
                    Some(start) => {
                        let expected = Field::refused(7, start as u64);
                        self.same("look-up of an unlisted type", asked, answer, expected)?;
                    }
                    None => {
                        let part = part_of(&file, answer);
                        let part = part.map(|bytes| (answer.type_id, bytes.to_vec()));
                        let expected = made_value(save, block, name);
                        self.same("look-up beside an unlisted type", asked, part, expected)?;
                    }
                }
            }
        }
        Ok(())
    }

    /// Reading, text, forecast, every field call, writing an index and checking one give 7 at the
    /// offset.
    fn stops(&mut self, save: &Save, last: &Insertion, offset: u64) -> Check {
        let (file, words) = (save.bytes(), words(save));
        let answer = self.side.ask(Call::Read, &file, words)?;
        let expected = answer.refused(7, offset);
        self.same("reading of an unlisted type", String::new, answer, expected)?;
        for room in [0, 64] {
            let answer = self.side.text(&file, words, room)?;
            let found = (answer.number, answer.offset);
            self.same("text of an unlisted type", String::new, found, (7, offset))?;
        }
        let answer = self.side.forecast(&file, words)?;
        let expected = Forecast::refused(7, offset);
        let what = "forecast of an unlisted type";
        self.same(what, String::new, answer, expected)?;
        for room in [0, RECORD, RECORD * save.blocks().count()] {
            let answer = self.side.index(&file, words, room)?;
            let expected = Length::refused(7, offset);
            self.same("index of an unlisted type", String::new, answer, expected)?;
        }
        self.check(&file, words, &save.index(), (7, offset, 0))?;
        self.check(&file, words, b"none", (7, offset, 0))?;
        self.beside_unlisted(save, last)?;
        for block in 0..=save.blocks().count() as u64 {
            for name in names(save) {
                let call = Call::FieldOf { block, name };
                let answer = self.side.ask(call, &file, words)?;
                let asked = || format!("{call:?}");
                let expected = answer.refused(7, offset);
                self.same("field of an unlisted type", asked, answer, expected)?;
            }
        }
        Ok(())
    }
}

/// The bytes that a field's answer points to.
fn part_of(file: &[u8], answer: Field) -> Option<&[u8]> {
    let start = usize::try_from(answer.part_offset).ok()?;
    let end = start.checked_add(usize::try_from(answer.part_len).ok()?)?;
    file.get(start..end).filter(|_| answer.number == 0)
}

/// The type and bytes that a block was made with under a name.
fn made_value(save: &Save, block: &Block, name: &[u8]) -> Option<(u32, Vec<u8>)> {
    let of = save.of(block);
    let position = of.position(name)?;
    let value = &block.values[position];
    Some((of.fields[position].type_id, value.bytes.clone()))
}

/// Compared as bytes, and shown as text.
#[derive(PartialEq)]
struct Shown<'a>(&'a [u8]);

impl fmt::Debug for Shown<'_> {
    fn fmt(&self, to: &mut fmt::Formatter<'_>) -> fmt::Result {
        write!(to, "{:?}", String::from_utf8_lossy(self.0))
    }
}
