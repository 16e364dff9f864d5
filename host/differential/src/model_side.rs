//! The library against the model: every answer, with its offsets, and tables of all sizes.

use crate::plan::{indices, Plan, TEXT_MEMORY};
use crate::report::{Check, Difference, Tally};
use crate::side::Side;
use crate::stand_in::StandIn;
use calls::{enough_words, Answer, Call, Implementation, Lent, Text, ROW};
use generate::index::changed;
use generate::Random;
use model::Model;

/// How often the two are asked for the same thing with a random table size.
const TABLE_SIZES: usize = 2;

pub const WHO: &str = "library and model";

pub struct Pair<'a, 'b> {
    pub library: &'a mut Side<'b>,
    pub model: &'a mut Side<'b>,
    pub file: &'a [u8],
    pub tally: &'a mut Tally,
}

impl Pair<'_, '_> {
    pub fn compare(&mut self, plan: &Plan, random: &mut Random) -> Check {
        self.lookups(plan)?;
        self.fields(plan)?;
        self.text(plan.words)?;
        self.index(plan, random)?;
        self.table_sizes(plan, random)
    }

    /// Both are asked; the answer.
    pub fn both(&mut self, call: Call<'_>, words: usize) -> Result<Answer, Difference> {
        let found = self.library.ask(call, self.file, words)?;
        let expected = self.model.ask(call, self.file, words)?;
        let asked = || format!("{words} words, {call:?}");
        self.tally
            .same((WHO, call.name()), asked, found, expected)?;
        let number = found.number() as usize;
        match call {
            Call::CheckIndex { .. } => self.tally.checks[number] += 1,
            Call::FieldByIndex { .. } => self.tally.look_ups[number] += 1,
            Call::Forecast => self.tally.forecasts[number] += 1,
            _ => {}
        }
        Ok(found)
    }

    fn both_texts(&mut self, words: usize, room: usize) -> Result<Text, Difference> {
        let found = self.library.text(self.file, words, room)?;
        let expected = self.model.text(self.file, words, room)?;
        let asked = || format!("{words} words, {room} bytes");
        self.tally.same((WHO, "text"), asked, found, expected)?;
        Ok(found)
    }

    fn lookups(&mut self, plan: &Plan) -> Check {
        let words = plan.words;
        self.both(Call::Read, words)?;
        for id in &plan.ids {
            self.both(Call::GetPrototype { id: *id }, words)?;
        }
        for n in &plan.blocks {
            self.both(Call::BlockAt { n: *n }, words)?;
        }
        for name in &plan.names {
            let nth = |n| Call::BlocksByPrototypeName { name, n };
            let mut n = 0;
            while self.both(nth(n), words)?.number() == 0 {
                n += 1;
            }
            self.both(nth(u64::MAX), words)?;
        }
        Ok(())
    }

    fn fields(&mut self, plan: &Plan) -> Check {
        for n in &plan.blocks {
            for name in &plan.names {
                let field = self
                    .both(Call::FieldOf { block: *n, name }, plan.words)?
                    .field();
                if field.number == 0 {
                    let start = field.part_offset as usize;
                    let part = &self.file[start..start + field.part_len as usize];
                    self.elements(plan.version, field.type_id, part)?;
                }
            }
        }
        Ok(())
    }

    fn elements(&mut self, version: u32, type_id: u32, part: &[u8]) -> Check {
        let mut count = 0;
        while count < 8 && self.model.element(version, type_id, part, count).number == 0 {
            count += 1;
        }
        for index in indices(count) {
            self.element(version, type_id, part, index)?;
        }
        Ok(())
    }

    /// The element call with any bytes.
    pub fn element(&mut self, version: u32, type_id: u32, part: &[u8], index: u64) -> Check {
        let found = self.library.element(version, type_id, part, index);
        let expected = self.model.element(version, type_id, part, index);
        let asked = || format!("version {version}, type {type_id:#x}, index {index}, {part:02x?}");
        self.tally.same((WHO, "element"), asked, found, expected)
    }

    /// With no room; and, as long as the text is of a size to be written, with room to spare, with
    /// exact room and with one byte too few.
    fn text(&mut self, words: usize) -> Check {
        let refused = self.both_texts(words, 0)?;
        if refused.number != 11 || refused.length > TEXT_MEMORY {
            return Ok(());
        }
        let needed = refused.length as usize;
        for room in [needed - 1, needed, needed + 5] {
            self.text_in(words, room)?;
        }
        Ok(())
    }

    fn text_in(&mut self, words: usize, room: usize) -> Check {
        let answer = self.both_texts(words, room)?;
        if answer.number != 0 {
            return Ok(());
        }
        let [found, expected] = [&self.library, &self.model]
            .map(|side| String::from_utf8_lossy(side.written(answer.length)).into_owned());
        self.tally
            .same((WHO, "text bytes"), String::new, found, expected)
    }

    /// Exactly enough words, one too few, small tables and large ones: the forecast with all of them.
    fn table_sizes(&mut self, plan: &Plan, random: &mut Random) -> Check {
        let exact = ROW * plan.distinct.unwrap_or(3);
        let less = random.below(exact + 1);
        let sizes = [
            0,
            1,
            2,
            3,
            exact,
            exact + 1,
            exact.saturating_sub(1),
            less,
            3 * exact + 40,
            enough_words(self.file.len()),
        ];
        for words in sizes {
            self.both(Call::Forecast, words)?;
        }
        for _ in 0..TABLE_SIZES {
            let wrong = changed(random, &plan.index.index);
            self.table_size(plan, &wrong, random.pick(&sizes))?;
        }
        Ok(())
    }

    /// All calls with a table. With a wrong index, because a full table comes before a misfit.
    fn table_size(&mut self, plan: &Plan, wrong: &[u8], words: usize) -> Check {
        for call in plan.calls() {
            self.both(call, words)?;
        }
        self.check(wrong, words)?;
        self.write_index(words)?;
        self.text(words)
    }
}

/// A faulty value's reply is the Rust's reply to a file whose only block starts with that value.
pub fn element_fault(version: u32, type_id: u32, part: &[u8], tally: &mut Tally) -> Check {
    let call = Call::ElementOf {
        version,
        type_id,
        part,
        index: 0,
    };
    let refused = Model::default().answer(call, Lent::default()).number();
    // A definition cannot have type 0.
    if type_id == 0 || !matches!(refused, 3 | 4 | 5 | 7) {
        return Ok(());
    }
    let mut file = [b"BSII", &version.to_le_bytes()[..]].concat();
    file.extend(b"\0\0\0\0\x01\x01\0\0\0\0\0\0\0");
    file.extend(type_id.to_le_bytes());
    let empty_list = if type_id == 0x37 { 4 } else { 0 };
    file.extend(vec![0; 4 + empty_list + 4]);
    file.extend([1, 0, 0, 0, 0]);
    file.extend_from_slice(part);
    let stand_in = StandIn::of(&file);
    let parsed = stand_in.parse();
    stand_in.stops(&parsed, tally)?;
    let rust = parsed.err().and_then(|fault| fault.number()).unwrap_or(0);
    let asked = || format!("version {version}, type {type_id:#x}, {part:02x?}");
    tally.same(("model and Rust", "faulty value"), asked, refused, rust)
}
