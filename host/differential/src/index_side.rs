//! The library against the model: the calls about an index, with indexes of all kinds.

use crate::model_side::{Pair, WHO};
use crate::plan::{IndexPlan, Plan};
use crate::report::{Check, Difference};
use calls::{Call, Length};
use generate::index::{changed, changed_file, hostile, inside_a_string};
use generate::Random;

/// Wrong indexes of a file that are checked, and looked up by.
const WRONG: usize = 4;
/// Indexes of a file that point anywhere, and files that a right index is not of.
const HOSTILE: usize = 6;
/// Look-ups by each of these.
const LOOKED_UP: usize = 2;
/// Names that are looked up by any bytes as an index.
const NAMES: usize = 4;

impl<'b> Pair<'_, 'b> {
    pub fn index(&mut self, plan: &Plan, random: &mut Random) -> Check {
        self.both(Call::DefinesOnce, plan.words)?;
        self.write_index(plan.words)?;
        let index = &plan.index.index;
        self.check(index, plan.words)?;
        for _ in 0..WRONG {
            let wrong = changed(random, index);
            self.check(&wrong, plan.words)?;
            self.some(&wrong, &plan.index, random)?;
        }
        for block in &plan.blocks {
            for name in &plan.names {
                self.look_up(index, *block, name)?;
            }
        }
        for _ in 0..HOSTILE {
            let hostile = hostile(random, index, self.file.len(), &plan.index.places);
            self.some(&hostile, &plan.index, random)?;
            let other = changed_file(random, self.file, &plan.index.places);
            self.of(&other).some(index, &plan.index, random)?;
        }
        let (save, moved) = inside_a_string(self.file, index);
        self.of(&save).some(&moved, &plan.index, random)
    }

    /// The same two, asked about another file.
    fn of<'c>(&'c mut self, file: &'c [u8]) -> Pair<'c, 'b> {
        Pair {
            library: self.library,
            model: self.model,
            file,
            tally: self.tally,
        }
    }

    /// Blocks of the index and names of the file; now and then a block that is not there.
    fn some(&mut self, index: &[u8], plan: &IndexPlan, random: &mut Random) -> Check {
        let records = index.len() / calls::RECORD;
        for _ in 0..LOOKED_UP {
            let block = match random.below(20) {
                0 => records as u64,
                1 => random.pick(&[1 << 32, u64::MAX / 12 + 1, u64::MAX]),
                _ => random.below(records) as u64,
            };
            let name = &plan.names[random.below(plan.names.len())];
            self.look_up(index, block, name)?;
        }
        Ok(())
    }

    /// All blocks of the index, and one more, with the first names of the file.
    pub fn by_index(&mut self, index: &[u8], plan: &Plan) -> Check {
        let records = index.len() / calls::RECORD;
        for block in 0..=records as u64 {
            for name in plan.index.names.iter().take(NAMES) {
                self.look_up(index, block, name)?;
            }
        }
        Ok(())
    }

    fn look_up(&mut self, index: &[u8], block: u64, name: &[u8]) -> Check {
        self.both(Call::FieldByIndex { index, block, name }, 0)?;
        Ok(())
    }

    pub fn check(&mut self, index: &[u8], words: usize) -> Check {
        self.both(Call::CheckIndex { index }, words)?;
        Ok(())
    }

    /// In no space; and, if the file has an index, in one byte too few, in exact space and in more.
    pub fn write_index(&mut self, words: usize) -> Check {
        let short = self.both_indexes(words, 0)?;
        if !matches!(short.number, 0 | 11) {
            return Ok(());
        }
        let needed = short.length as usize;
        for room in [needed.saturating_sub(1), needed, needed + 5] {
            self.both_indexes(words, room)?;
        }
        Ok(())
    }

    fn both_indexes(&mut self, words: usize, room: usize) -> Result<Length, Difference> {
        let found = self.library.index(self.file, words, room)?;
        let expected = self.model.index(self.file, words, room)?;
        let asked = || format!("{words} words, {room} bytes");
        let label = (WHO, Call::WriteIndex.name());
        self.tally.same(label, asked, found, expected)?;
        if found.number == 0 {
            let [found, expected] =
                [&self.library, &self.model].map(|side| side.written(expected.length));
            self.tally.same(label, asked, found, expected)?;
        }
        Ok(found)
    }
}
