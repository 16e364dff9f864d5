//! The forecast of one side by itself: what it foretells is held against what the side's other calls
//! then take, so that a forecast and a text that are wrong in the same way are all that is left to
//! the comparison with others.

use crate::plan::{Plan, TEXT_MEMORY};
use crate::report::{Check, Difference, Label, Tally};
use crate::side::Side;
use calls::{enough_words, Forecast, Text, RECORD};
use generate::Random;

pub struct Foretold<'a, 'b> {
    pub side: &'a mut Side<'b>,
    pub file: &'a [u8],
    pub plan: &'a Plan,
    pub random: &'a mut Random,
    pub tally: &'a mut Tally,
}

impl Foretold<'_, '_> {
    pub fn compare(&mut self) -> Check {
        let enough = enough_words(self.file.len());
        self.never_full(enough)?;
        let less = self.random.below(enough + 1);
        let more = enough + self.random.below(9);
        for words in [0, 1, 2, less, more] {
            self.forecast(words)?;
        }
        let foretold = self.forecast(enough)?;
        match foretold.number {
            0 => self.lent(foretold),
            _ => Ok(()),
        }
    }

    fn label(&self, what: &'static str) -> Label {
        (self.side.name, what)
    }

    /// With so many words no call gives 10.
    fn never_full(&mut self, words: usize) -> Check {
        for call in self.plan.calls() {
            let number = self.side.ask(call, self.file, words)?.number();
            let asked = || format!("{words} words, {call:?}");
            self.tally
                .same(self.label("words enough"), asked, number == 10, false)?;
        }
        Ok(())
    }

    /// It answers just where the text call asks for nothing but room, and else is refused as that one
    /// is. No refusal foretells anything, and none has steps.
    fn forecast(&mut self, words: usize) -> Result<Forecast, Difference> {
        let found = self.side.forecast(self.file, words)?;
        let text = self.side.text(self.file, words, 0)?;
        let asked = || format!("{words} words, the text: {text:?}");
        self.tally
            .same(self.label("steps of a refusal"), asked, text.steps, 0)?;
        let expected = match text.number {
            11 => Forecast {
                text_len: text.length,
                number: 0,
                ..found
            },
            _ => Forecast {
                lacking: text.lacking,
                ..Forecast::refused(text.number, text.offset)
            },
        };
        self.tally
            .same(self.label("forecast and text"), asked, found, expected)?;
        Ok(found)
    }

    /// What is foretold is lent, more of it, and less.
    fn lent(&mut self, foretold: Forecast) -> Check {
        let (words, most) = (foretold.table_words, enough_words(self.file.len()) as u64);
        let asked = || format!("of {} bytes: {foretold:?}", self.file.len());
        let is_within = words <= most && foretold.steps <= self.file.len() as u64;
        self.tally
            .same(self.label("limits"), asked, is_within, true)?;
        let words = words as usize;
        self.never_full(words)?;
        for words in [words, words + 1 + self.random.below(9)] {
            let found = self.forecast(words)?;
            let asked = || format!("{words} words");
            self.tally
                .same(self.label("words foretold"), asked, found, foretold)?;
        }
        self.index(foretold)?;
        if words > 0 {
            for fewer in [words - 1, self.random.below(words)] {
                self.fewer_words(fewer, foretold)?;
            }
        }
        match foretold.text_len <= TEXT_MEMORY {
            true => self.text(words, foretold),
            false => Ok(()),
        }
    }

    /// The index and its longest block.
    fn index(&mut self, foretold: Forecast) -> Check {
        let words = foretold.table_words as usize;
        let written = self.side.whole_index(self.file, words)?;
        let asked = || format!("index {written:02x?}");
        let index = written.as_deref().unwrap_or_default();
        let length = |record: &[u8]| (0..3).map(|i| u64::from(record[3 + i]) << (8 * i)).sum();
        let largest = index.chunks_exact(RECORD).map(length).max();
        let found = (index.len() as u64, largest.unwrap_or(0));
        let expected = (foretold.index_len, foretold.largest_block);
        self.tally
            .same(self.label("index foretold"), asked, found, expected)
    }

    /// 10, whatever the room is.
    fn fewer_words(&mut self, words: usize, foretold: Forecast) -> Check {
        let needed = foretold.text_len.min(TEXT_MEMORY) as usize;
        for room in [0, self.random.below(needed), needed + 3] {
            let number = self.side.text(self.file, words, room)?.number;
            let asked = || format!("{words} words, {room} bytes: {foretold:?}");
            self.tally
                .same(self.label("fewer words"), asked, number, 10)?;
        }
        Ok(())
    }

    /// With room enough the text and the steps foretold; with less 11.
    fn text(&mut self, words: usize, foretold: Forecast) -> Check {
        let (length, steps) = (foretold.text_len, foretold.steps);
        let needed = length as usize;
        let more = needed + self.random.below(9);
        for (words, room) in [(words, needed), (words + 5, more)] {
            let asked = || format!("{words} words, {room} bytes: {foretold:?}");
            let found = self.side.text(self.file, words, room)?;
            let expected = Text {
                length,
                steps,
                ..Text::default()
            };
            self.tally
                .same(self.label("text foretold"), asked, found, expected)?;
        }
        for room in [needed.saturating_sub(1), self.random.below(needed)] {
            let asked = || format!("{room} bytes: {foretold:?}");
            let found = self.side.text(self.file, words, room)?;
            let expected = Text {
                number: 11,
                length,
                ..Text::default()
            };
            self.tally
                .same(self.label("less room"), asked, found, expected)?;
        }
        Ok(())
    }
}

#[cfg(test)]
mod tests {
    use super::*;
    use calls::{Answer, Call, Implementation, Lent};
    use model::Model;

    /// Gives 10 for one call, with every table.
    struct Full(Model, Call<'static>);

    impl Implementation for Full {
        fn answer(&mut self, call: Call<'_>, lent: Lent<'_>) -> Answer {
            let answer = self.0.answer(call, lent);
            match call.name() == self.1.name() {
                true => answer.refused(10, 8),
                false => answer,
            }
        }
    }

    #[test]
    fn each_call_is_asked_with_words_enough() {
        let file = generate::worked_bytes();
        let plan = Plan::new(&mut Model::default(), &file);
        for call in [
            Call::Read,
            Call::GetPrototype { id: 0 },
            Call::BlockAt { n: 0 },
            Call::BlocksByPrototypeName { name: b"", n: 0 },
            Call::FieldOf {
                block: 0,
                name: b"",
            },
            Call::ToSiin,
            Call::WriteIndex,
            Call::CheckIndex { index: b"" },
            Call::DefinesOnce,
            Call::Forecast,
        ] {
            let mut full = Full(Model::default(), call);
            let mut foretold = Foretold {
                side: &mut Side::new("library", &mut full, 0),
                file: &file,
                plan: &plan,
                random: &mut Random::new(1, 1),
                tally: &mut Tally::default(),
            };
            let label = foretold.compare().map_err(|difference| difference.label);
            assert_eq!(label, Err("library: words enough".to_string()), "{call:?}");
        }
    }
}
