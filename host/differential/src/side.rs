//! One implementation, called with a table and an output that are watched.

use crate::report::{differ, Difference};
use calls::{Answer, Call, Element, Forecast, Implementation, Length, Lent, Text, RECORD};

/// Words or bytes on both ends of what is lent.
const MARGIN: usize = 8;

pub struct Side<'a> {
    pub name: &'static str,
    calls: &'a mut dyn Implementation,
    garbage: u32,
    /// What comes in with each table.
    fill: Vec<u32>,
    table: Vec<u32>,
    out: Vec<u8>,
}

impl<'a> Side<'a> {
    pub fn new(name: &'static str, calls: &'a mut dyn Implementation, garbage: u32) -> Side<'a> {
        Side {
            name,
            calls,
            garbage,
            fill: Vec::new(),
            table: Vec::new(),
            out: Vec::new(),
        }
    }

    /// Lends a table full of garbage; afterwards it is all zero and nothing around it has changed.
    fn with_table(
        &mut self,
        call: Call<'_>,
        file: &[u8],
        words: usize,
        out: &mut [u8],
    ) -> Result<Answer, Difference> {
        let (end, all) = (MARGIN + words, words + 2 * MARGIN);
        for i in self.fill.len()..all {
            // Odd, so that no word comes in as zero.
            let word = (i as u32).wrapping_mul(0x9e37_79b9);
            self.fill.push(word.wrapping_add(self.garbage) | 1);
        }
        self.table.clear();
        self.table.extend_from_slice(&self.fill[..all]);
        let table = &mut self.table[MARGIN..end];
        let answer = self.calls.answer(call, Lent { file, table, out });
        let is_zero = self.table[MARGIN..end].iter().all(|word| *word == 0);
        let around =
            self.table[..MARGIN] == self.fill[..MARGIN] && self.table[end..] == self.fill[end..all];
        if is_zero && around {
            return Ok(answer.known());
        }
        let detail = format!("{words} words, after a call {:x?}", &self.table);
        differ((self.name, "table"), detail)
    }

    /// A call without an output, with a table of so many words.
    pub fn ask(&mut self, call: Call<'_>, file: &[u8], words: usize) -> Result<Answer, Difference> {
        self.with_table(call, file, words, &mut [])
    }

    pub fn forecast(&mut self, file: &[u8], words: usize) -> Result<Forecast, Difference> {
        Ok(self.ask(Call::Forecast, file, words)?.forecast())
    }

    pub fn element(&mut self, version: u32, type_id: u32, part: &[u8], index: u64) -> Element {
        let call = Call::ElementOf {
            version,
            type_id,
            part,
            index,
        };
        self.calls.answer(call, Lent::default()).known().element()
    }

    fn pattern(&self, i: usize) -> u8 {
        (i as u32).wrapping_mul(167).wrapping_add(self.garbage) as u8
    }

    /// Lends an output full of a pattern, which stays beyond what is written, and everywhere on refusal.
    /// What was written is in `written` afterwards.
    fn output(
        &mut self,
        call: Call<'_>,
        file: &[u8],
        words: usize,
        room: usize,
    ) -> Result<Answer, Difference> {
        let mut out = std::mem::take(&mut self.out);
        out.clear();
        out.extend((0..room + 2 * MARGIN).map(|i| self.pattern(i)));
        let lent = &mut out[MARGIN..MARGIN + room];
        let answer = self.with_table(call, file, words, lent)?;
        let length = match answer {
            Answer::Text(Text {
                number: 0, length, ..
            }) => length,
            Answer::Length(Length {
                number: 0, length, ..
            }) => length,
            _ => 0,
        };
        if length > room as u64 {
            let detail = format!("length {length} in an output of {room}");
            return differ((self.name, "output"), detail);
        }
        let written = MARGIN..MARGIN + length as usize;
        let kept = |i: usize| written.contains(&i) || out[i] == self.pattern(i);
        if let Some(i) = (0..out.len()).find(|i| !kept(*i)) {
            let place = i as i64 - MARGIN as i64;
            let detail = format!("byte {place} of {room} changed, with {answer:?}");
            return differ((self.name, "output"), detail);
        }
        self.out = out;
        Ok(answer)
    }

    pub fn text(&mut self, file: &[u8], words: usize, room: usize) -> Result<Text, Difference> {
        Ok(self.output(Call::ToSiin, file, words, room)?.text())
    }

    pub fn index(&mut self, file: &[u8], words: usize, room: usize) -> Result<Length, Difference> {
        Ok(self.output(Call::WriteIndex, file, words, room)?.length())
    }

    /// The text or index of the last accepted `text` or `index`, of this length.
    pub fn written(&self, length: u64) -> &[u8] {
        &self.out[MARGIN..MARGIN + length as usize]
    }

    /// The whole index, if the file has one.
    pub fn whole_index(
        &mut self,
        file: &[u8],
        words: usize,
    ) -> Result<Option<Vec<u8>>, Difference> {
        let short = self.index(file, words, 0)?;
        let length = match short.number {
            0 | 11 => short.length,
            _ => return Ok(None),
        };
        // A block has at least five bytes.
        if length > (file.len() / 5 * RECORD) as u64 {
            let detail = format!("length {length} for a file of {} bytes", file.len());
            return differ((self.name, "write_index"), detail);
        }
        let whole = self.index(file, words, length as usize)?;
        if (whole.number, whole.length) != (0, length) {
            let detail = format!("{whole:?} in a space of the needed length, {length}");
            return differ((self.name, "write_index"), detail);
        }
        Ok(Some(self.written(length).to_vec()))
    }
}
