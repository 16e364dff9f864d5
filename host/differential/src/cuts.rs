//! Replies 3 and 15 by running: a side is asked about saves that were cut, with bytes behind the cut,
//! with another mark, and with a string longer than the save.
//!
//! What is expected follows from the whole save, which is read, and from the side's own answer to the
//! cut. The model says which saves are read and where their values stand; no answer is compared with
//! its.

mod run;

pub use run::{run, Counts};

use crate::report::{Check, Difference, Label, Tally};
use crate::side::Side;
use calls::{Call, Implementation};
use generate::{Made, Random};
use model::{Model, Parsed};

/// A save of at most so many bytes is cut at each of them, a longer one at so many.
const EACH: usize = 256;
/// Marks and strings of a save that are changed.
const CHANGED: usize = 4;

/// Number, offset and lacking bytes.
type Fault = (u32, u64, u64);

#[derive(Default)]
pub struct Cuts {
    model: Model,
    /// A second one, so that the model as a side keeps its own last file.
    places: Model,
    /// Asked as the model is, if it is there.
    pub library: Option<Box<dyn Implementation + Send>>,
}

impl Cuts {
    /// File `index` of a seed, before its damage and after it.
    pub fn file(&mut self, seed: u64, index: u64, tally: &mut Tally) -> Result<Counts, Difference> {
        let whole = Whole::new(&mut self.places, generate::whole(seed, index));
        let damaged = generate::file(seed, index);
        let random = || Random::new(!seed, index);
        let side = Side::new("model", &mut self.model, random().number() as u32);
        let mut counts = Asked::new(side, random(), tally).all(&whole, &damaged)?;
        if let Some(library) = &mut self.library {
            let side = Side::new("library", library.as_mut(), random().number() as u32);
            counts = Asked::new(side, random(), tally).all(&whole, &damaged)?;
        }
        Ok(counts)
    }
}

/// A save and what is known of it.
struct Whole {
    made: Made,
    /// The save's, if it is read.
    version: u32,
    /// Words enough for it, and none too many.
    words: usize,
    /// The offset after its end record; none if it is not read.
    next: Option<usize>,
    /// Type, start and end of each value.
    values: Vec<(u32, usize, usize)>,
}

impl Whole {
    fn new(model: &mut Model, made: Made) -> Whole {
        let parsed = model.parsed(&made.bytes, usize::MAX);
        let nothing = Parsed::default();
        let next = parsed.as_ref().ok().map(|parsed| parsed.next);
        let parsed = parsed.unwrap_or(&nothing);
        let (version, words) = (parsed.version, 3 * parsed.prototypes.len());
        let values = parsed.blocks.iter().flat_map(|block| &block.values);
        let values = values.map(|value| {
            let start = value.place.offset;
            (value.type_id, start, start + value.place.len)
        });
        let values = values.collect();
        Whole {
            made,
            version,
            words,
            next,
            values,
        }
    }
}

struct Asked<'a, 'b> {
    side: Side<'a>,
    random: Random,
    tally: &'b mut Tally,
    counts: Counts,
}

impl<'a, 'b> Asked<'a, 'b> {
    fn new(side: Side<'a>, random: Random, tally: &'b mut Tally) -> Asked<'a, 'b> {
        Asked {
            side,
            random,
            tally,
            counts: Counts::default(),
        }
    }

    fn all(mut self, whole: &Whole, damaged: &[u8]) -> Result<Counts, Difference> {
        self.counts.files = 1;
        if let Some(next) = whole.next {
            self.accepted(whole, next)?;
        }
        self.runs_out(damaged)?;
        Ok(self.counts)
    }

    fn same<T: PartialEq + std::fmt::Debug>(
        &mut self,
        what: &'static str,
        asked: impl FnOnce() -> String,
        found: T,
        expected: T,
    ) -> Check {
        let label: Label = match self.side.name {
            "model" => ("cuts, model", what),
            _ => ("cuts, library", what),
        };
        self.tally.same(label, asked, found, expected)
    }

    fn reading(&mut self, file: &[u8], words: usize) -> Result<Fault, Difference> {
        Ok(self.side.ask(Call::Read, file, words)?.fault())
    }

    /// One of the other calls with a file says the same as the reading call.
    fn other_call(&mut self, file: &[u8], words: usize, expected: Fault) -> Check {
        let (n, name) = (0, &b""[..]);
        let call = match self.random.below(9) {
            0 => Call::GetPrototype { id: 1 },
            1 => Call::BlockAt { n },
            2 => Call::BlocksByPrototypeName { name, n },
            3 => Call::FieldOf { block: n, name },
            4 => Call::WriteIndex,
            5 => Call::CheckIndex { index: b"none" },
            6 => Call::DefinesOnce,
            7 => Call::Forecast,
            _ => Call::ToSiin,
        };
        let found = self.side.ask(call, file, words)?.fault();
        let asked = || format!("{} of {} bytes", call.name(), file.len());
        self.same("another call", asked, found, expected)
    }

    fn accepted(&mut self, whole: &Whole, next: usize) -> Check {
        let file = &whole.made.bytes;
        let found = self.reading(file, whole.words)?;
        self.same("a whole save", String::new, found, (0, 0, 0))?;
        self.counts.saves += 1;
        self.counts.bytes += file.len() as u64;
        self.counts.version_1 += u64::from(whole.version == 1);
        match next <= EACH {
            true => (4..next).try_for_each(|kept| self.cut(whole, next, kept))?,
            false => {
                for _ in 0..EACH {
                    let kept = 4 + self.random.below(next - 4);
                    self.cut(whole, next, kept)?;
                }
            }
        }
        // A save with a fault may be read another way than it was made.
        if whole.made.faults == 0 {
            for _ in 0..CHANGED {
                self.mark(whole)?;
                self.length(whole)?;
            }
        }
        Ok(())
    }

    /// The first `kept` bytes: at least four, and not the whole end record.
    fn cut(&mut self, whole: &Whole, next: usize, kept: usize) -> Check {
        let (file, words) = (&whole.made.bytes[..kept], whole.words);
        let fault = self.reading(file, words)?;
        let asked = || format!("the first {kept} bytes: {fault:?}");
        self.same("a cut", asked, fault.0, 3)?;
        // All of the item stands in the save.
        let (offset, lacking) = (fault.1 as usize, fault.2 as usize);
        let is_inside = offset <= kept && 0 < lacking && lacking <= next - kept;
        self.same("the item", asked, is_inside, true)?;
        self.counts.cuts += 1;
        self.other_call(file, words, fault)?;
        self.longer(file, &whole.made.bytes[kept..], words, fault)?;
        let any = self.any_bytes(lacking);
        self.longer(file, &any, words, fault)?;
        self.value(whole, kept, fault)
    }

    fn any_bytes(&mut self, lacking: usize) -> Vec<u8> {
        let len = lacking.min(60) + self.random.below(9);
        (0..len).map(|_| self.random.number() as u8).collect()
    }

    /// A file that is refused by 3, with the first bytes of `more` behind it: with fewer than lacking
    /// at the same place, with so many fewer lacking; with as many or more not by 3 at that place.
    fn longer(&mut self, file: &[u8], more: &[u8], words: usize, fault: Fault) -> Check {
        let (number, offset, lacking) = fault;
        let fewer = usize::try_from(lacking.saturating_sub(1))
            .map_or(more.len(), |most| most.min(more.len()));
        let counts = [fewer, self.random.below(fewer + 1)];
        for count in counts.into_iter().filter(|count| *count > 0) {
            let found = self.reading(&[file, &more[..count]].concat(), words)?;
            let asked = || format!("{} bytes and {count} of {lacking}", file.len());
            let expected = (number, offset, lacking - count as u64);
            self.same("fewer than lacking", asked, found, expected)?;
            self.counts.longer += 1;
        }
        let Some(rest) = more.len().checked_sub(fewer + 1) else {
            return Ok(());
        };
        for count in [fewer + 1, fewer + 1 + self.random.below(rest + 1)] {
            let found = self.reading(&[file, &more[..count]].concat(), words)?;
            let asked = || format!("{} bytes and {count} of {lacking}", file.len());
            let is_other = (found.0, found.1) != (3, offset);
            self.same("as many as lacking", asked, is_other, true)?;
            self.counts.longer += 1;
        }
        Ok(())
    }

    /// If the cut lies in a value, the element call on what is left of it runs out at the same item.
    fn value(&mut self, whole: &Whole, kept: usize, fault: Fault) -> Check {
        let after = whole.values.partition_point(|value| value.1 <= kept);
        let last = after.checked_sub(1).map(|at| whole.values[at]);
        let Some((type_id, start, _)) = last.filter(|value| kept < value.2) else {
            return Ok(());
        };
        let part = &whole.made.bytes[start..kept];
        let index = self.random.below(3) as u64;
        let found = self.side.element(whole.version, type_id, part, index);
        let found = (found.number, found.offset + start as u64, found.lacking);
        let asked = || format!("type {type_id:#x} at {start}, cut at {kept}");
        self.counts.values += 1;
        self.same("a value", asked, found, fault)
    }

    /// Another mark is 15 there, whatever is behind it; without the mark it is 3.
    fn mark(&mut self, whole: &Whole) -> Check {
        let at = self.random.pick(&whole.made.marks);
        let mut file = whole.made.bytes.clone();
        file[at] = 2 + self.random.below(254) as u8;
        let kept = at + 1 + self.random.below(file.len() - at);
        let expected = [(15, at as u64, 0), (15, at as u64, 0), (3, at as u64, 1)];
        for (kept, expected) in [file.len(), kept, at].into_iter().zip(expected) {
            let found = self.reading(&file[..kept], whole.words)?;
            let asked = || format!("{:#04x} at {at} of {kept} bytes", file[at]);
            self.same("a mark", asked, found, expected)?;
            self.other_call(&file[..kept], whole.words, expected)?;
        }
        self.counts.marks += 1;
        Ok(())
    }

    /// A string with a length above what is left of the save runs out where its bytes start.
    fn length(&mut self, whole: &Whole) -> Check {
        if whole.made.lengths.is_empty() {
            return Ok(());
        }
        let at = self.random.pick(&whole.made.lengths);
        let mut file = whole.made.bytes.clone();
        let rest = (file.len() - at - 4) as u32;
        let length = match self.random.below(3) {
            0 => rest + 1 + self.random.below(9) as u32,
            1 => u32::MAX - self.random.below(20) as u32,
            _ => (self.random.number() as u32).max(rest + 1),
        };
        file[at..at + 4].copy_from_slice(&length.to_le_bytes());
        let kept = at + 4 + self.random.below(rest as usize + 1);
        for kept in [file.len(), kept] {
            let there = kept - at - 4;
            let found = self.reading(&file[..kept], whole.words)?;
            let expected = (3, at as u64 + 4, u64::from(length) - there as u64);
            let asked = || format!("length {length:#x} at {at} of {kept} bytes");
            self.same("a length", asked, found, expected)?;
            self.other_call(&file[..kept], whole.words, expected)?;
        }
        self.counts.lengths += 1;
        Ok(())
    }

    /// Any file that is refused, with a table of any size, and any bytes behind it.
    fn runs_out(&mut self, file: &[u8]) -> Check {
        let words = match self.random.chance(80) {
            true => file.len(),
            false => self.random.below(12),
        };
        let fault = self.reading(file, words)?;
        match fault.0 {
            0 => Ok(()),
            3 => {
                self.counts.damaged += 1;
                let any = self.any_bytes(fault.2 as usize);
                self.longer(file, &any, words, fault)
            }
            _ => self.unchanged(file, words, fault),
        }
    }

    /// A file of at least four bytes that is refused by another number, with any bytes behind it.
    fn unchanged(&mut self, file: &[u8], words: usize, fault: Fault) -> Check {
        if file.len() < 4 {
            return Ok(());
        }
        let any = self.any_bytes(20);
        let found = self.reading(&[file, &any].concat(), words)?;
        let asked = || format!("{} bytes and {} more", file.len(), any.len());
        self.counts.unchanged += 1;
        self.same("another number", asked, found, fault)
    }
}
