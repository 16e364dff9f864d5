//! What a run counts and what it finds.

use std::collections::BTreeMap;
use std::fmt::Write;

/// Two answers that should be equal. `label` says which call; shrinking keeps it.
#[derive(Clone, Debug)]
pub struct Difference {
    pub label: String,
    pub detail: String,
}

pub type Check = Result<(), Difference>;

/// Who is compared, and which call.
pub type Label = (&'static str, &'static str);

pub fn differ<T>(label: Label, detail: impl Into<String>) -> Result<T, Difference> {
    Err(Difference {
        label: format!("{}: {}", label.0, label.1),
        detail: detail.into(),
    })
}

/// Where the Rust parts from document 01. What each leaves out of the comparison with the Rust is
/// said where it is counted; the library and the model are compared there all the same.
#[derive(Clone, Copy, PartialEq, Eq, PartialOrd, Ord)]
pub enum Exception {
    /// The Rust knows no limit: reply 12 is expected in place of what the Rust says.
    LengthLimit,
    /// The text needs more than `TEXT_MEMORY`: the Rust is not asked to make it.
    TextMemory,
    /// A placement's f1 or f3 is a NaN and the Rust shows other bits for the sum. All other bytes
    /// of the text are compared.
    PlacementNan,
    /// A float of the element is a NaN of other bits than `ONE_NAN`: the Rust keeps them, and here
    /// there is one NaN. All else of the element is compared.
    ElementNan,
    /// A block carries 0x0a or 0x17, and the Rust stops at the `todo!` of that type: it is asked about
    /// a stand-in of the file, see `stand_in.rs`.
    TodoType,
    /// The file has version 1, which the Rust refuses: it is asked about a stand-in of the file.
    Version1,
    /// f1 or f3 of a placement of version 1 is minus zero or a NaN, which the stand-in's sums with 0
    /// do not keep: the Rust's text is left out.
    Version1Sum,
}

/// Places that are compared like all others, counted since the Rust gets there only in this build.
#[derive(Clone, Copy, PartialEq, Eq, PartialOrd, Ord)]
pub enum Note {
    /// The Rust reserved 1 GiB or more for a count: without the lazy allocator it could abort.
    HugeCount,
    /// `BSII` and fewer than 4 bytes: a panic where overflow is checked.
    ShortHeader,
    /// A placement's f1 or f3 is a NaN and the Rust shows 01's bits.
    PlacementNanEqual,
}

impl Exception {
    fn name(self) -> &'static str {
        match self {
            Exception::LengthLimit => "length-limit",
            Exception::TextMemory => "text-memory",
            Exception::PlacementNan => "placement-nan",
            Exception::ElementNan => "element-nan",
            Exception::TodoType => "todo-type",
            Exception::Version1 => "version-1",
            Exception::Version1Sum => "version-1-sum",
        }
    }
}

impl Note {
    fn name(self) -> &'static str {
        match self {
            Note::HugeCount => "huge-count",
            Note::ShortHeader => "short-header",
            Note::PlacementNanEqual => "placement-nan-equal",
        }
    }
}

/// Replies are below this.
const REPLIES: usize = 16;

#[derive(Default)]
pub struct Tally {
    pub files: u64,
    pub bytes: u64,
    pub answers: u64,
    pub differences: u64,
    exceptions: BTreeMap<Exception, u64>,
    notes: BTreeMap<Note, u64>,
    /// Files by the reply to the reading call and to the text call with room enough, cuts (3) and bad
    /// marks (15) apart.
    pub readings: [u64; REPLIES],
    pub texts: [u64; REPLIES],
    /// Checks of an index, look-ups by one and forecasts, by the reply.
    pub checks: [u64; REPLIES],
    pub look_ups: [u64; REPLIES],
    pub forecasts: [u64; REPLIES],
}

impl Tally {
    pub fn except(&mut self, exception: Exception) {
        *self.exceptions.entry(exception).or_default() += 1;
    }

    pub fn note(&mut self, note: Note) {
        *self.notes.entry(note).or_default() += 1;
    }

    /// Compares two answers. The label is who is compared and which call; `asked` is only made for
    /// a difference.
    pub fn same<T: PartialEq + std::fmt::Debug>(
        &mut self,
        label: Label,
        asked: impl FnOnce() -> String,
        found: T,
        expected: T,
    ) -> Check {
        self.answers += 1;
        if found == expected {
            return Ok(());
        }
        let asked = asked();
        differ(
            label,
            format!("{asked}\n    found    {found:?}\n    expected {expected:?}"),
        )
    }

    pub fn summary(&self) -> String {
        let mut text = String::new();
        let _ = writeln!(text, "files       {} ({} bytes)", self.files, self.bytes);
        let _ = writeln!(text, "answers     {}", self.answers);
        let _ = writeln!(text, "readings    {}", replies(&self.readings));
        let _ = writeln!(text, "texts       {}", replies(&self.texts));
        for (what, counts) in [
            ("checks", &self.checks),
            ("look-ups", &self.look_ups),
            ("forecasts", &self.forecasts),
        ] {
            if counts.iter().any(|count| *count > 0) {
                let _ = writeln!(text, "{what:<11} {}", replies(counts));
            }
        }
        let exceptions = self.exceptions.iter().map(|(e, n)| (e.name(), *n));
        let _ = writeln!(text, "exceptions  {}", named(exceptions.collect()));
        let notes = self.notes.iter().map(|(n, count)| (n.name(), *count));
        let _ = writeln!(text, "notes       {}", named(notes.collect()));
        let _ = writeln!(text, "differences {}", self.differences);
        text
    }
}

fn replies(counts: &[u64; REPLIES]) -> String {
    let shown = counts.iter().enumerate().filter(|(_, count)| **count > 0);
    let shown = shown.map(|(number, count)| match number {
        0 => format!("answered: {count}"),
        _ => format!("{number}: {count}"),
    });
    shown.collect::<Vec<_>>().join(", ")
}

fn named(counts: Vec<(&str, u64)>) -> String {
    if counts.is_empty() {
        return "none".to_string();
    }
    let shown = counts
        .iter()
        .map(|(name, count)| format!("{name}: {count}"));
    shown.collect::<Vec<_>>().join(", ")
}
