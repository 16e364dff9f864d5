//! The run over cuts has to find each of these wrong implementations out.

use calls::{Answer, Call, Implementation, Lent};
use differential::cuts::{run, Cuts};
use differential::report::Tally;
use model::Model;

/// What an impostor does; otherwise it answers like the model.
#[derive(Clone, Copy, Debug, PartialEq)]
enum Fault {
    LackingIsTheSize,
    LackingToTheValuesEnd,
    LackingAtLeastOne,
    LackingNone,
    LackingIn16Bits,
    LackingInTheReadingAlone,
    LackingInAMark,
    LackingInAnAnswer,
    ElementIsTheSize,
    AtTheEnd,
    CutWordIsADigit,
    MissingMarkIsBad,
    BadMarkAtTheRecord,
    BadMarkIsMalformed,
    SmallMarksAreMalformed,
    NumberByTheLength,
    RefusesEach,
}

/// Each with the check that finds it out first.
const FAULTS: [(Fault, &str); 17] = [
    (Fault::LackingIsTheSize, "fewer than lacking"),
    (Fault::LackingToTheValuesEnd, "fewer than lacking"),
    (Fault::LackingAtLeastOne, "as many as lacking"),
    (Fault::LackingNone, "the item"),
    (Fault::LackingIn16Bits, "a length"),
    (Fault::LackingInTheReadingAlone, "another call"),
    (Fault::LackingInAMark, "a mark"),
    (Fault::LackingInAnAnswer, "a whole save"),
    (Fault::ElementIsTheSize, "a value"),
    (Fault::AtTheEnd, "fewer than lacking"),
    (Fault::CutWordIsADigit, "a cut"),
    (Fault::MissingMarkIsBad, "a cut"),
    (Fault::BadMarkAtTheRecord, "a mark"),
    (Fault::BadMarkIsMalformed, "as many as lacking"),
    (Fault::SmallMarksAreMalformed, "a mark"),
    (Fault::NumberByTheLength, "another number"),
    (Fault::RefusesEach, "a whole save"),
];

/// Knows the save, so that it can be wrong about the ends of values.
struct Impostor {
    model: Model,
    fault: Fault,
    whole: Vec<u8>,
    /// Start and end of each value.
    values: Vec<(usize, usize)>,
    marks: Vec<usize>,
}

impl Impostor {
    fn new(fault: Fault, index: u64) -> Impostor {
        let made = generate::whole(1, index);
        let mut model = Model::default();
        let mut values = Vec::new();
        if let Ok(parsed) = model.parsed(&made.bytes, usize::MAX) {
            let all = parsed.blocks.iter().flat_map(|block| &block.values);
            values.extend(all.map(|v| (v.place.offset, v.place.offset + v.place.len)));
        }
        Impostor {
            model,
            fault,
            whole: made.bytes,
            values,
            marks: made.marks,
        }
    }

    /// From the end of a cut to the end of the value that it lies in.
    fn left(&self, kept: usize) -> Option<u64> {
        let holds = |value: &&(usize, usize)| value.0 <= kept && kept < value.1;
        let value = self.values.iter().find(holds)?;
        Some((value.1 - kept) as u64)
    }
}

impl Implementation for Impostor {
    fn answer(&mut self, call: Call<'_>, lent: Lent<'_>) -> Answer {
        let file = lent.file.to_vec();
        let answer = self.model.answer(call, lent);
        match call {
            Call::ElementOf { part, .. } => self.element(answer, part),
            _ => self.changed(answer, call, &file),
        }
    }
}

impl Impostor {
    fn element(&self, answer: Answer, part: &[u8]) -> Answer {
        let (number, offset, lacking) = answer.fault();
        let kept = part.len() as u64;
        match (self.fault, number) {
            (Fault::ElementIsTheSize, 3) => answer.lacking(lacking + kept - offset),
            (Fault::AtTheEnd, 3) => answer.refused(3, kept).lacking(lacking),
            _ => answer,
        }
    }

    fn changed(&self, answer: Answer, call: Call<'_>, file: &[u8]) -> Answer {
        let (number, offset, lacking) = answer.fault();
        let (kept, is_cut) = (file.len(), self.whole.starts_with(file));
        match (self.fault, number) {
            (Fault::LackingIsTheSize, 3) => answer.lacking(lacking + kept as u64 - offset),
            (Fault::LackingToTheValuesEnd, 3) if is_cut => {
                answer.lacking(self.left(kept).unwrap_or(lacking))
            }
            (Fault::LackingAtLeastOne, 3) => answer.lacking(1),
            (Fault::LackingNone, 3) => answer.lacking(0),
            (Fault::LackingIn16Bits, 3) => answer.lacking(lacking & 0xffff),
            (Fault::LackingInTheReadingAlone, 3) if call != Call::Read => answer.lacking(0),
            (Fault::LackingInAnAnswer, 0) => answer.lacking(1),
            (Fault::AtTheEnd, 3) => answer.refused(3, kept as u64).lacking(lacking),
            (Fault::CutWordIsADigit, 3) if lacking > 4 && lacking < 8 => answer.refused(5, offset),
            (Fault::MissingMarkIsBad, 3) if is_cut && self.marks.contains(&kept) => {
                answer.refused(15, offset)
            }
            (Fault::NumberByTheLength, 4..=7) if kept % 2 == 1 => answer.refused(10, offset),
            (Fault::RefusesEach, _) => answer.refused(3, 8).lacking(1),
            (_, 15) => self.marked(answer, file[offset as usize], offset),
            _ => answer,
        }
    }

    fn marked(&self, answer: Answer, mark: u8, offset: u64) -> Answer {
        match self.fault {
            Fault::LackingInAMark => answer.lacking(1),
            Fault::BadMarkAtTheRecord => answer.refused(15, offset - 4),
            Fault::BadMarkIsMalformed => answer.refused(3, offset).lacking(1),
            Fault::SmallMarksAreMalformed if mark < 32 => answer.refused(3, offset + 1).lacking(1),
            _ => answer,
        }
    }
}

/// What the first difference is about.
fn first_difference(fault: Option<Fault>, most: u64) -> Option<String> {
    (0..most).find_map(|index| {
        let mut asked = Cuts::default();
        asked.library = Some(match fault {
            Some(fault) => Box::new(Impostor::new(fault, index)),
            None => Box::new(Model::default()),
        });
        let found = asked.file(1, index, &mut Tally::default()).err()?;
        Some(found.label)
    })
}

#[test]
fn each_impostor_is_found() {
    for (fault, by) in FAULTS {
        let found = first_difference(Some(fault), 50);
        assert_eq!(found, Some(format!("cuts, library: {by}")), "{fault:?}");
    }
}

#[test]
fn a_run_says_what_it_found() {
    let mut asked = Cuts::default();
    let (report, differences) = run(&mut asked, 1, 0, 20);
    assert_eq!(differences, 0);
    assert!(report.starts_with("files       20: "), "{report}");
    asked.library = Some(Box::new(Impostor::new(Fault::RefusesEach, 0)));
    let (report, differences) = run(&mut asked, 1, 0, 20);
    assert!(differences > 10, "{report}");
    let first = "difference: cuts, library: a whole save\n  file ";
    assert!(report.starts_with(first), "{report}");
    assert!(
        report.ends_with(&format!("differences {differences}\n")),
        "{report}"
    );
}

#[test]
fn the_model_passes_as_a_library() {
    assert_eq!(first_difference(None, 200), None);
}
