//! One file, all sides.

use crate::forecast_side::Foretold;
use crate::model_side::{element_fault, Pair};
use crate::oracle_side::{self, Verdict};
use crate::plan::Plan;
use crate::report::{Check, Tally};
use crate::side::Side;
use crate::stand_in::StandIn;
use calls::Implementation;
use generate::Random;
use model::Model;

#[derive(Default)]
pub struct Comparison {
    model: Model,
    /// A second one, so that the model as a side and the plan keep their own last file.
    planner: Model,
    /// Compared with the Rust and the model, if it is there.
    pub library: Option<Box<dyn Implementation + Send>>,
}

impl Comparison {
    /// A file and a random value; see `whole` and `element`.
    pub fn file(&mut self, file: &[u8], random: &mut Random, tally: &mut Tally) -> Check {
        self.whole(file, random, tally)?;
        let (version, type_id, part) = generate::element(random);
        let index = random.below(6) as u64;
        self.element(version, type_id, &part, index, tally)
    }

    /// `random` decides only what is asked beyond the fixed questions.
    pub fn whole(&mut self, file: &[u8], random: &mut Random, tally: &mut Tally) -> Check {
        let plan = Plan::new(&mut self.planner, file);
        let stand_in = StandIn::new(file, self.planner.in_front_of_fault(file));
        let verdict = Verdict::new(file, &stand_in, &mut self.planner, tally)?;
        let garbage = random.number() as u32;
        let mut model = Side::new("model", &mut self.model, garbage);
        by_itself(&mut model, file, &plan, &verdict, random, tally)?;
        let Some(library) = &mut self.library else {
            return Ok(());
        };
        let mut library = Side::new("library", library.as_mut(), garbage);
        by_itself(&mut library, file, &plan, &verdict, random, tally)?;
        let mut pair = Pair {
            library: &mut library,
            model: &mut model,
            file,
            tally,
        };
        pair.compare(&plan, random)
    }

    /// Look-ups by an index that may be any bytes.
    pub fn by_index(&mut self, file: &[u8], index: &[u8], tally: &mut Tally) -> Check {
        let Some(library) = &mut self.library else {
            return Ok(());
        };
        let plan = Plan::new(&mut self.planner, file);
        let mut pair = Pair {
            library: &mut Side::new("library", library.as_mut(), 0),
            model: &mut Side::new("model", &mut self.model, 0),
            file,
            tally,
        };
        pair.by_index(index, &plan)
    }

    /// The element call on bytes that no file vouches for.
    pub fn element(
        &mut self,
        version: u32,
        type_id: u32,
        part: &[u8],
        index: u64,
        tally: &mut Tally,
    ) -> Check {
        element_fault(version, type_id, part, tally)?;
        let Some(library) = &mut self.library else {
            return Ok(());
        };
        let mut pair = Pair {
            library: &mut Side::new("library", library.as_mut(), 0),
            model: &mut Side::new("model", &mut self.model, 0),
            file: &[],
            tally,
        };
        pair.element(version, type_id, part, index)
    }
}

/// What takes no other implementation than the Rust.
fn by_itself(
    side: &mut Side<'_>,
    file: &[u8],
    plan: &Plan,
    verdict: &Verdict<'_>,
    random: &mut Random,
    tally: &mut Tally,
) -> Check {
    oracle_side::compare(side, file, plan, verdict, tally)?;
    let mut foretold = Foretold {
        side,
        file,
        plan,
        random,
        tally,
    };
    foretold.compare()
}
