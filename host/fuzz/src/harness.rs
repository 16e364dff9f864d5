//! One input, taken as a file, as a value, and as a file with an index behind it.

use crate::wrong::Wrong;
use calls::Implementation;
use differential::compare::Comparison;
use differential::linked::Linked;
use differential::report::{Check, Tally};
use generate::Random;

/// The bytes of two records.
const INDEX: usize = 2 * calls::RECORD;

pub struct Harness {
    comparison: Comparison,
    pub tally: Tally,
}

impl Harness {
    pub fn new(wrong: bool) -> Harness {
        let library: Box<dyn Implementation + Send> = match wrong {
            false => Box::new(Linked),
            true => Box::new(Wrong(Linked)),
        };
        let mut comparison = Comparison::default();
        comparison.library = Some(library);
        Harness {
            comparison,
            tally: Tally::default(),
        }
    }

    /// What is asked follows from the input alone, so that a kept input shows its difference again.
    pub fn input(&mut self, input: &[u8]) -> Check {
        let mut random = Random::new(checksum(input), 0);
        self.comparison.whole(input, &mut random, &mut self.tally)?;
        if let Some(end) = input.len().checked_sub(INDEX) {
            let (file, index) = input.split_at(end);
            self.comparison.by_index(file, index, &mut self.tally)?;
        }
        match input {
            [version, type_id, index, part @ ..] => {
                let [version, type_id] = [version, type_id].map(|byte| u32::from(*byte));
                let index = u64::from(*index);
                self.comparison
                    .element(version, type_id, part, index, &mut self.tally)
            }
            _ => Ok(()),
        }
    }
}

/// The bytes that `input` takes as a file with an index of two records.
pub fn index_input(file: &[u8], index: &[u8; INDEX]) -> Vec<u8> {
    [file, index].concat()
}

/// The bytes that `input` takes as this value.
pub fn value_input(version: u8, type_id: u8, index: u8, part: &[u8]) -> Vec<u8> {
    [&[version, type_id, index], part].concat()
}

/// FNV-1a.
fn checksum(bytes: &[u8]) -> u64 {
    let mix = |sum: u64, byte: &u8| (sum ^ u64::from(*byte)).wrapping_mul(0x0100_0000_01b3);
    bytes.iter().fold(0xcbf2_9ce4_8422_2325, mix)
}
