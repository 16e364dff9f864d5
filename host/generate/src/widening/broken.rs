//! Insertions that break one word of 01 each, and keep to all others.

mod definitions;
mod field;
mod records;
mod values;

use super::written::Written;
use super::Widening;
use crate::save::Save;
use crate::Random;

/// An insertion on the save that a list left, if that save has what is needed for it.
type Break = Box<dyn Fn(&mut Random, &Save, &Widening) -> Option<Written>>;

/// Every break, with a label that says which word it is.
pub fn breaks() -> Vec<(&'static str, Break)> {
    let plain = definitions::BREAKS.iter().chain(records::BREAKS);
    let plain = plain.map(|(label, make)| (*label, Box::new(make) as Break));
    plain.chain(values::breaks()).collect()
}

/// What the tables have.
type Plain = fn(&mut Random, &Save, &Widening) -> Option<Written>;

fn undefined(random: &mut Random, save: &Save) -> u32 {
    loop {
        let id = random.number() as u32 >> random.below(31);
        if id != 0 && save.prototype(id).is_none() {
            return id;
        }
    }
}
