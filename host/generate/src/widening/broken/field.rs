//! An (i) that is allowed, to be spoilt.

use crate::save::{Block, Definition, Save};
use crate::widening::parts;
use crate::widening::written::Written;
use crate::Random;

pub struct Field {
    pub id: u32,
    /// The number of fields of the prototype.
    pub fields: usize,
    pub position: usize,
    pub definition: Definition,
    /// By the number of the block.
    pub values: Vec<Vec<u8>>,
}

impl Field {
    /// Into a prototype that no block has, so that only the definition counts.
    pub fn unused(random: &mut Random, save: &Save) -> Option<Field> {
        Field::new(random, save, false, &[])
    }

    /// Of one of the types, or of any if none is given, into a prototype that blocks have or not.
    pub fn new(random: &mut Random, save: &Save, is_carried: bool, types: &[u32]) -> Option<Field> {
        let of = parts::any_prototype(random, save, |of| save.carries(of.id) == is_carried)?;
        let mut definition = parts::new_definition(random, of, save);
        if !types.is_empty() {
            definition.type_id = random.pick(types);
            definition.list.clear();
        }
        if definition.type_id == 0x37 {
            definition.list = vec![(5, b"five".to_vec()), (0, b"".to_vec())];
        }
        let value = |block: &Block| match block.prototype == of.id {
            true => parts::value(random, save.version, &definition),
            false => Vec::new(),
        };
        let values = save.blocks().map(value).collect();
        Some(Field {
            id: of.id,
            fields: of.fields.len(),
            position: random.below(of.fields.len() + 1),
            definition,
            values,
        })
    }

    /// With something changed.
    pub fn with(mut self, change: impl FnOnce(&mut Field)) -> Option<Written> {
        change(&mut self);
        let definition = self.definition.bytes();
        Some(self.written(definition))
    }

    /// With the bytes of the definition changed.
    pub fn with_definition(self, change: impl FnOnce(&mut Vec<u8>)) -> Option<Written> {
        let mut definition = self.definition.bytes();
        change(&mut definition);
        Some(self.written(definition))
    }

    fn written(self, definition: Vec<u8>) -> Written {
        Written::Field {
            id: self.id,
            position: self.position,
            definition,
            values: self.values,
        }
    }
}
