//! Questions whose answer has a line for each block, prototype or field. Tabs stand between the
//! parts of a line; in a name a tab is escaped.

use crate::show::{self, Escaped};
use sii_decode::{BsiiFile, DataBlock, Definitions, Prototype};
use std::collections::TryReserveError;
use std::io::{self, Write};

/// The prototypes that the blocks of a save are of, each by its last definition. All memory that a
/// list needs is reserved for it, before the output is opened.
pub struct ById<'a> {
    /// Rising.
    ids: Vec<u32>,
    /// In the order of the ids.
    prototypes: Vec<Option<Prototype<'a>>>,
}

impl<'a> ById<'a> {
    pub fn of(file: &BsiiFile<'a>) -> Result<ById<'a>, TryReserveError> {
        let ids = ids(file)?;
        let mut prototypes = Vec::new();
        prototypes.try_reserve_exact(ids.len())?;
        prototypes.resize(ids.len(), None);
        for prototype in file.prototypes().into_iter().flatten() {
            if let Ok(at) = ids.binary_search(&prototype.id) {
                prototypes[at] = Some(prototype);
            }
        }
        Ok(ById { ids, prototypes })
    }

    /// The place of a block's prototype.
    fn place(&mut self, block: &DataBlock) -> &mut Option<Prototype<'a>> {
        let at = self.ids.binary_search(&block.prototype_id);
        &mut self.prototypes[at.expect("the id of a block")]
    }

    fn prototype(&mut self, block: &DataBlock) -> Prototype<'a> {
        self.place(block).expect("a block has a prototype")
    }
}

/// The prototype ids of the blocks.
fn ids(file: &BsiiFile) -> Result<Vec<u32>, TryReserveError> {
    let blocks = file.blocks();
    let mut ids = Vec::new();
    ids.try_reserve_exact(blocks.len())?;
    ids.extend(blocks.map(|block| block.prototype_id));
    ids.sort_unstable();
    ids.dedup();
    Ok(ids)
}

/// Each prototype that a block is of, in the order of the first blocks.
pub fn prototypes(out: &mut dyn Write, file: &BsiiFile, by_id: &mut ById) -> io::Result<()> {
    // Behind the first block of a prototype none is left to be taken.
    file.blocks()
        .filter_map(|block| by_id.place(&block).take())
        .try_for_each(|prototype| {
            let name = Escaped(prototype.name.as_bytes());
            writeln!(out, "{}\t{name}\t{}", prototype.id, prototype.fields)
        })
}

pub fn blocks(out: &mut dyn Write, file: &BsiiFile, by_id: &mut ById) -> io::Result<()> {
    file.blocks().try_for_each(|block| {
        let prototype = by_id.prototype(&block);
        let name = Escaped(prototype.name.as_bytes());
        writeln!(out, "{}\t{name}\t{}", block.number, block.id)
    })
}

/// The numbers of the blocks whose prototype has this name.
pub fn blocks_named(
    out: &mut dyn Write,
    file: &BsiiFile,
    by_id: &mut ById,
    name: &[u8],
) -> io::Result<()> {
    file.blocks().try_for_each(|block| {
        let prototype = by_id.prototype(&block);
        match prototype.name.as_bytes() == name {
            true => writeln!(out, "{}", block.number),
            false => Ok(()),
        }
    })
}

pub fn fields(out: &mut dyn Write, fields: &mut Definitions) -> io::Result<()> {
    fields.try_for_each(|field| {
        let name = Escaped(field.name.as_bytes());
        let kind = show::type_of(field.type_id, field.kind_name(), field.is_array());
        writeln!(out, "{name}\t{kind}")
    })
}
