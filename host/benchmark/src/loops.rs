//! README's loop: one field of all blocks under a name, by the crate with its reading and its index,
//! and by the Rust's `parse`.

use crate::inputs::{self, NORMAL};
use crate::sides::{Compared, Rounds};
use crate::statistics::Spread;
use sii_decode::BsiiFile;
use std::collections::HashMap;
use std::hint::black_box;
use std::time::Instant;

/// The type of README's kilometres.
const U32: u32 = 0x27;

/// What the loop asks a save for: made-up saves have no trucks.
struct Asked {
    prototype: String,
    field: String,
}

/// The values of all blocks under the name, on both sides.
pub struct Looped {
    pub blocks: usize,
    pub compared: Compared,
}

/// The name with the most blocks that have a u32, and its first u32.
fn popular(file: &BsiiFile) -> Option<Asked> {
    let mut blocks: HashMap<&str, (usize, u64)> = HashMap::new();
    for block in file.blocks() {
        let name = block.prototype(file).ok()?.name;
        blocks.entry(name).or_insert((0, block.number)).0 += 1;
    }
    let field_of = |block| {
        let found = file.definitions(block).ok()?.find(|it| it.type_id == U32)?;
        Some(found.name.to_owned())
    };
    let mut with_field: Vec<_> = blocks
        .into_iter()
        .filter_map(|(name, (count, block))| Some((count, name, field_of(block)?)))
        .collect();
    with_field.sort();
    let (_, name, field) = with_field.pop()?;
    Some(Asked {
        prototype: name.to_owned(),
        field,
    })
}

/// The loop as README has it.
fn ours(file: &BsiiFile, asked: &Asked) -> Result<Vec<u32>, String> {
    let blocks = file.blocks_by_prototype_name(&asked.prototype);
    let value = |block| {
        let field = file.field(block, &asked.field);
        let element = field.and_then(|field| field.element(0));
        let element = element.map_err(|refusal| refusal.to_string())?;
        u32::try_from(element).map_err(|kind| kind.to_string())
    };
    blocks.map(value).collect()
}

/// The same on the Rust's parsed file.
fn rust(file: &oracle::BsiiFile, asked: &Asked) -> Result<Vec<u32>, String> {
    let blocks = file.blocks_by_prototype_name(&asked.prototype);
    let value = |block: &oracle::DataBlock| match block.field(file, &asked.field) {
        Some(oracle::DataValue::UInt32(value)) => Ok(*value),
        _ => Err("the Rust finds no u32".to_owned()),
    };
    blocks.map(value).collect()
}

/// Both sides read the file and run the loop; what they free afterwards is not in the time.
fn ours_round(content: &[u8], asked: &Asked, seconds: &mut Vec<f64>) -> Result<Vec<u32>, String> {
    let start = Instant::now();
    let file = BsiiFile::parse(black_box(content)).map_err(|refusal| refusal.to_string())?;
    let values = black_box(ours(&file, asked));
    seconds.push(start.elapsed().as_secs_f64());
    values
}

fn rust_round(content: &[u8], asked: &Asked, seconds: &mut Vec<f64>) -> Result<Vec<u32>, String> {
    let start = Instant::now();
    let file = oracle::parse(black_box(content))
        .map_err(|fault| format!("the Rust refuses it: {fault:?}"))?;
    let values = black_box(rust(&file, asked));
    seconds.push(start.elapsed().as_secs_f64());
    values
}

/// The rounds in turns, with equal values in each.
pub fn time(content: &[u8], rounds: usize) -> Result<Looped, String> {
    let file = BsiiFile::parse(content).map_err(|refusal| refusal.to_string())?;
    let asked = popular(&file).ok_or("no block has a u32")?;
    let mut seconds = Rounds::default();
    let mut blocks = 0;
    for round in 0..rounds {
        let (one, other);
        // Neither side always has the machine as the other one left it.
        if round % 2 == 0 {
            one = rust_round(content, &asked, &mut seconds.rust)?;
            other = ours_round(content, &asked, &mut seconds.ours)?;
        } else {
            one = ours_round(content, &asked, &mut seconds.ours)?;
            other = rust_round(content, &asked, &mut seconds.rust)?;
        }
        if one != other {
            return Err("the two loops differ".into());
        }
        blocks = one.len();
    }
    Ok(Looped {
        blocks,
        compared: seconds.compared(),
    })
}

/// A line about the save that the bar is about.
pub fn report(rounds: usize) -> Result<String, String> {
    let save = inputs::by_name(NORMAL).ok_or("there is no such save")?;
    let looped = time(&(save.make)(), rounds)?;
    let Compared { ours, rust, ratio } = looped.compared;
    let shown = |spread: Spread| {
        let [median, least, most] = [spread.median, spread.least, spread.most];
        format!("{median:.2} ({least:.2} to {most:.2})")
    };
    let (ours, rust) = (shown(ours.times(1000.0)), shown(rust.times(1000.0)));
    Ok(format!(
        "\nOne field of the {} blocks under a name of {NORMAL}, with the reading: crate {ours} ms, Rust {rust} ms, Rust / crate {}\n",
        looped.blocks,
        shown(ratio)
    ))
}

#[cfg(test)]
mod tests {
    use super::*;

    /// As many values as the name has blocks, and the same ones on both sides.
    #[test]
    fn both_loops_find_the_same() {
        let save = (inputs::by_name("save-1").unwrap().make)();
        let file = BsiiFile::parse(&save).unwrap();
        let asked = popular(&file).unwrap();
        let looped = time(&save, 2).unwrap();
        let named = file.blocks_by_prototype_name(&asked.prototype).count();
        assert_eq!(looped.blocks, named);
        assert!(named > 100, "{named}");
        assert!(looped.compared.ours.least > 0.0 && looped.compared.rust.least > 0.0);
    }

    #[test]
    fn refusals_and_saves_without_a_u32_are_said() {
        assert!(time(b"BSII", 1).is_err());
        assert!(time(b"BSII\x02\0\0\0\0\0\0\0\0", 1).is_err());
    }
}
