//! The calls about an index, beside the reading and the field call in the same rounds.

use crate::sides::lent;
use crate::statistics::Spread;
use sii_decode::library;
use std::hint::black_box;
use std::time::Instant;

/// A call that reads the whole file, and how many times as long as the reading it takes, by round.
pub struct Beside {
    pub time: Spread,
    pub ratio: Spread,
}

pub struct IndexTimes {
    /// Of the index.
    pub bytes: usize,
    pub write: Beside,
    pub check: Beside,
    pub once: Beside,
    /// One field call and one look-up, and how many times as long the field call takes, by round.
    pub field: Spread,
    pub look_up: Spread,
    pub ratio: Spread,
}

/// Blocks that are looked up, spread over the file.
const BLOCKS: usize = 1000;
/// At least so many look-ups in a round, with blocks looked up again where there are fewer.
const LOOK_UPS: usize = 100;

/// Some blocks, each with the name of its first field by the last definition; an empty one without.
fn questions(file: &[u8]) -> Result<Vec<(u64, String)>, String> {
    let parsed = oracle::parse(file).map_err(|fault| format!("the Rust refuses it: {fault:?}"))?;
    let count = parsed.data_blocks.len();
    let asked = count.min(BLOCKS);
    let question = |i: usize| {
        let number = i * count / asked;
        let of = parsed.data_blocks[number].prototype(&parsed);
        let field = of.and_then(|of| of.fields().next());
        let name = field.map_or("", |field| field.name);
        (number as u64, name.to_string())
    };
    Ok((0..asked).map(question).collect())
}

pub fn seconds<T>(call: impl FnOnce() -> T) -> f64 {
    let start = Instant::now();
    black_box(call());
    start.elapsed().as_secs_f64()
}

/// The table and the space are lent as in `sides::time`, and are not in the times either.
pub fn time(file: &[u8], rounds: usize) -> Result<IndexTimes, String> {
    let (mut table, _) = lent(file)?;
    let needed = library::write_index(file, &mut table, &mut []);
    let mut index = vec![0; needed.length as usize];
    let written = library::write_index(file, &mut table, &mut index);
    let checked = library::check_index(file, &mut table, &index);
    if (written.number, checked.number) != (0, 0) {
        return Err("its index is refused".into());
    }
    let questions = questions(file)?;
    if questions.is_empty() {
        return Err("it has no blocks".into());
    }
    let is_once = library::defines_once(file, &mut table).value == 1;
    for (block, name) in questions.iter().take(2).filter(|_| is_once) {
        let name = name.as_bytes();
        let found = library::field_by_index(file, &index, *block, name);
        if found != library::field_of(file, &mut table, *block, name) {
            return Err(format!("block {block} is found otherwise by the index"));
        }
    }
    let mut space = vec![0; index.len()];
    let [mut reading, mut write, mut check, mut once] = [const { Vec::new() }; 4];
    let [mut field, mut look_up] = [const { Vec::new() }; 2];
    for round in 0..rounds {
        table.fill(0);
        reading.push(seconds(|| library::read(black_box(file), &mut table)));
        space.fill(0);
        write.push(seconds(|| {
            library::write_index(black_box(file), &mut table, &mut space)
        }));
        check.push(seconds(|| {
            library::check_index(black_box(file), &mut table, &index)
        }));
        once.push(seconds(|| {
            library::defines_once(black_box(file), &mut table)
        }));
        let (block, name) = &questions[round * 7919 % questions.len()];
        field.push(seconds(|| {
            library::field_of(black_box(file), &mut table, *block, name.as_bytes())
        }));
        let again = LOOK_UPS.div_ceil(questions.len());
        let all = seconds(|| {
            for (block, name) in (0..again).flat_map(|_| &questions) {
                let found =
                    library::field_by_index(black_box(file), &index, *block, name.as_bytes());
                black_box(found);
            }
        });
        look_up.push(all / (again * questions.len()) as f64);
    }
    let beside = |measured: Vec<f64>| Beside {
        ratio: Spread::of_ratios(&measured, &reading),
        time: Spread::of(measured),
    };
    Ok(IndexTimes {
        bytes: index.len(),
        write: beside(write),
        check: beside(check),
        once: beside(once),
        ratio: Spread::of_ratios(&field, &look_up),
        field: Spread::of(field),
        look_up: Spread::of(look_up),
    })
}

#[cfg(test)]
mod tests {
    use super::*;
    use crate::{hostile, saves};

    #[test]
    fn all_calls_are_timed() {
        let timed = time(&generate::worked_bytes(), 3).unwrap();
        assert_eq!(timed.bytes, 12);
        let calls = [timed.write, timed.check, timed.once];
        let spreads = calls.iter().flat_map(|beside| [beside.time, beside.ratio]);
        for spread in spreads.chain([timed.field, timed.look_up, timed.ratio]) {
            assert!(spread.least <= spread.median && spread.median <= spread.most);
            assert!(spread.least > 0.0);
        }
    }

    #[test]
    fn blocks_of_all_parts_of_a_save_are_looked_up() {
        let file = saves::save(1);
        let questions = questions(&file).unwrap();
        assert_eq!(questions.len(), BLOCKS);
        assert!(questions.windows(2).all(|pair| pair[0].0 < pair[1].0));
        assert!(questions[BLOCKS - 1].0 > saves::blocks(1) as u64 * 99 / 100);
        let timed = time(&file, 1).unwrap();
        assert_eq!(timed.bytes, 12 * saves::blocks(1));
    }

    #[test]
    fn an_id_defined_again_and_again() {
        assert!(time(&hostile::redefinition(), 1).is_ok());
    }

    #[test]
    fn refusals_are_said() {
        assert!(time(b"BSII", 1).is_err());
        assert!(time(b"BSII\x02\0\0\0\0\0\0\0\0", 1).is_err());
    }
}
