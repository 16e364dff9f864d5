//! Files of as many prototypes as go into one, in every order of their ids, and files of fewer with blocks of them. Their tables need more than 4,096 rows.

use crate::hostile::SMALLEST;
use crate::inputs::Input;
use generate::ids::{smallest, Order, ORDERS};
use generate::Random;

const SEED: u64 = 34;
/// The longest file.
const SIZE: usize = 16_777_216;
/// The header and the end record.
const FRAME: usize = 8 + 5;
/// The smallest block.
const BLOCK: usize = 5;
/// Of the files with blocks.
const FEWER: usize = 400_000;

/// Prototypes alone, but for a block of the first and of the last one.
fn rows((name, about, ids): Order) -> Input {
    let count = (SIZE - FRAME - 2 * BLOCK) / SMALLEST;
    Input {
        name: format!("rows-{name}"),
        about: format!("{count} of the smallest prototypes with ids {about}, and two blocks"),
        make: Box::new(move || {
            let ids = ids(count);
            smallest(&ids, &[ids[0], ids[count - 1]])
        }),
    }
}

fn blocks((name, about, ids): Order) -> Input {
    let count = (SIZE - FRAME - FEWER * SMALLEST) / BLOCK;
    Input {
        name: format!("blocks-{name}"),
        about: format!(
            "{FEWER} of the smallest prototypes with ids {about}, and {count} of the smallest blocks of them in random order"
        ),
        make: Box::new(move || {
            let (ids, mut random) = (ids(FEWER), Random::new(SEED, 0));
            let blocks: Vec<u32> = (0..count).map(|_| random.pick(&ids)).collect();
            smallest(&ids, &blocks)
        }),
    }
}

pub fn all() -> impl Iterator<Item = Input> {
    ORDERS
        .into_iter()
        .flat_map(|order| [rows(order), blocks(order)])
}

#[cfg(test)]
mod tests {
    use super::*;

    #[test]
    fn as_long_as_a_file_can_be() {
        for input in all() {
            let file = (input.make)();
            assert!(
                (SIZE - SMALLEST + 1..=SIZE).contains(&file.len()),
                "{}",
                input.name
            );
            let parsed = oracle::parse(&file).expect("the Rust reads it");
            let counts = (parsed.prototypes.len(), parsed.data_blocks.len());
            let wanted = match input.name.starts_with("rows-") {
                true => (986_893, 2),
                false => (400_000, 1_995_440),
            };
            assert_eq!(counts, wanted, "{}", input.name);
        }
    }
}
