//! Both sides on one input: that they agree, and how long they take.

use crate::hostile::{ROWS, SMALLEST};
use crate::statistics::Spread;
use sii_decode::library;
use std::hint::black_box;
use std::time::Instant;

/// The seconds of each round.
#[derive(Default)]
pub struct Rounds {
    pub ours: Vec<f64>,
    pub rust: Vec<f64>,
}

/// One call on both sides.
pub struct Compared {
    pub ours: Spread,
    pub rust: Spread,
    /// How many times as long the Rust takes, by round.
    pub ratio: Spread,
}

impl Rounds {
    pub fn compared(self) -> Compared {
        Compared {
            ratio: Spread::of_ratios(&self.rust, &self.ours),
            ours: Spread::of(self.ours),
            rust: Spread::of(self.rust),
        }
    }
}

pub struct Timed {
    pub bytes: usize,
    pub text_bytes: usize,
    /// Of the table that we were lent.
    pub rows: usize,
    /// Our reading and the Rust's `parse`.
    pub reading: Compared,
    /// Our text call, and the Rust's `parse` with its `to_siin`.
    pub text: Compared,
}

/// A table for the file, and the length of our text, from a call without room for it. The table has
/// 4,096 rows; if these are too few, as many as there can be prototypes in a file of this length.
pub fn lent(file: &[u8]) -> Result<(Vec<u32>, usize), String> {
    let mut table = vec![0; 3 * ROWS];
    let mut answer = library::to_siin(file, &mut table, &mut []);
    if answer.number == 10 {
        table = vec![0; 3 * (file.len() / SMALLEST)];
        answer = library::to_siin(file, &mut table, &mut []);
    }
    match answer.number {
        11 => Ok((table, answer.length as usize)),
        number => Err(format!("ours refuses it: {number} at {}", answer.offset)),
    }
}

/// The Rust's text.
pub fn rust_text(file: &[u8]) -> Result<String, String> {
    let parsed = oracle::parse(file).map_err(|fault| format!("the Rust refuses it: {fault:?}"))?;
    oracle::to_siin(&parsed).map_err(|fault| format!("the Rust has no text of it: {fault:?}"))
}

/// The table and the output that we are lent, after both texts were made, which have to be equal.
pub fn agreed(file: &[u8]) -> Result<(Vec<u32>, Vec<u8>), String> {
    let (mut table, length) = lent(file)?;
    let mut output = vec![0; length];
    let answer = library::to_siin(file, &mut table, &mut output);
    let text = rust_text(file)?;
    match answer.number == 0 && output == text.as_bytes() {
        true => Ok((table, output)),
        false => Err("the two texts differ".into()),
    }
}

/// Both texts, then the rounds. The buffers that we are lent are allocated once and cleared in front
/// of each round, outside of the time. What the Rust allocates belongs to its calls, so that is
/// inside; what it frees afterwards is not.
pub fn time(file: &[u8], rounds: usize) -> Result<Timed, String> {
    let (mut table, mut output) = agreed(file)?;
    let (mut reading, mut text) = (Rounds::default(), Rounds::default());
    for round in 0..rounds {
        // Neither side always has the machine as the other one left it.
        let rust_first = round % 2 == 0;
        if rust_first {
            rust_round(file, &mut reading.rust, &mut text.rust);
        }
        table.fill(0);
        output.fill(0);
        let start = Instant::now();
        black_box(library::read(black_box(file), &mut table));
        reading.ours.push(start.elapsed().as_secs_f64());
        table.fill(0);
        output.fill(0);
        let start = Instant::now();
        black_box(library::to_siin(black_box(file), &mut table, &mut output));
        text.ours.push(start.elapsed().as_secs_f64());
        if !rust_first {
            rust_round(file, &mut reading.rust, &mut text.rust);
        }
    }
    Ok(Timed {
        bytes: file.len(),
        text_bytes: output.len(),
        rows: table.len() / 3,
        reading: reading.compared(),
        text: text.compared(),
    })
}

fn rust_round(file: &[u8], reading: &mut Vec<f64>, text: &mut Vec<f64>) {
    let start = Instant::now();
    let parsed = black_box(oracle::parse(black_box(file)));
    reading.push(start.elapsed().as_secs_f64());
    // Freed when the function ends, behind the last time.
    let _written = black_box(parsed.as_ref().map(oracle::to_siin));
    text.push(start.elapsed().as_secs_f64());
}

#[cfg(test)]
mod tests {
    use super::*;
    use crate::inputs::{is_larger, table};

    #[test]
    fn both_sides_are_timed() {
        let file = generate::worked_bytes();
        let timed = time(&file, 3).unwrap();
        assert_eq!((timed.bytes, timed.text_bytes), (82, 73));
        assert_eq!(timed.rows, ROWS);
        for compared in [timed.reading, timed.text] {
            for spread in [compared.ours, compared.rust, compared.ratio] {
                assert!(spread.least <= spread.median && spread.median <= spread.most);
                assert!(spread.least > 0.0);
            }
        }
    }

    #[test]
    fn refusals_are_said() {
        assert!(time(b"BSII", 1).is_err());
    }

    #[test]
    fn the_texts_of_all_inputs_are_equal() {
        for input in table() {
            let file = (input.make)();
            let (mut table, length) = lent(&file).unwrap();
            let rows = match is_larger(&input.name) {
                true => file.len() / 17,
                false => 4096,
            };
            assert_eq!(table.len(), 3 * rows, "{}", input.name);
            let mut output = vec![0; length];
            library::to_siin(&file, &mut table, &mut output);
            assert!(
                rust_text(&file).unwrap().as_bytes() == output,
                "{}",
                input.name
            );
        }
    }
}
