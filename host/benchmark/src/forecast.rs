//! The forecast, beside the text call in the same rounds: with room for the text, and without, when it
//! ends behind its first walk.

use crate::index::seconds;
use crate::sides::lent;
use crate::statistics::Spread;
use sii_decode::library;
use std::hint::black_box;

pub struct ForecastTimes {
    pub time: Spread,
    /// How many times as long as the text call without room it takes, by round.
    pub to_measuring: Spread,
    /// And as the text call.
    pub to_text: Spread,
}

/// The table and the output are lent as in `sides::time`, and are not in the times either.
pub fn time(file: &[u8], rounds: usize) -> Result<ForecastTimes, String> {
    let (mut table, length) = lent(file)?;
    let foretold = library::forecast(file, &mut table);
    if (foretold.number, foretold.text_len) != (0, length as u64) {
        return Err("another text is foretold".into());
    }
    let mut output = vec![0; length];
    let [mut forecast, mut measuring, mut text] = [const { Vec::new() }; 3];
    for _ in 0..rounds {
        table.fill(0);
        output.fill(0);
        forecast.push(seconds(|| library::forecast(black_box(file), &mut table)));
        measuring.push(seconds(|| {
            library::to_siin(black_box(file), &mut table, &mut [])
        }));
        text.push(seconds(|| {
            library::to_siin(black_box(file), &mut table, &mut output)
        }));
    }
    Ok(ForecastTimes {
        to_measuring: Spread::of_ratios(&forecast, &measuring),
        to_text: Spread::of_ratios(&forecast, &text),
        time: Spread::of(forecast),
    })
}

#[cfg(test)]
mod tests {
    use super::*;
    use crate::hostile;

    #[test]
    fn all_calls_are_timed() {
        for file in [generate::worked_bytes(), hostile::redefinitions()] {
            let timed = time(&file, 3).unwrap();
            for spread in [timed.time, timed.to_measuring, timed.to_text] {
                assert!(spread.least <= spread.median && spread.median <= spread.most);
                assert!(spread.least > 0.0);
            }
        }
    }

    #[test]
    fn refusals_are_said() {
        assert!(time(b"BSII", 1).is_err());
    }
}
