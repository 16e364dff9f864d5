//! What a save will need.

use crate::layout::Refusal;
use crate::lookup::{BlockRecord, Parsed};
use crate::text::text;
use calls::{Forecast, RECORD, ROW};

impl Parsed {
    /// One for each record, prototypes that are replaced and the end record too, and one for each
    /// value of a block, an array being one.
    pub fn steps(&self) -> u64 {
        let values: usize = self.blocks.iter().map(|block| block.values.len()).sum();
        (self.starts.len() + values) as u64
    }

    /// Refused where the text is, however much room it has.
    pub fn forecast(&self, file: &[u8]) -> Result<Forecast, Refusal> {
        let (_, text_len, _) = text(self, file, 0)?;
        let largest = self.blocks.iter().map(BlockRecord::size).max();
        Ok(Forecast {
            table_words: (ROW * self.prototypes.len()) as u64,
            text_len,
            index_len: (RECORD * self.blocks.len()) as u64,
            largest_block: largest.unwrap_or(0) as u64,
            steps: self.steps(),
            ..Forecast::default()
        })
    }
}
