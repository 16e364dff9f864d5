//! What a save will need.

use crate::file::{answered, no_room, table_of, with_table};
use crate::{library, Refusal};

/// What a save will need, told before memory is lent for any of it.
///
/// ```
/// let save = b"BSII\x02\0\0\0\0\0\0\0\0";
/// let foretold = sii_decode::forecast(save).unwrap();
/// assert_eq!((foretold.table_words, foretold.text_len, foretold.index_len), (0, 13, 0));
/// assert_eq!((foretold.largest_block, foretold.steps), (0, 1));
/// assert_eq!(foretold.to_siin(save).unwrap(), b"SiiNunit\n{\n}\n");
/// ```
#[derive(Clone, Copy, Debug, PartialEq, Eq)]
pub struct Forecast {
    /// The words of the table, three for each prototype id: with as many no call is refused with 10,
    /// and with fewer the text is.
    pub table_words: u64,
    /// The bytes of the text.
    pub text_len: u64,
    /// The bytes of the index, 12 for each block.
    pub index_len: u64,
    /// The bytes that the longest block has in the save; 0 without blocks.
    pub largest_block: u64,
    /// The steps of reading the save: one for each record, the end record too, and one for each value
    /// of a block, an array being one. There are at most as many as bytes.
    pub steps: u64,
}

impl Forecast {
    /// What the library's call foretells with this table.
    pub(crate) fn ask(content: &[u8], table: &mut [u32]) -> Result<Forecast, Refusal> {
        let answer = library::forecast(content, table);
        answered(answer.number, answer.offset, answer.lacking)?;
        Ok(Forecast {
            table_words: answer.table_words,
            text_len: answer.text_len,
            index_len: answer.index_len,
            largest_block: answer.largest_block,
            steps: answer.steps,
        })
    }

    /// The text of the save that was foretold, in a table and a buffer of just these sizes. Refused
    /// with 10 and 11 if there is no memory for them, and as [`to_siin`](crate::to_siin) is if it is
    /// another save.
    pub fn to_siin(&self, content: &[u8]) -> Result<Vec<u8>, Refusal> {
        let mut table = usize::try_from(self.table_words).map_or(Vec::new(), table_of);
        self.write(content, &mut table)
    }

    /// The same with the front of a table that is there already.
    pub(crate) fn write(&self, content: &[u8], table: &mut [u32]) -> Result<Vec<u8>, Refusal> {
        let words = usize::try_from(self.table_words).map_or(table.len(), |n| n.min(table.len()));
        let room = usize::try_from(self.text_len).map_err(|_| no_room(self.text_len))?;
        let mut text = Vec::new();
        text.try_reserve_exact(room)
            .map_err(|_| no_room(self.text_len))?;
        let answer = library::to_siin_within(content, &mut table[..words], &mut text);
        match answer.number {
            11 => Err(no_room(answer.length)),
            number => answered(number, answer.offset, answer.lacking).map(|()| text),
        }
    }
}

/// What a save will need. Refused as [`to_siin`](crate::to_siin) is, but never with 11.
pub fn forecast(content: &[u8]) -> Result<Forecast, Refusal> {
    with_table(content, |table| Forecast::ask(content, table)).map(|(foretold, _)| foretold)
}
