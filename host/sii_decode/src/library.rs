//! The library's C functions, each with slices in place of pointers and lengths, for callers that
//! lend table and output themselves. `include/sii_decode.h` says of each what it answers and what
//! the members of the answers mean. All unsafe code that touches the library is here.

pub use calls::{
    kind, Block, Checked, Element, Field, Forecast, Length, Number, Prototype, Reading, Text,
};

extern "C" {
    fn sii_read(file: *const u8, len: usize, table: *mut u32, words: usize) -> Reading;
    fn sii_get_prototype(
        file: *const u8,
        len: usize,
        table: *mut u32,
        words: usize,
        id: u32,
    ) -> Prototype;
    fn sii_block_at(file: *const u8, len: usize, table: *mut u32, words: usize, n: u64) -> Block;
    fn sii_blocks_by_prototype_name(
        file: *const u8,
        len: usize,
        table: *mut u32,
        words: usize,
        name: *const u8,
        name_len: usize,
        n: u64,
    ) -> Number;
    fn sii_field_of(
        file: *const u8,
        len: usize,
        table: *mut u32,
        words: usize,
        block: u64,
        name: *const u8,
        name_len: usize,
    ) -> Field;
    fn sii_element_of(
        version: u32,
        type_id: u32,
        part: *const u8,
        len: usize,
        index: u64,
    ) -> Element;
    fn sii_to_siin(
        file: *const u8,
        len: usize,
        table: *mut u32,
        words: usize,
        out: *mut u8,
        out_len: usize,
    ) -> Text;
    fn sii_write_index(
        file: *const u8,
        len: usize,
        table: *mut u32,
        words: usize,
        index: *mut u8,
        index_len: usize,
    ) -> Length;
    fn sii_check_index(
        file: *const u8,
        len: usize,
        table: *mut u32,
        words: usize,
        index: *const u8,
        index_len: usize,
    ) -> Checked;
    fn sii_field_by_index(
        file: *const u8,
        len: usize,
        index: *const u8,
        index_len: usize,
        block: u64,
        name: *const u8,
        name_len: usize,
    ) -> Field;
    fn sii_defines_once(file: *const u8, len: usize, table: *mut u32, words: usize) -> Number;
    fn sii_forecast(file: *const u8, len: usize, table: *mut u32, words: usize) -> Forecast;
}

/// `sii_read`: the whole file is read.
pub fn read(file: &[u8], table: &mut [u32]) -> Reading {
    let (words, table) = (table.len(), table.as_mut_ptr());
    // SAFETY: each pointer comes from a slice and goes with its length. The library keeps none of
    // them, writes only to table, output and the space of a written index, and asks for nothing more, whatever the bytes are.
    // That is so for all of the calls below.
    unsafe { sii_read(file.as_ptr(), file.len(), table, words) }
}

/// `sii_get_prototype`: the prototype with this id, by its last definition.
pub fn get_prototype(file: &[u8], table: &mut [u32], id: u32) -> Prototype {
    let (words, table) = (table.len(), table.as_mut_ptr());
    // SAFETY: as in `read`.
    unsafe { sii_get_prototype(file.as_ptr(), file.len(), table, words, id) }
}

/// `sii_block_at`: the `n`-th block, from 0.
pub fn block_at(file: &[u8], table: &mut [u32], n: u64) -> Block {
    let (words, table) = (table.len(), table.as_mut_ptr());
    // SAFETY: as in `read`.
    unsafe { sii_block_at(file.as_ptr(), file.len(), table, words, n) }
}

/// `sii_blocks_by_prototype_name`: the `n`-th block, from 0, of the prototypes with this name.
pub fn blocks_by_prototype_name(file: &[u8], table: &mut [u32], name: &[u8], n: u64) -> Number {
    let (words, table) = (table.len(), table.as_mut_ptr());
    let (len, file) = (file.len(), file.as_ptr());
    // SAFETY: as in `read`.
    unsafe { sii_blocks_by_prototype_name(file, len, table, words, name.as_ptr(), name.len(), n) }
}

/// `sii_field_of`: the value of a block under a name.
pub fn field_of(file: &[u8], table: &mut [u32], block: u64, name: &[u8]) -> Field {
    let (words, table) = (table.len(), table.as_mut_ptr());
    let (len, file) = (file.len(), file.as_ptr());
    // SAFETY: as in `read`.
    unsafe { sii_field_of(file, len, table, words, block, name.as_ptr(), name.len()) }
}

/// `sii_element_of`: an element of a value. `version` is that of the file which the value stands in:
/// with 1 a placement has seven floats, with every other number eight.
pub fn element_of(version: u32, type_id: u32, part: &[u8], index: u64) -> Element {
    // SAFETY: as in `read`.
    unsafe { sii_element_of(version, type_id, part.as_ptr(), part.len(), index) }
}

/// `sii_to_siin`: the text, if the output has room for it.
pub fn to_siin(file: &[u8], table: &mut [u32], out: &mut [u8]) -> Text {
    let (words, table) = (table.len(), table.as_mut_ptr());
    let (len, file) = (file.len(), file.as_ptr());
    // SAFETY: as in `read`.
    unsafe { sii_to_siin(file, len, table, words, out.as_mut_ptr(), out.len()) }
}

/// The text in the place of what `out` held, if its capacity has room for it; otherwise `out` is
/// empty. So the output need not be filled before: no memory is touched but the text's.
pub fn to_siin_within(file: &[u8], table: &mut [u32], out: &mut Vec<u8>) -> Text {
    let (words, table) = (table.len(), table.as_mut_ptr());
    let (len, file) = (file.len(), file.as_ptr());
    out.clear();
    let (room, start) = (out.capacity(), out.as_mut_ptr());
    // SAFETY: as in `read`; so many bytes may be written from `start` on. The library reads none of
    // them, so they need not hold anything.
    let answer = unsafe { sii_to_siin(file, len, table, words, start, room) };
    if answer.number == 0 {
        // SAFETY: the call has written the first `length` bytes, which is at most `room`.
        unsafe { out.set_len(answer.length as usize) };
    }
    answer
}

/// `sii_write_index`: the index, if the space has room for it.
pub fn write_index(file: &[u8], table: &mut [u32], index: &mut [u8]) -> Length {
    let (words, table) = (table.len(), table.as_mut_ptr());
    let (len, file) = (file.len(), file.as_ptr());
    // SAFETY: as in `read`.
    unsafe { sii_write_index(file, len, table, words, index.as_mut_ptr(), index.len()) }
}

/// `sii_check_index`: whether this is the index that `write_index` writes for the file.
pub fn check_index(file: &[u8], table: &mut [u32], index: &[u8]) -> Checked {
    let (words, table) = (table.len(), table.as_mut_ptr());
    let (len, file) = (file.len(), file.as_ptr());
    // SAFETY: as in `read`.
    unsafe { sii_check_index(file, len, table, words, index.as_ptr(), index.len()) }
}

/// `sii_field_by_index`: the value of a block under a name, at the places that the index names. An
/// index of another save, or of this one before it changed, can find a wrong value.
pub fn field_by_index(file: &[u8], index: &[u8], block: u64, name: &[u8]) -> Field {
    let (len, file) = (file.len(), file.as_ptr());
    let (index_len, index) = (index.len(), index.as_ptr());
    // SAFETY: as in `read`.
    unsafe {
        sii_field_by_index(
            file,
            len,
            index,
            index_len,
            block,
            name.as_ptr(),
            name.len(),
        )
    }
}

/// `sii_defines_once`: 1 if no prototype id is defined twice, else 0.
pub fn defines_once(file: &[u8], table: &mut [u32]) -> Number {
    let (words, table) = (table.len(), table.as_mut_ptr());
    // SAFETY: as in `read`.
    unsafe { sii_defines_once(file.as_ptr(), file.len(), table, words) }
}

/// `sii_forecast`: what the file will need.
pub fn forecast(file: &[u8], table: &mut [u32]) -> Forecast {
    let (words, table) = (table.len(), table.as_mut_ptr());
    // SAFETY: as in `read`.
    unsafe { sii_forecast(file.as_ptr(), file.len(), table, words) }
}

/// The index in the place of what `index` held, if its capacity has room for it; otherwise `index` is
/// empty. No memory is touched but the index's.
pub fn write_index_within(file: &[u8], table: &mut [u32], index: &mut Vec<u8>) -> Length {
    let (words, table) = (table.len(), table.as_mut_ptr());
    let (len, file) = (file.len(), file.as_ptr());
    index.clear();
    let (room, start) = (index.capacity(), index.as_mut_ptr());
    // SAFETY: as in `to_siin_within`.
    let answer = unsafe { sii_write_index(file, len, table, words, start, room) };
    if answer.number == 0 {
        // SAFETY: the call has written the first `length` bytes, which is at most `room`.
        unsafe { index.set_len(answer.length as usize) };
    }
    answer
}
