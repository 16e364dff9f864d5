//! The bytes of files made by hand.

pub fn string(bytes: &[u8]) -> Vec<u8> {
    [&(bytes.len() as u32).to_le_bytes(), bytes].concat()
}

pub fn definition(type_id: u32, name: &[u8]) -> Vec<u8> {
    [type_id.to_le_bytes().to_vec(), string(name)].concat()
}

/// The definition of an enum with its list.
pub fn choice(name: &[u8], pairs: &[(u32, &[u8])]) -> Vec<u8> {
    let mut bytes = definition(0x37, name);
    bytes.extend((pairs.len() as u32).to_le_bytes());
    for (number, text) in pairs {
        bytes.extend(number.to_le_bytes());
        bytes.extend(string(text));
    }
    bytes
}

pub fn prototype(id: u32, name: &[u8], definitions: &[Vec<u8>]) -> Vec<u8> {
    let mut record = vec![0, 0, 0, 0, 1];
    record.extend(id.to_le_bytes());
    record.extend(string(name));
    record.extend(definitions.concat());
    record.extend([0; 4]);
    record
}

/// A block with an id without words.
pub fn block(id: u32, values: &[u8]) -> Vec<u8> {
    [&id.to_le_bytes(), [0].as_slice(), values].concat()
}

/// A file of version 2.
pub fn file(records: &[Vec<u8>]) -> Vec<u8> {
    file_of(2, records)
}

pub fn file_of(version: u32, records: &[Vec<u8>]) -> Vec<u8> {
    [
        b"BSII",
        &version.to_le_bytes()[..],
        &records.concat(),
        &[0; 5],
    ]
    .concat()
}

/// One field `f` of one prototype `p`, and one block.
pub fn one_value(type_id: u32, value: &[u8]) -> Vec<u8> {
    let definitions = match type_id {
        0x37 => choice(b"f", &[(0, b"zero"), (7, b"seven up"), (9, b"")]),
        _ => definition(type_id, b"f"),
    };
    file(&[prototype(1, b"p", &[definitions]), block(1, value)])
}

pub fn array(elements: &[Vec<u8>]) -> Vec<u8> {
    [
        (elements.len() as u32).to_le_bytes().to_vec(),
        elements.concat(),
    ]
    .concat()
}

pub fn floats(bits: &[u32]) -> Vec<u8> {
    bits.iter().flat_map(|bits| bits.to_le_bytes()).collect()
}

/// One block with the types of document 02, E3: an array of one three f32, and a single four f32.
pub fn worked_vectors() -> Vec<u8> {
    let fields = [definition(0x0a, b"v"), definition(0x17, b"r")];
    let three = floats(&[0x3f00_0000, 0x3f80_0000, 0xc000_0000]);
    let four = floats(&[0x3f80_0000, 0, 0, 0x8000_0000]);
    let values = [array(&[three]), four].concat();
    file(&[prototype(3, b"t", &fields), block(3, &values)])
}

/// One block with a placement of document 02, E12: seven f32 in a file of version 1.
pub fn worked_version_1() -> Vec<u8> {
    let seven = floats(&[
        0x3f80_0000,
        0x8000_0000,
        0x8000_0000,
        0x7f80_0002,
        0,
        0x3fc0_0000,
        0xc000_0000,
    ]);
    let fields = [definition(0x19, b"w")];
    file_of(1, &[prototype(2, b"j", &fields), block(2, &seven)])
}

pub fn named(words: &[u64]) -> Vec<u8> {
    let words_bytes = words.iter().flat_map(|word| word.to_le_bytes());
    [words.len() as u8].into_iter().chain(words_bytes).collect()
}

pub fn nameless(number: u64) -> Vec<u8> {
    [&[0xff], number.to_le_bytes().as_slice()].concat()
}

/// The word that is shown as these characters.
pub fn word(text: &[u8]) -> u64 {
    let digit = |byte: &u8| match byte {
        b'0'..=b'9' => byte - b'0' + 1,
        b'a'..=b'z' => byte - b'a' + 11,
        _ => 37,
    };
    text.iter()
        .rev()
        .fold(0, |word, byte| word * 38 + digit(byte) as u64)
}
