//! Document 01's worked bytes, those of 02's requests, and offsets and lacking bytes that no other
//! side gives.

use calls::{
    kind, Call, Element, Field, Forecast, Implementation, Length, Lent, Text, LENGTH_LIMIT,
};
use model::Model;

fn text_in(file: &[u8], table: &mut [u32], out: &mut [u8]) -> Text {
    let lent = Lent { file, table, out };
    Model::default().answer(Call::ToSiin, lent).text()
}

fn text_of(file: &[u8]) -> String {
    let mut out = vec![0; 4096];
    let text = text_in(file, &mut [0; 768], &mut out);
    let (at, lacking) = (text.offset, text.lacking);
    assert_eq!(lacking > 0, text.number == 3);
    match text.number {
        0 => String::from_utf8(out[..text.length as usize].to_vec()).unwrap(),
        3 => format!("refused 3 at {at} lacking {lacking}"),
        number => format!("refused {number} at {at}"),
    }
}

fn string(bytes: &[u8]) -> Vec<u8> {
    [&(bytes.len() as u32).to_le_bytes(), bytes].concat()
}

fn prototype(id: u32, name: &str, fields: &[(u32, &str)]) -> Vec<u8> {
    let mut record = vec![0, 0, 0, 0, 1];
    record.extend(id.to_le_bytes());
    record.extend(string(name.as_bytes()));
    for (type_id, name) in fields {
        record.extend(type_id.to_le_bytes());
        record.extend(string(name.as_bytes()));
    }
    record.extend([0; 4]);
    record
}

fn file(records: &[Vec<u8>]) -> Vec<u8> {
    [b"BSII\x02\0\0\0".as_slice(), &records.concat(), &[0; 5]].concat()
}

/// A file with one field, in a block with an id without words.
fn one_value(type_id: u32, value: &[u8]) -> Vec<u8> {
    let block = [&[1, 0, 0, 0, 0], value].concat();
    file(&[prototype(1, "p", &[(type_id, "f")]), block])
}

/// What stands behind `f: ` in such a file's text.
fn shown(type_id: u32, value: &[u8]) -> String {
    let text = text_of(&one_value(type_id, value));
    match text.strip_prefix("SiiNunit\n{\np : null {\n  f: ") {
        Some(rest) => rest.strip_suffix("\n}\n}\n").unwrap().to_string(),
        None => text,
    }
}

#[test]
fn worked_file() {
    let block = [
        b"\x07\0\0\0\x01\x57\0\0\0\0\0\0\0\x2c\x01\0\0\x02\0\0\0".as_slice(),
        b"\0\0\xc0\x3f\0\0\0\xc0",
    ];
    let file = file(&[
        prototype(7, "trip", &[(0x27, "km"), (6, "w")]),
        block.concat(),
    ]);
    assert_eq!(file.len(), 82);
    let text = "SiiNunit\n{\ntrip : a1 {\n  km: 300\n  w: 2\n  w[0]: &3fc00000\n  w[1]: -2\n}\n}\n";
    assert_eq!(text.len(), 73);
    assert_eq!(text_of(&file), text);
}

#[test]
fn words() {
    let word = |word: u64| shown(3, &word.to_le_bytes());
    assert_eq!(word(0), "\"\"");
    assert_eq!(word(1 << 63), "\"\"");
    assert_eq!(word(1), "0");
    assert_eq!(word(37), "_");
    assert_eq!(word(38), "refused 5 at 40");
    assert_eq!(word(39), "00");
}

#[test]
fn floats() {
    let float = |float: f32| shown(5, &float.to_le_bytes());
    assert_eq!(float(10_000_000.0), "10000000");
    assert_eq!(float(10_000_001.0), "&4b189681");
    assert_eq!(float(f32::from_bits(1)), "&1");
    assert_eq!(float(-0.0), "-0");
    assert_eq!(float(-3.0), "-3");
    assert_eq!(float(f32::NAN), "&7fc00000");
}

#[test]
fn placements() {
    let placement = |f1: f32, f4: f32| {
        let floats = [f1, -0.0, f1, f4, 1.0, 0.0, -0.0, 2.0];
        let shown = shown(0x19, &floats.map(f32::to_le_bytes).concat());
        let (sums, rest) = shown.split_once(") ").unwrap();
        assert_eq!(rest, "(1; 0, -0, 2)");
        sums.strip_prefix('(').unwrap().to_string()
    };
    assert_eq!(placement(1.0, 0.0), "-1048575, -0, -1048575");
    assert_eq!(placement(1.0, 8_390_656.0), "1, -0, 1");
    assert_eq!(placement(0.0, -1.5), "1048064, -0, 1048064");
    assert_eq!(placement(-0.0, 8_390_656.0), "0, -0, 0");
    assert_eq!(placement(0.03125, 0.0), "-1048576, -0, -1048576");
    assert_eq!(placement(0.09375, 0.0), "&c97ffffe, -0, &c97ffffe");
    assert_eq!(placement(0.0, f32::NAN), "-1048576, -0, -1048576");
    assert_eq!(placement(0.0, f32::INFINITY), "1048064, -0, 1048064");
    assert_eq!(placement(0.0, -f32::INFINITY), "-1048576, -0, -1048576");
}

#[test]
fn ids() {
    let nameless = |number: u64| shown(0x39, &[&[0xff], &number.to_le_bytes()[..]].concat());
    assert_eq!(nameless(0), "_nameless.0");
    assert_eq!(nameless(0x10000), "_nameless.1.0000");
    assert_eq!(nameless(u64::MAX), "_nameless.ffff.ffff.ffff.ffff");
    assert_eq!(shown(0x3b, &[0]), "null");
    assert_eq!(shown(0x3d, &[&[1][..], &[0; 8]].concat()), "");
    assert_eq!(shown(0x3d, &[&[2][..], &[0; 16]].concat()), ".");
}

#[test]
fn faults_and_their_offsets() {
    let worked = one_value(1, &string(b"abc"));
    let cut = |len: usize| text_of(&worked[..len]);
    assert_eq!(cut(3), "refused 1 at 0");
    for len in 4..8 {
        assert_eq!(cut(len), format!("refused 3 at 4 lacking {}", 8 - len));
    }
    assert_eq!(cut(8), "refused 3 at 8 lacking 4");
    let version_1 = text_of(b"BSII\x01\0\0\0");
    assert_eq!(version_1, "refused 3 at 8 lacking 4");
    assert_eq!(cut(12), "refused 3 at 12 lacking 1");
    assert_eq!(cut(22), "refused 3 at 22 lacking 4");
    // The block stands at 35, its id at 39, the string's length at 40, its bytes at 44.
    assert_eq!(&worked[35..40], [1, 0, 0, 0, 0].as_slice());
    assert_eq!(cut(39), "refused 3 at 39 lacking 1");
    assert_eq!(cut(43), "refused 3 at 40 lacking 1");
    assert_eq!(cut(46), "refused 3 at 44 lacking 1");
    assert_eq!(text_of(&one_value(1, &string(b"a\xff"))), "refused 4 at 44");
    // The second of two floats runs out.
    let floats = one_value(7, &[0; 6]);
    assert_eq!(text_of(&floats[..46]), "refused 3 at 44 lacking 2");
    let undefined_prototype = file(&[vec![5, 0, 0, 0]]);
    assert_eq!(text_of(&undefined_prototype), "refused 6 at 8");
    assert_eq!(text_of(&one_value(8, b"")), "refused 7 at 40");
    assert_eq!(text_of(&one_value(8, b"")[..40]), "refused 7 at 40");
}

fn bytes(hex: &str) -> Vec<u8> {
    let byte = |at: usize| u8::from_str_radix(&hex[at..at + 2], 16).unwrap();
    (0..hex.len()).step_by(2).map(byte).collect()
}

/// A save with a u16 in two blocks.
const SAVE_A: &str = "425349490200000000000000010300000001000000742b000000010000006e00000000\
                      030000000005000300000001220000000000000007000000000000";
/// A placement of seven floats, in version 1.
const SEVEN: &str = "4253494901000000000000000102000000010000006a19000000010000007700000000\
                     02000000000000803f00000080000000800200807f000000000000c03f000000c00000000000";

#[test]
fn worked_cuts() {
    let worked = |hex: &str| text_of(&bytes(hex));
    assert_eq!(worked("4253494902"), "refused 3 at 4 lacking 3");
    assert_eq!(worked("42534949020000000000"), "refused 3 at 8 lacking 2");
    assert_eq!(worked("42534949020000000000000003"), "refused 15 at 12");
    let name = "4253494902000000000000000103000000050000006162";
    assert_eq!(worked(name), "refused 3 at 21 lacking 3");
    assert_eq!(worked(&SAVE_A[..82]), "refused 3 at 40 lacking 1");
}

fn with_version(file: &[u8], version: u32) -> Vec<u8> {
    [&file[..4], &version.to_le_bytes(), &file[8..]].concat()
}

#[test]
fn worked_version_1() {
    let file = bytes(SEVEN);
    let text = "SiiNunit\n{\nj : null {\n  w: (1, -0, -0) (&7f800002; 0, &3fc00000, -2)\n}\n}\n";
    assert_eq!(text_of(&file), text);
    // With another version the eighth float takes four bytes of the end record.
    for version in [0, 2, 3, 257, 0x0100_0001, u32::MAX] {
        let found = text_of(&with_version(&file, version));
        assert_eq!(found, "refused 3 at 72 lacking 3");
    }
    // Each of the seven is one item: the value stands from 40 to 68.
    for kept in 40..68 {
        let (at, lacking) = (kept / 4 * 4, 4 - kept % 4);
        let expected = format!("refused 3 at {at} lacking {lacking}");
        assert_eq!(text_of(&file[..kept]), expected);
    }
    let part = &file[40..68];
    let found = element_in(1, 0x19, part, 0);
    let seven = [
        0x3f80_0000,
        0x8000_0000,
        0x8000_0000,
        0x7fc0_0000,
        0,
        0x3fc0_0000,
        0xc000_0000,
        0,
    ];
    assert_eq!((found.number, found.kind), (0, kind::SEVEN_F32));
    assert_eq!(found.parts, seven);
    assert_eq!(element_in(1, 0x19, part, 1), Element::refused(13, 0));
    assert_eq!(element_in(2, 0x19, part, 0), cut(28, 4));
    assert_eq!(element_in(1, 0x19, &part[..27], 0), cut(24, 1));
}

/// What version 1 and the others differ in: placements, and nothing else.
#[test]
fn versions() {
    let zeros = [0; 32];
    for version in [0, 1, 2, 257, 0x0100_0001, u32::MAX] {
        let (kind, size) = match version {
            1 => (kind::SEVEN_F32, 28),
            _ => (kind::PLACEMENT, 32),
        };
        let single = element_in(version, 0x19, &zeros[..size], 0);
        assert_eq!((single.number, single.kind), (0, kind));
        let short = element_in(version, 0x19, &zeros[..size - 1], 0);
        assert_eq!(short, cut(size as u64 - 4, 1));
        let two = [&[2, 0, 0, 0][..], &zeros[..size], &zeros[..size]].concat();
        let second = element_in(version, 0x1a, &two, 1);
        assert_eq!((second.number, second.kind), (0, kind));
        assert_eq!(element_in(version, 0x1a, &two, 2), Element::refused(13, 0));
        let short = element_in(version, 0x1a, &two[..two.len() - 1], 0);
        assert_eq!(short, cut(two.len() as u64 - 4, 1));
        // Every other type answers as in version 2.
        for type_id in (0..0x40).filter(|type_id| !matches!(type_id, 0x19 | 0x1a)) {
            for part in [&two[..], &zeros, &zeros[..3], b""] {
                let expected = element(type_id, part, 0);
                assert_eq!(element_in(version, type_id, part, 0), expected);
            }
        }
    }
}

/// An array, each element with seven floats, and the field behind it.
#[test]
fn placements_of_version_1() {
    let floats = |floats: [f32; 7]| floats.map(f32::to_le_bytes).concat();
    let first = floats([-0.0, 0.5, f32::NAN, 8_390_656.0, 1.0, 2.0, -0.0]);
    let second = floats([1e7, -1e7, f32::INFINITY, -1.5, 0.0, 0.0, 3.0]);
    let value = [&[2, 0, 0, 0][..], &first, &second, &[1]].concat();
    let block = [&[1, 0, 0, 0, 0], &value[..]].concat();
    let fields = [(0x1a, "a"), (0x35, "b")];
    let file = with_version(&file(&[prototype(1, "p", &fields), block]), 1);
    let lines = [
        "  a: 2",
        "  a[0]: (-0, &3f000000, &7fc00000) (8390656; 1, 2, -0)",
        "  a[1]: (10000000, -10000000, &7f800000) (&bfc00000; 0, 0, 3)",
        "  b: true",
    ];
    let lines = lines.join("\n");
    let text = format!("SiiNunit\n{{\np : null {{\n{lines}\n}}\n}}\n");
    assert_eq!(text_of(&file), text);
}

/// One block with an array of three f32 and a single four f32.
const VECTORS: &str = "425349490200000000000000010300000001000000740a00000001000000761700000001\
                       00000072000000000300000000010000000000003f0000803f000000c00000803f000000\
                       0000000000000000800000000000";

#[test]
fn worked_vectors() {
    let file = bytes(VECTORS);
    let text =
        "SiiNunit\n{\nt : null {\n  v: 1\n  v[0]: (&3f000000, 1, -2)\n  r: (1; 0, 0, -0)\n}\n}\n";
    assert_eq!(text.len(), 79);
    assert_eq!(text_of(&file), text);
    let cut = |len: usize| text_of(&file[..len]);
    assert_eq!(cut(60), "refused 3 at 57 lacking 1");
    assert_eq!(cut(50), "refused 3 at 49 lacking 3");
    assert_eq!(cut(67), "refused 3 at 65 lacking 2");
    let [three, four] = [&file[49..65], &file[65..81]];
    let parts = |type_id: u32, part: &[u8], index: u64| {
        let found = element(type_id, part, index);
        assert_eq!(found.number, 0);
        (found.kind, found.parts)
    };
    let of_three = [0x3f00_0000, 0x3f80_0000, 0xc000_0000, 0, 0, 0, 0, 0];
    assert_eq!(parts(0x0a, three, 0), (kind::THREE_F32, of_three));
    assert_eq!(element(0x0a, three, 1), Element::refused(13, 0));
    let of_four = [0x3f80_0000, 0, 0, 0x8000_0000, 0, 0, 0, 0];
    assert_eq!(parts(0x17, four, 0), (kind::FOUR_F32, of_four));
    assert_eq!(element(0x17, four, 1), Element::refused(13, 0));
    for neighbour in [0x08, 0x0b, 0x0c, 0x16, 0x38] {
        assert_eq!(shown(neighbour, four), "refused 7 at 40");
        assert_eq!(element(neighbour, four, 0), Element::refused(7, 0));
    }
}

/// Every mark but two; the byte itself decides, not what follows it.
#[test]
fn marks() {
    for mark in 2..=255 {
        let file = [b"BSII\x02\0\0\0\0\0\0\0".as_slice(), &[mark]].concat();
        assert_eq!(text_of(&file), "refused 15 at 12");
        assert_eq!(text_of(&[&file[..], &[0; 9]].concat()), "refused 15 at 12");
        assert_eq!(text_of(&file[..12]), "refused 3 at 12 lacking 1");
    }
}

/// A length says more than any file has; a string that is cut and already bad is cut first.
#[test]
fn strings_that_run_out() {
    let with = |len: u32, rest: &[u8]| {
        let value = [&len.to_le_bytes(), rest].concat();
        let whole = one_value(1, &value);
        text_of(&whole[..whole.len() - 5])
    };
    assert_eq!(with(u32::MAX, b""), "refused 3 at 44 lacking 4294967295");
    assert_eq!(with(u32::MAX, b"abc"), "refused 3 at 44 lacking 4294967292");
    assert_eq!(with(2, b"\xff"), "refused 3 at 44 lacking 1");
    assert_eq!(with(1, b"\xff"), "refused 4 at 44");
    assert_eq!(with(0, b""), "refused 3 at 44 lacking 4");
}

#[test]
fn another_number_of_fields_or_another_type() {
    let block = |value: &[u8]| [&[1, 0, 0, 0, 0], value].concat();
    let first = prototype(1, "p", &[(0x27, "f")]);
    let at = 8 + first.len();
    let fewer = file(&[first.clone(), block(&[9; 4]), prototype(1, "q", &[])]);
    assert_eq!(text_of(&fewer), format!("refused 8 at {at}"));
    let other = file(&[
        first,
        block(&[9, 0, 0, 0]),
        prototype(1, "q", &[(0x06, "g")]),
    ]);
    assert_eq!(text_of(&other), "SiiNunit\n{\nq : null {\n  g: 9\n}\n}\n");
}

#[test]
fn table() {
    let two = file(&[
        prototype(0, "a", &[]),
        prototype(0, "b", &[]),
        prototype(5, "c", &[]),
    ]);
    let read = |words: usize| {
        let mut table = vec![7; words];
        let lent = Lent::file(&two, &mut table);
        let reading = Model::default().answer(Call::Read, lent).reading();
        assert!(table.iter().all(|word| *word == 0));
        (reading.number, reading.offset, reading.prototypes)
    };
    assert_eq!(read(2), (10, 8, 0));
    assert_eq!(read(5), (10, 44, 0));
    assert_eq!(read(6), (0, 0, 2));
}

#[test]
fn output() {
    let file = file(&[]);
    let mut out = [7; 12];
    let text = text_in(&file, &mut [], &mut out);
    assert_eq!((text.number, text.length, out), (11, 13, [7; 12]));
}

/// A name of 2^20 bytes over an array of 2^20 bools.
#[test]
fn needed_length_beyond_32_bits() {
    let name = "n".repeat(1 << 20);
    let block = [b"\x01\0\0\0\0\0\0\x10\0".as_slice(), &vec![0; 1 << 20]].concat();
    let file = file(&[prototype(1, "p", &[(0x36, &name)]), block]);
    let text = text_in(&file, &mut [0; 3], &mut []);
    let expected = Text {
        number: 11,
        length: 1_099_531_488_224,
        ..Text::default()
    };
    assert_eq!(text, expected);
}

fn element(type_id: u32, part: &[u8], index: u64) -> Element {
    element_in(2, type_id, part, index)
}

fn element_in(version: u32, type_id: u32, part: &[u8], index: u64) -> Element {
    let call = Call::ElementOf {
        version,
        type_id,
        part,
        index,
    };
    Model::default().answer(call, Lent::default()).element()
}

fn cut(offset: u64, lacking: u64) -> Element {
    Element {
        lacking,
        ..Element::refused(3, offset)
    }
}

#[test]
fn elements() {
    let two = b"\x02\0\0\0\x01\0\0\0a\x01\0\0\0b";
    let second = element(2, two, 1);
    assert_eq!(
        (second.number, second.place_offset, second.place_len),
        (0, 13, 1)
    );
    assert_eq!(element(2, two, 2).number, 13);
    assert_eq!(element(2, &two[..13], 0), cut(13, 1));
    assert_eq!(element(2, &two[..3], 0), cut(0, 1));
    assert_eq!(element(2, &two[..7], 0), cut(4, 1));
    assert_eq!(element(0x31, &[0; 5], 0), cut(0, 3));
    // The second word of an id; the third float of the second of two fours.
    let id = [&[2][..], &[0; 13]].concat();
    assert_eq!(element(0x39, &id, 0), cut(9, 3));
    let fours = [&[2, 0, 0, 0][..], &[0; 25]].concat();
    assert_eq!(element(0x18, &fours, 0), cut(28, 3));
    // The second float of the second of two threes; the last of a single four, which has no count.
    let threes = [&[2, 0, 0, 0][..], &[0; 17]].concat();
    assert_eq!(element(0x0a, &threes, 0), cut(20, 3));
    assert_eq!(element(0x17, &[0; 15], 0), cut(12, 1));
    assert_eq!(element(0x17, &[], 0), cut(0, 4));
    assert_eq!(element(0, b"", 9), Element::refused(7, 0));
    assert_eq!(element(0x36, &[0; 4], 0), Element::refused(13, 0));
    assert_eq!(element(0x25, &[0xff; 4], 0).value, u64::MAX);
    assert_eq!(element(0x19, &[0; 31], 0), cut(28, 1));
    assert_eq!(element(0x19, &[0; 5], 0), cut(4, 3));
}

const INDEX_A: &str = "2300000700000800000100002a00000f0000080000010000";

/// Room for two prototype ids in every table, which comes in full and is zero afterwards.
fn asked(call: Call<'_>, file: &[u8], out: &mut [u8]) -> calls::Answer {
    let mut table = [7; 6];
    let lent = Lent {
        file,
        table: &mut table,
        out,
    };
    let answer = Model::default().answer(call, lent);
    assert_eq!(table, [0; 6]);
    answer.known()
}

fn write_index(file: &[u8], space: &mut [u8]) -> Length {
    asked(Call::WriteIndex, file, space).length()
}

fn index_of(file: &[u8]) -> Vec<u8> {
    let mut space = [7; 120];
    let written = write_index(file, &mut space);
    assert_eq!(written.number, 0);
    let (index, beyond) = space.split_at(written.length as usize);
    assert!(beyond.iter().all(|byte| *byte == 7));
    index.to_vec()
}

/// Number and offset; nothing is lacking.
fn check(file: &[u8], index: &[u8]) -> (u32, u64) {
    let answer = asked(Call::CheckIndex { index }, file, &mut []).checked();
    assert_eq!(answer.lacking, 0);
    (answer.number, answer.offset)
}

fn once(file: &[u8]) -> u64 {
    let answer = asked(Call::DefinesOnce, file, &mut []).named();
    assert_eq!(answer.number, 0);
    answer.value
}

fn by_index(file: &[u8], index: &[u8], block: u64, name: &[u8]) -> Field {
    let call = Call::FieldByIndex { index, block, name };
    let answer = Model::default().answer(call, Lent::file(file, &mut []));
    answer.known().field()
}

/// The type and bytes that are found.
fn found(file: &[u8], answer: Field) -> (u32, Vec<u8>) {
    assert_eq!(answer.number, 0, "{answer:?}");
    let start = answer.part_offset as usize;
    let part = &file[start..start + answer.part_len as usize];
    (answer.type_id, part.to_vec())
}

fn runs_out(offset: u64, lacking: u64) -> Field {
    Field {
        lacking,
        ..Field::refused(3, offset)
    }
}

/// A record of these two offsets; length and number of fields, which nobody looks at, are nonsense.
fn pointing(block: usize, prototype: usize) -> Vec<u8> {
    let three = |number: usize| (number as u32).to_le_bytes()[..3].to_vec();
    [three(block), vec![0xff; 3], three(prototype), vec![0xff; 3]].concat()
}

#[test]
fn worked_writing_of_an_index() {
    let (save, index) = (bytes(SAVE_A), bytes(INDEX_A));
    assert_eq!((save.len(), index.len()), (62, 24));
    let mut space = [7; 26];
    assert_eq!(write_index(&save, &mut space[..24]).length, 24);
    assert_eq!(space[..24], index[..]);
    assert_eq!(index_of(&save), index);
    let mut space = [7; 23];
    let short = write_index(&save, &mut space);
    assert_eq!((short.number, short.offset, short.length), (11, 0, 24));
    assert_eq!(space, [7; 23]);
    // Without blocks any space will do.
    let empty = write_index(&file(&[]), &mut []);
    assert_eq!((empty.number, empty.length), (0, 0));
    assert_eq!(index_of(&file(&[prototype(1, "p", &[])])), b"");
    // The file's faults come first, and its table's.
    let cut = write_index(&save[..41], &mut []);
    assert_eq!((cut.number, cut.offset, cut.lacking), (3, 40, 1));
    let answer = Model::default().answer(Call::WriteIndex, Lent::file(&save, &mut [7; 2]));
    assert_eq!(answer.fault(), (10, 8, 0));
}

/// Replies 8 and 9 are about texts.
#[test]
fn an_index_of_a_save_without_a_text() {
    let block = vec![1, 0, 0, 0, 0, 9, 0, 0, 0];
    let first = prototype(1, "p", &[(0x27, "f")]);
    let at = 8 + first.len();
    let fewer = file(&[first, block, prototype(1, "q", &[])]);
    assert_eq!(text_of(&fewer), format!("refused 8 at {at}"));
    // Offset 35, length 9, the first definition at 8 with one field.
    assert_eq!(index_of(&fewer), bytes("230000090000080000010000"));
    assert_eq!(once(&fewer), 0);
    let no_list = one_value(0x37, &[5, 0, 0, 0]);
    let list = [&no_list[..31], &[0; 4], &no_list[31..]].concat();
    assert_eq!(text_of(&list), "refused 9 at 44");
    assert_eq!(index_of(&list), bytes("270000090000080000010000"));
    assert_eq!(once(&list), 1);
}

#[test]
fn worked_checks_of_an_index() {
    let (save, index) = (bytes(SAVE_A), bytes(INDEX_A));
    assert_eq!(check(&save, &index), (0, 0));
    for kept in 0..24 {
        let offset = if kept < 12 { 0 } else { 12 };
        assert_eq!(check(&save, &index[..kept]), (14, offset), "{kept}");
    }
    for more in 1..30 {
        let longer = [&index[..], &vec![0; more]].concat();
        assert_eq!(check(&save, &longer), (14, 24));
    }
    // Every byte counts, length and number of fields among them.
    for at in 0..24 {
        let mut changed = index.clone();
        changed[at] ^= 1;
        assert_eq!(check(&save, &changed), (14, at as u64 / 12 * 12));
    }
    let swapped = [&index[12..], &index[..12]].concat();
    assert_eq!(check(&save, &swapped), (14, 0));
    assert_eq!(check(&file(&[]), b""), (0, 0));
    assert_eq!(check(&file(&[]), &[0]), (14, 0));
    // A fault of the file comes first, also one behind the record that differs.
    for kept in 43..62 {
        let call = Call::CheckIndex { index: b"none" };
        let answer = asked(call, &save[..kept], &mut []);
        assert_eq!(answer.number(), 3, "{kept}");
    }
}

#[test]
fn worked_look_ups_by_an_index() {
    let (save, index) = (bytes(SAVE_A), bytes(INDEX_A));
    let second = by_index(&save, &index, 1, b"n");
    assert_eq!((second.part_offset, second.part_len), (55, 2));
    assert_eq!(found(&save, second), (0x2b, vec![7, 0]));
    assert_eq!(found(&save, by_index(&save, &index, 0, b"n")).1, [5, 0]);
    assert_eq!(by_index(&save, &index, 1, b"zz"), Field::refused(13, 0));
    for block in [2, 3, 1 << 32, u64::MAX / 12, u64::MAX / 12 + 1, u64::MAX] {
        assert_eq!(by_index(&save, &index, block, b"n"), Field::refused(13, 0));
    }
    // A record of which a byte is lacking is not there.
    let cut = by_index(&save, &index[..23], 1, b"n");
    assert_eq!(cut, Field::refused(13, 0));
    assert_eq!(by_index(&save, &index[..12], 0, b"n").number, 0);
    assert_eq!(by_index(&save, &index[..11], 0, b"n").number, 13);
    let no_zero = by_index(&save, &bytes("2a00000000002a0000000000"), 0, b"n");
    assert_eq!(no_zero, Field::refused(6, 42));
    let at_the_end = by_index(&save, &bytes("3c0000000000080000000000"), 0, b"zz");
    assert_eq!(at_the_end, runs_out(60, 2));
}

/// A block in front of the first: the index of the save before that finds a wrong value, and only
/// the check says so.
#[test]
fn a_stale_index() {
    let (save, index) = (bytes(SAVE_A), bytes(INDEX_A));
    let inserted = [3, 0, 0, 0, 0, 9, 0];
    let wider = [&save[..35], &inserted, &save[35..]].concat();
    assert_eq!(found(&wider, by_index(&wider, &index, 0, b"n")).1, [9, 0]);
    assert_eq!(check(&wider, &index), (14, 12));
    let own = index_of(&wider);
    assert_eq!(check(&wider, &own), (0, 0));
    assert_eq!(found(&wider, by_index(&wider, &own, 1, b"n")).1, [5, 0]);
    assert_eq!(found(&wider, by_index(&wider, &own, 2, b"n")).1, [7, 0]);
}

/// P(a), block, P(b): by the index the definition in force, by the walk the last one.
#[test]
fn an_id_defined_twice() {
    let block = vec![1, 0, 0, 0, 0, 9, 0];
    let records = [
        prototype(1, "p", &[(0x2b, "a")]),
        block,
        prototype(1, "p", &[(0x2b, "b")]),
    ];
    let twice = file(&records);
    assert_eq!(once(&twice), 0);
    let index = index_of(&twice);
    assert_eq!(index, bytes("230000070000080000010000"));
    assert_eq!(check(&twice, &index), (0, 0));
    let field = |name: &[u8]| asked(Call::FieldOf { block: 0, name }, &twice, &mut []).field();
    let by_index = |name: &[u8]| by_index(&twice, &index, 0, name);
    assert_eq!(found(&twice, by_index(b"a")), (0x2b, vec![9, 0]));
    assert_eq!(by_index(b"b"), Field::refused(13, 0));
    assert_eq!(field(b"a"), Field::refused(13, 0));
    assert_eq!(field(b"b"), by_index(b"a"));
    // The same definition twice is twice too, and so is id 0; two ids are not.
    let same = [records[0].clone(), records[0].clone()];
    assert_eq!(once(&file(&same)), 0);
    let zero = prototype(0, "p", &[]);
    assert_eq!(once(&file(&[zero.clone(), zero.clone()])), 0);
    assert_eq!(once(&file(&[records[0].clone(), zero])), 1);
    assert_eq!(once(&bytes(SAVE_A)), 1);
    let cut = asked(Call::DefinesOnce, &bytes(SAVE_A)[..41], &mut []);
    assert_eq!(cut.fault(), (3, 40, 1));
}

/// 12 is about the save, and comes in front of 13 and 14.
#[test]
fn a_save_above_the_limit() {
    let save = bytes(SAVE_A);
    let mut long = save.clone();
    long.resize(LENGTH_LIMIT, 7);
    let index = index_of(&long);
    assert_eq!(index, bytes(INDEX_A));
    assert_eq!(check(&long, &index), (0, 0));
    let last = by_index(&long, &index, 1, b"n");
    assert_eq!(last, by_index(&save, &index, 1, b"n"));
    // The four bytes at the end are read as a number, and with one fewer there are three.
    let end = by_index(&long, &pointing(LENGTH_LIMIT - 4, 8), 0, b"n");
    assert_eq!(end, Field::refused(6, LENGTH_LIMIT as u64 - 4));
    let end = by_index(&long, &pointing(LENGTH_LIMIT - 1, 8), 0, b"n");
    assert_eq!(end, runs_out(LENGTH_LIMIT as u64 - 1, 3));
    // The index may have any length.
    let long_index = vec![0; LENGTH_LIMIT + 12];
    assert_eq!(check(&save, &long_index), (14, 0));
    let far = LENGTH_LIMIT as u64 / 12;
    let far = by_index(&save, &long_index, far, b"n");
    assert_eq!(far, Field::refused(6, 0));
    long.push(7);
    assert_eq!(write_index(&long, &mut []), Length::refused(12, 0));
    assert_eq!(check(&long, b""), (12, 0));
    assert_eq!(asked(Call::DefinesOnce, &long, &mut []).fault(), (12, 0, 0));
    assert_eq!(by_index(&long, b"", 0, b"n"), Field::refused(12, 0));
}

/// 13 for the record, the version, the prototype, the block, 13 for the name.
#[test]
fn the_order_of_a_look_up() {
    let save = bytes(SAVE_A);
    let index = bytes(INDEX_A);
    // The version stands in front of all that is read, and behind the record.
    for kept in 0..8 {
        let lacking = if kept < 4 { 4 } else { 8 - kept as u64 };
        assert_eq!(
            by_index(&save[..kept], &index, 0, b"n"),
            runs_out(4, lacking)
        );
        assert_eq!(by_index(&save[..kept], &index, 2, b"n").number, 13);
    }
    // Nothing else of the header is read.
    let foreign = [b"none\x02\0\0\0", &save[8..]].concat();
    assert_eq!(
        found(&foreign, by_index(&foreign, &index, 1, b"n")).1,
        [7, 0]
    );
    // Both offsets behind the end: the prototype's is met first, and the whole number is lacking.
    for (block, prototype, met) in [
        (200, 100, runs_out(100, 4)),
        (100, 200, runs_out(200, 4)),
        (62, 62, runs_out(62, 4)),
        (0xff_ffff, 8, runs_out(0xff_ffff, 4)),
        (0xff_ffff, 0xff_ffff, runs_out(0xff_ffff, 4)),
        (0xff_ffff, 42, Field::refused(6, 0xff_ffff)),
        (35, 59, runs_out(59, 1)),
    ] {
        assert_eq!(by_index(&save, &pointing(block, prototype), 0, b"n"), met);
    }
    // The end record: mark 0. The number there, and none where the mark would be.
    assert_eq!(&save[57..], [0; 5]);
    let end = by_index(&save, &pointing(35, 57), 0, b"n");
    assert_eq!(end, Field::refused(6, 35));
    assert_eq!(
        by_index(&save[..61], &pointing(35, 57), 0, b"n"),
        runs_out(61, 1)
    );
    // Every mark but 1 is 6 at the block, and 15 never.
    for mark in (0..=255).filter(|mark| *mark != 1) {
        let mut marked = save.clone();
        marked[12] = mark;
        assert_eq!(by_index(&marked, &index, 1, b"n"), Field::refused(6, 42));
    }
    // A number that is not 0.
    let mut numbered = save.clone();
    numbered[11] = 1;
    assert_eq!(by_index(&numbered, &index, 0, b"n"), Field::refused(6, 35));
    // The prototype itself, and with a prototype id 0 that both have.
    let itself = by_index(&save, &pointing(8, 8), 0, b"n");
    assert_eq!(itself, Field::refused(6, 8));
    let zero = file(&[prototype(0, "p", &[])]);
    assert_eq!(
        by_index(&zero, &pointing(8, 8), 0, b"n"),
        Field::refused(6, 8)
    );
}

/// Of the prototype 3 and 4 come first, then the block's 6, then what its id and values have.
#[test]
fn faults_of_a_look_up() {
    let save = bytes(SAVE_A);
    let index = bytes(INDEX_A);
    // The prototype runs out item by item, whatever the block's offset is.
    for kept in 8..35u64 {
        let items = [8, 12, 13, 17, 21, 22, 26, 30, 31, 35];
        let start = *items.iter().rfind(|start| **start <= kept).unwrap();
        let end = *items.iter().find(|end| **end > kept).unwrap();
        let met = runs_out(start, end - kept);
        for block in [0, 35, 99] {
            let index = pointing(block, 8);
            assert_eq!(by_index(&save[..kept as usize], &index, 0, b"n"), met);
        }
    }
    let changed = |at: usize, byte: u8| {
        let mut changed = save.clone();
        changed[at] = byte;
        changed
    };
    assert_eq!(
        by_index(&changed(21, 0xff), &index, 0, b"n"),
        Field::refused(4, 21)
    );
    assert_eq!(
        by_index(&changed(30, 0xff), &index, 0, b"n"),
        Field::refused(4, 30)
    );
    assert_eq!(
        by_index(&changed(21, 0xff), &pointing(99, 8), 0, b"n"),
        Field::refused(4, 21)
    );
    assert_eq!(
        by_index(&changed(35, 4), &index, 0, b"n"),
        Field::refused(6, 35)
    );
    assert_eq!(
        by_index(&changed(35, 0), &index, 0, b"n"),
        Field::refused(6, 35)
    );
    // An unlisted type: 7 at the value, behind 5 in the id; 6 comes in front of both.
    let unlisted = changed(22, 8);
    assert_eq!(by_index(&unlisted, &index, 0, b"n"), Field::refused(7, 40));
    assert_eq!(by_index(&unlisted, &index, 1, b"zz"), Field::refused(7, 55));
    let mut word = unlisted.clone();
    word[47] = 38;
    assert_eq!(by_index(&word, &index, 1, b"n"), Field::refused(5, 47));
    word[42] = 9;
    assert_eq!(by_index(&word, &index, 1, b"n"), Field::refused(6, 42));
    // The id and the value run out.
    assert_eq!(by_index(&save[..46], &index, 1, b"n"), runs_out(46, 1));
    assert_eq!(by_index(&save[..50], &index, 1, b"n"), runs_out(47, 5));
    assert_eq!(by_index(&save[..56], &index, 1, b"n"), runs_out(55, 1));
    // The walk refuses a save without its end record; the look-up does not come to it.
    assert_eq!(by_index(&save[..57], &index, 1, b"n").number, 0);
    assert_eq!(
        by_index(&save[..57], &index, 1, b"zz"),
        Field::refused(13, 0)
    );
}

/// Every value is read, also those behind the asked one; a fault comes in front of an absent name.
#[test]
fn values_behind_the_asked_one() {
    let fields = [(0x2b, "a"), (1, "s"), (0x2b, "a"), (3, "w")];
    let of = prototype(1, "p", &fields);
    let start = 8 + of.len();
    let with = |text: &[u8], word: u64| {
        let values = [&[1, 0][..], &string(text), &[2, 0], &word.to_le_bytes()];
        let block = [&[1, 0, 0, 0, 0], &values.concat()[..]].concat();
        file(&[of.clone(), block])
    };
    let good = with(b"xy", 1);
    let index = index_of(&good);
    // The first definition with the name.
    let first = by_index(&good, &index, 0, b"a");
    assert_eq!(found(&good, first), (0x2b, vec![1, 0]));
    assert_eq!(first.part_offset as usize, start + 5);
    for name in [&b"a"[..], b"s", b"w", b"zz"] {
        let at = start as u64;
        let bad_text = by_index(&with(b"x\xff", 1), &index, 0, name);
        assert_eq!(bad_text, Field::refused(4, at + 11));
        let bad_word = by_index(&with(b"xy", 38), &index, 0, name);
        assert_eq!(bad_word, Field::refused(5, at + 15));
        let cut = by_index(&good[..start + 20], &index, 0, name);
        assert_eq!(cut, runs_out(at + 15, 3));
    }
}

/// A prototype and a block that stand in the bytes of a string, one in the other, and overlapping.
#[test]
fn offsets_into_a_string() {
    let inner = prototype(5, "q", &[(0x27, "k")]);
    let block = [5, 0, 0, 0, 0, 42, 0, 0, 0];
    let save = one_value(1, &string(&[&inner[..], &block].concat()));
    let start = 44;
    assert_eq!(&save[start..start + 5], [0, 0, 0, 0, 1]);
    let index = pointing(start + inner.len(), start);
    let answer = by_index(&save, &index, 0, b"k");
    assert_eq!(found(&save, answer), (0x27, vec![42, 0, 0, 0]));
    // The prototype's own id, read as a block: an id with one word, then the bytes behind it.
    let overlapping = by_index(&save, &pointing(start + 5, start), 0, b"k");
    assert_eq!(found(&save, overlapping).0, 0x27);
    assert_eq!(overlapping.part_offset as usize, start + 5 + 4 + 9);
}

/// The version at offset 4 decides about a placement.
#[test]
fn a_look_up_in_version_1() {
    let save = bytes(SEVEN);
    let index = index_of(&save);
    assert_eq!(index, bytes("230000210000080000010000"));
    let answer = by_index(&save, &index, 0, b"w");
    assert_eq!((answer.type_id, answer.part_len), (0x19, 28));
    for version in [0, 2, 257, u32::MAX] {
        let other = by_index(&with_version(&save, version), &index, 0, b"w");
        assert_eq!((other.number, other.part_len), (0, 32));
    }
    let cut = by_index(&with_version(&save[..68], 2), &index, 0, b"w");
    assert_eq!(cut, runs_out(68, 4));
}

/// The haul sheet's save: a u16, an array of bools and a string, in two blocks.
const SHEET: &str =
    "425349490200000000000000010300000001000000742b000000010000006e3600000001000000\
                     66010000000100000073000000000300000000050002000000010003000000610962\
                     03000000012200000000000000ffff00000000020000006f6b0000000000";

/// With so many words, which come in full and are zero afterwards.
fn forecast(file: &[u8], words: usize) -> Forecast {
    let mut table = vec![7; words];
    let lent = Lent::file(file, &mut table);
    let answer = Model::default().answer(Call::Forecast, lent);
    assert!(table.iter().all(|word| *word == 0));
    answer.forecast()
}

/// Table, text, index, largest block and steps.
fn foretold([table_words, text_len, index_len, largest_block, steps]: [u64; 5]) -> Forecast {
    Forecast {
        table_words,
        text_len,
        index_len,
        largest_block,
        steps,
        ..Forecast::default()
    }
}

#[test]
fn worked_forecasts() {
    let save = bytes(SAVE_A);
    assert_eq!(forecast(&save, 3), foretold([3, 50, 24, 15, 6]));
    assert_eq!(forecast(&save, 2), Forecast::refused(10, 8));
    let text = |words, room| text_in(&save, &mut vec![7; words], &mut vec![7; room]);
    let answered = Text {
        length: 50,
        steps: 6,
        ..Text::default()
    };
    let short = Text {
        number: 11,
        length: 50,
        ..Text::default()
    };
    assert_eq!(text(3, 50), answered);
    assert_eq!(text(3, 49), short);
    assert_eq!(text(2, 50), Text::refused(10, 8));
    assert_eq!(forecast(&bytes(SHEET), 3), foretold([3, 115, 24, 25, 10]));
    // The end record alone, and bytes behind it.
    let empty = file(&[]);
    assert_eq!(forecast(&empty, 0), foretold([0, 13, 0, 0, 1]));
    let longer = [&empty[..], &[0; 40]].concat();
    assert_eq!(forecast(&longer, 0), foretold([0, 13, 0, 0, 1]));
}

/// Id 0 has its words, and a redefinition is a step without words.
#[test]
fn a_forecast_of_definitions() {
    let records = [
        prototype(0, "a", &[]),
        prototype(5, "p", &[(0x2c, "f")]),
        vec![5, 0, 0, 0, 0, 0, 0, 0, 0],
        prototype(0, "b", &[]),
        prototype(5, "longer", &[(0x2c, "g")]),
        vec![5, 0, 0, 0, 0, 1, 0, 0, 0, 7, 0],
        vec![5, 0, 0, 0, 0, 0, 0, 0, 0],
    ];
    let save = file(&records);
    let text = text_of(&save).len() as u64;
    // Seven records, the end record, and a value in each of three blocks.
    assert_eq!(forecast(&save, 6), foretold([6, text, 36, 11, 11]));
    assert_eq!(forecast(&save, 5), Forecast::refused(10, 8 + 18));
}

/// Where the text is refused with room, and with the same words.
#[test]
fn refused_forecasts() {
    let save = bytes(SAVE_A);
    let cut = Forecast {
        lacking: 1,
        ..Forecast::refused(3, 40)
    };
    assert_eq!(forecast(&save[..41], 3), cut);
    // The table is full in front of the cut.
    assert_eq!(forecast(&save[..41], 2), Forecast::refused(10, 8));
    let block = vec![1, 0, 0, 0, 0, 9, 0, 0, 0];
    let first = prototype(1, "p", &[(0x27, "f")]);
    let fewer = file(&[first, block, prototype(1, "q", &[])]);
    assert_eq!(forecast(&fewer, 3), Forecast::refused(8, 35));
    // A fault of the file comes in front of 8.
    let unfinished = &fewer[..fewer.len() - 1];
    let fault = Forecast {
        lacking: 1,
        ..Forecast::refused(3, unfinished.len() as u64)
    };
    assert_eq!(forecast(unfinished, 3), fault);
    let no_list = one_value(0x37, &[5, 0, 0, 0]);
    let list = [&no_list[..31], &[0; 4], &no_list[31..]].concat();
    assert_eq!(forecast(&list, 3), Forecast::refused(9, 44));
    assert_eq!(forecast(b"BSI", 3), Forecast::refused(1, 0));
    let long = vec![0; LENGTH_LIMIT + 1];
    assert_eq!(forecast(&long, 0), Forecast::refused(12, 0));
}
