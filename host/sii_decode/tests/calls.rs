//! Every call on the worked bytes and on the sample, and every refusal that a caller can meet.

use generate::{worked_bytes, Random};
use sii_decode::{
    forecast, to_siin, BsiiFile, DataField, DataValue, Forecast, Id, OtherKind, Refusal,
    LENGTH_LIMIT,
};
use std::error::Error;
use std::path::Path;

const WORKED: &str =
    "SiiNunit\n{\ntrip : a1 {\n  km: 300\n  w: 2\n  w[0]: &3fc00000\n  w[1]: -2\n}\n}\n";

fn refusal(number: u32, offset: u64) -> Refusal {
    Refusal {
        number,
        offset,
        lacking: 0,
        needed: 0,
    }
}

fn cut(offset: u64, lacking: u64) -> Refusal {
    Refusal {
        lacking,
        ..refusal(3, offset)
    }
}

/// Prototype `p` with one field `x` of a type, and one block of it.
fn one_field(type_id: u32, value: &[u8]) -> Vec<u8> {
    let mut file = b"BSII\x02\0\0\0\0\0\0\0\x01\x01\0\0\0\x01\0\0\0p".to_vec();
    file.extend(type_id.to_le_bytes());
    file.extend(b"\x01\0\0\0x");
    if type_id == 0x37 {
        file.extend(b"\x01\0\0\0\x05\0\0\0\x04\0\0\0five");
    }
    file.extend(b"\0\0\0\0\x01\0\0\0\0");
    file.extend(value);
    file.extend([0; 5]);
    file
}

fn sample(name: &str) -> Vec<u8> {
    let samples = Path::new(env!("CARGO_MANIFEST_DIR")).join("../../samples");
    std::fs::read(samples.join(name)).unwrap()
}

#[test]
fn the_worked_bytes() {
    let bytes = worked_bytes();
    let file = BsiiFile::parse(&bytes).unwrap();
    assert_eq!((file.header(), file.version()), (b"BSII".as_slice(), 2));
    let counts = (file.prototype_count(), file.block_count(), file.end());
    assert_eq!(counts, (1, 1, 82));
    assert_eq!(file.to_siin().unwrap(), WORKED.as_bytes());
    assert_eq!(to_siin(&bytes).unwrap(), WORKED.as_bytes());
    let shown = "BsiiFile { bytes: 82, prototypes: 1, blocks: 1, end: 82, .. }";
    assert_eq!(format!("{file:?}"), shown);

    let prototype = file.get_prototype(7).unwrap();
    let parts = (prototype.id, prototype.name, prototype.fields);
    assert_eq!(parts, (7, "trip", 2));
    let block = file.block(0).unwrap();
    assert_eq!((block.number, block.prototype_id), (0, 7));
    assert_eq!(block.id, Id::Named(vec!["a1".into()]));
    assert_eq!(block.prototype(&file), Ok(prototype));

    let km = block.field(&file, "km").unwrap();
    assert_eq!((km.type_id, km.part), (0x27, &b"\x2c\x01\0\0"[..]));
    assert_eq!(km, file.field(0, b"km").unwrap());
    assert_eq!(km.element(0), Ok(DataValue::UInt32(300)));
    assert_eq!(km.element(1), Err(refusal(13, 0)));
    let w = file.field(0, "w").unwrap();
    let floats = [DataValue::Float(1.5), DataValue::Float(-2.0)];
    assert_eq!(w.elements().collect::<Vec<_>>(), floats);
}

#[test]
fn what_is_not_there() {
    let bytes = worked_bytes();
    let file = BsiiFile::parse(&bytes).unwrap();
    let absent = refusal(13, 0);
    assert_eq!(file.get_prototype(8), Err(absent));
    assert_eq!(file.block(1), Err(absent));
    assert_eq!(file.block(u64::MAX), Err(absent));
    assert_eq!(file.field(0, "k"), Err(absent));
    assert_eq!(file.field(1, "km"), Err(absent));
    assert_eq!(file.field(0, [0xff]), Err(absent));
    assert_eq!(file.nth_by_prototype_name("trip", 1), Err(absent));
    assert_eq!(file.blocks_by_prototype_name("tri").count(), 0);
}

#[test]
fn blocks_under_a_name_in_order() {
    let mut bytes = worked_bytes();
    bytes.truncate(77);
    let block = bytes[48..].to_vec();
    bytes.extend(b"\0\0\0\0\x01\x09\0\0\0\x01\0\0\0p\0\0\0\0");
    bytes.extend(b"\x09\0\0\0\0");
    bytes.extend(&block);
    bytes.extend([0; 5]);
    let file = BsiiFile::parse(&bytes).unwrap();
    let numbers = |name| file.blocks_by_prototype_name(name).collect::<Vec<_>>();
    assert_eq!(numbers("trip"), [0, 2]);
    assert_eq!(numbers("p"), [1]);
    let blocks: Vec<_> = file.blocks().collect();
    assert_eq!(file.blocks().len(), 3);
    assert_eq!(blocks, [0, 1, 2].map(|number| file.block(number).unwrap()));
    let ids: Vec<_> = blocks.iter().map(|block| block.prototype_id).collect();
    assert_eq!(ids, [7, 9, 7]);
}

#[test]
fn refusals_of_a_file() {
    let cases: [(Vec<u8>, Refusal); 13] = [
        (vec![], refusal(1, 0)),
        (b"BSIJ\x02\0\0\0".to_vec(), refusal(1, 0)),
        (b"BSII\x01\0\0\0".to_vec(), cut(8, 4)),
        (b"BSII\x01".to_vec(), cut(4, 3)),
        (worked_bytes()[..81].to_vec(), cut(81, 1)),
        (worked_bytes()[..54].to_vec(), cut(53, 7)),
        (one_field(0x01, b"\xff\xff\xff\xff"), cut(44, 0xffff_fffa)),
        (one_field(0x01, b"\x01\0\0\0\xff"), refusal(4, 44)),
        (one_field(0x03, &[38, 0, 0, 0, 0, 0, 0, 0]), refusal(5, 40)),
        (b"BSII\x02\0\0\0\x07\0\0\0".to_vec(), refusal(6, 8)),
        (one_field(0x08, b""), refusal(7, 40)),
        (vec![0; LENGTH_LIMIT + 1], refusal(12, 0)),
        (b"BSII\x02\0\0\0\0\0\0\0\x03".to_vec(), refusal(15, 12)),
    ];
    for (bytes, refusal) in cases {
        assert_eq!(BsiiFile::parse(&bytes).err(), Some(refusal));
        assert_eq!(to_siin(&bytes), Err(refusal));
        assert_eq!(forecast(&bytes), Err(refusal));
    }
}

/// The lacking bytes count in the part.
#[test]
fn values_that_run_out() {
    let version = 2;
    let element = |type_id, part: &'static [u8]| {
        let field = DataField {
            version,
            type_id,
            part,
        };
        field.element(0)
    };
    assert_eq!(element(0x31, b"\x01\x02\x03\x04\x05"), Err(cut(0, 3)));
    assert_eq!(element(0x28, b"\x02\0\0\0\x01\0\0\0\x02"), Err(cut(8, 3)));
    assert_eq!(element(0x01, b"\x05\0\0\0ab"), Err(cut(4, 3)));
    assert_eq!(element(0x35, b""), Err(cut(0, 1)));
}

#[test]
fn refusals_of_the_text() {
    let bytes = one_field(0x37, &[6, 0, 0, 0]);
    let file = BsiiFile::parse(&bytes).unwrap();
    assert_eq!(file.to_siin(), Err(refusal(9, bytes.len() as u64 - 9)));
    assert_eq!(file.forecast().map(|_| ()), file.to_siin().map(|_| ()));
    assert_eq!(
        file.field(0, "x").unwrap().element(0),
        Ok(DataValue::Enum(6))
    );

    let mut bytes = one_field(0x35, &[1]);
    bytes.truncate(41);
    bytes.extend(b"\0\0\0\0\x01\x01\0\0\0\x01\0\0\0p\0\0\0\0");
    bytes.extend([0; 5]);
    let file = BsiiFile::parse(&bytes).unwrap();
    assert_eq!(file.to_siin(), Err(refusal(8, 35)));
    assert_eq!(file.forecast(), Err(refusal(8, 35)));
    assert_eq!(forecast(&bytes), Err(refusal(8, 35)));
}

/// The text of an array of bools under a name of as many bytes is far longer than the file.
#[test]
fn a_text_that_no_memory_holds() {
    const HALF: usize = 8_000_000;
    let mut bytes = b"BSII\x02\0\0\0\0\0\0\0\x01\x01\0\0\0\x01\0\0\0p\x36\0\0\0".to_vec();
    bytes.extend((HALF as u32).to_le_bytes());
    bytes.extend(vec![b'n'; HALF]);
    bytes.extend(b"\0\0\0\0\x01\0\0\0\0");
    bytes.extend((HALF as u32).to_le_bytes());
    bytes.extend(vec![1; HALF]);
    bytes.extend([0; 5]);
    let refusal = BsiiFile::parse(&bytes).unwrap().to_siin().unwrap_err();
    assert_eq!(to_siin(&bytes), Err(refusal));
    assert_eq!((refusal.number, refusal.offset), (11, 0));
    assert!(refusal.needed > 64_000_000_000_000);
    let foretold = forecast(&bytes).unwrap();
    assert_eq!((foretold.text_len, foretold.steps), (refusal.needed, 4));
    assert_eq!(foretold.to_siin(&bytes), Err(refusal));
    let shown = format!(
        "refused 11 at 0: there is not enough memory for the text or the index, which has {} bytes",
        refusal.needed
    );
    assert_eq!(refusal.to_string(), shown);
}

/// An array of three f32 and a single four f32, by field, element and text.
#[test]
fn vectors() {
    let bytes = generate::bytes::worked_vectors();
    let file = BsiiFile::parse(&bytes).unwrap();
    let (threes, four) = (file.field(0, "v").unwrap(), file.field(0, "r").unwrap());
    assert_eq!((threes.type_id, threes.part), (0x0a, &bytes[49..65]));
    assert_eq!((four.type_id, four.part), (0x17, &bytes[65..81]));
    assert!(threes.is_array() && !four.is_array());
    assert_eq!(threes.kind_name(), "three-f32");
    assert_eq!(four.kind_name(), "four-f32");
    let three = DataValue::FloatVec3((0.5, 1.0, -2.0));
    assert_eq!(threes.element(0), Ok(three.clone()));
    assert_eq!(threes.elements().collect::<Vec<_>>(), [three]);
    let shown: Vec<_> = four.elements().map(|value| value.to_string()).collect();
    assert_eq!(shown, ["1 0 0 -0"]);
    for field in [threes, four] {
        assert_eq!(field.element(1), Err(refusal(13, 0)));
        let part = &field.part[..15];
        assert_eq!(DataField { part, ..field }.element(0), Err(cut(12, 1)));
    }
    let text =
        "SiiNunit\n{\nt : null {\n  v: 1\n  v[0]: (&3f000000, 1, -2)\n  r: (1; 0, 0, -0)\n}\n}\n";
    assert_eq!(to_siin(&bytes).unwrap(), text.as_bytes());
    assert_eq!(to_siin(&bytes[..60]), Err(cut(57, 1)));
}

/// A placement of seven floats, by field, element and text; with another version the eighth one takes
/// bytes of the end record.
#[test]
fn version_1() {
    let bytes = generate::bytes::worked_version_1();
    let file = BsiiFile::parse(&bytes).unwrap();
    assert_eq!(file.version(), 1);
    let seven = file.field(0, "w").unwrap();
    let found = (seven.version, seven.type_id, seven.part);
    assert_eq!(found, (1, 0x19, &bytes[40..68]));
    assert_eq!(seven.kind_name(), "seven-f32");
    let element = seven.element(0).unwrap();
    assert_eq!(element.to_string(), "1 -0 -0 NaN 0 1.5 -2");
    assert!(matches!(element, DataValue::FloatVec7(_)));
    let shown: Vec<_> = seven.elements().map(|value| value.to_string()).collect();
    assert_eq!(shown, ["1 -0 -0 NaN 0 1.5 -2"]);
    assert_eq!(seven.element(1), Err(refusal(13, 0)));
    let part = &seven.part[..27];
    assert_eq!(DataField { part, ..seven }.element(0), Err(cut(24, 1)));
    for version in [0, 2, 257, u32::MAX] {
        let eight = DataField { version, ..seven };
        assert_eq!(eight.kind_name(), "placement");
        assert_eq!(eight.element(0), Err(cut(28, 4)));
        let mut other = bytes.clone();
        other[4..8].copy_from_slice(&version.to_le_bytes());
        assert_eq!(to_siin(&other), Err(cut(72, 3)));
    }
    let text = "SiiNunit\n{\nj : null {\n  w: (1, -0, -0) (&7f800002; 0, &3fc00000, -2)\n}\n}\n";
    assert_eq!(to_siin(&bytes).unwrap(), text.as_bytes());
}

/// So many of the smallest prototypes: as many as their bytes allow.
fn prototypes(count: u32) -> Vec<u8> {
    let mut bytes = b"BSII\x02\0\0\0".to_vec();
    for id in 0..count {
        bytes.extend(b"\0\0\0\0\x01");
        bytes.extend(id.to_le_bytes());
        bytes.extend([0; 8]);
    }
    bytes.extend([0; 5]);
    bytes
}

/// The table has room for all, also for more than the first one has rows.
#[test]
fn the_table_fits() {
    for count in [1, 1000, 4096, 4097, 20_000] {
        let bytes = prototypes(count);
        let file = BsiiFile::parse(&bytes).unwrap();
        assert_eq!(file.prototype_count(), u64::from(count));
        assert_eq!(file.get_prototype(count - 1).unwrap().name, "");
        assert_eq!(file.get_prototype(count), Err(refusal(13, 0)));
        assert_eq!(file.to_siin().unwrap(), b"SiiNunit\n{\n}\n");
        assert_eq!(to_siin(&bytes).unwrap(), b"SiiNunit\n{\n}\n");
        let foretold = forecast(&bytes).unwrap();
        let counts = (foretold.table_words, foretold.steps);
        assert_eq!(counts, (3 * u64::from(count), u64::from(count) + 1));
        assert_eq!(foretold.to_siin(&bytes).unwrap(), b"SiiNunit\n{\n}\n");
    }
}

/// Texts much longer than their saves, too: a buffer of just the foretold length holds each.
#[test]
fn texts_of_every_length() {
    for count in [1, 10, 100, 10_000] {
        let bytes = one_field(
            0x36,
            &[&u32::to_le_bytes(count)[..], &vec![1; count as usize]].concat(),
        );
        let mut text = format!("SiiNunit\n{{\np : null {{\n  x: {count}\n");
        for index in 0..count {
            text += &format!("  x[{index}]: true\n");
        }
        text += "}\n}\n";
        assert_eq!(text.len() > 4 * bytes.len(), count > 10, "{count}");
        let made = to_siin(&bytes).unwrap();
        assert_eq!(made, text.as_bytes());
        assert_eq!(made.capacity(), made.len());
        let foretold = forecast(&bytes).unwrap();
        assert_eq!(foretold.text_len, text.len() as u64);
        let made = foretold.to_siin(&bytes).unwrap();
        assert_eq!(made, text.as_bytes());
        assert_eq!(made.capacity(), made.len());
    }
}

/// What the worked bytes will need, and what becomes of it in another save.
#[test]
fn a_forecast() {
    let bytes = worked_bytes();
    let file = BsiiFile::parse(&bytes).unwrap();
    let foretold = Forecast {
        table_words: 3,
        text_len: WORKED.len() as u64,
        index_len: 12,
        largest_block: 29,
        steps: 5,
    };
    assert_eq!(forecast(&bytes), Ok(foretold));
    assert_eq!(file.forecast(), Ok(foretold));
    assert_eq!(foretold.to_siin(&bytes).unwrap(), WORKED.as_bytes());
    assert_eq!(foretold.to_siin(&prototypes(2)), Err(refusal(10, 25)));
    let longer = Refusal {
        needed: to_siin(&sample("depot.bsii")).unwrap().len() as u64,
        ..refusal(11, 0)
    };
    let roomy = Forecast {
        table_words: 300,
        ..foretold
    };
    assert_eq!(roomy.to_siin(&sample("depot.bsii")), Err(longer));
    assert_eq!(foretold.to_siin(&bytes[..81]), Err(cut(81, 1)));
    let endless = Forecast {
        text_len: u64::MAX,
        ..foretold
    };
    let no_room = Refusal {
        needed: u64::MAX,
        ..refusal(11, 0)
    };
    assert_eq!(endless.to_siin(&bytes), Err(no_room));
}

/// Of all kinds of files: it is refused where the text is, and else fits the text and the index.
#[test]
fn forecasts_of_random_files() {
    let (mut answered, mut refused) = (0, 0);
    for number in 0..3000 {
        let bytes = generate::file(9, number);
        let text = to_siin(&bytes);
        let foretold = match forecast(&bytes) {
            Ok(foretold) => foretold,
            Err(refusal) => {
                assert_eq!(text, Err(refusal));
                refused += 1;
                continue;
            }
        };
        let file = BsiiFile::parse(&bytes).unwrap();
        assert_eq!(text.as_ref().unwrap().len() as u64, foretold.text_len);
        assert_eq!(file.index().unwrap().len() as u64, foretold.index_len);
        assert_eq!(3 * file.prototype_count(), foretold.table_words);
        assert!(foretold.steps <= bytes.len() as u64);
        assert_eq!(file.forecast(), Ok(foretold));
        assert_eq!(foretold.to_siin(&bytes), text);
        answered += 1;
    }
    assert!(answered > 1000 && refused > 1000, "{answered} {refused}");
}

#[test]
fn each_refusal_has_a_sentence() {
    let numbers = (1..=15).filter(|number| *number != 2);
    let sentences: Vec<_> = numbers.map(|n| refusal(n, 0).sentence()).collect();
    for (at, sentence) in sentences.iter().enumerate() {
        assert!(!sentences[..at].contains(sentence));
    }
    for none in [0, 2, 16] {
        assert!(!sentences.contains(&refusal(none, 0).sentence()));
    }
    let shown = [cut(81, 1), cut(53, 7), refusal(15, 12)].map(|refusal| refusal.to_string());
    assert_eq!(shown[0], "refused 3 at 81: the input ends 1 byte early");
    assert_eq!(shown[1], "refused 3 at 53: the input ends 7 bytes early");
    assert_eq!(shown[2], "refused 15 at 12: not a record of this format");
    let shown = "refused 4 at 44: a string is not UTF-8";
    assert_eq!(refusal(4, 44).to_string(), shown);
    // `main` prints what it returns by Debug, through a box too
    let boxed: Box<dyn Error> = refusal(4, 44).into();
    assert_eq!(format!("{boxed:?}"), shown);
}

#[test]
fn values_are_shown() {
    let shown = |value: DataValue| value.to_string();
    assert_eq!(shown(DataValue::String("a \"b\"")), "a \"b\"");
    assert_eq!(shown(DataValue::EncodedString("a1".into())), "a1");
    assert_eq!(shown(DataValue::Float(-0.0)), "-0");
    assert_eq!(shown(DataValue::FloatVec2((0.1, f32::INFINITY))), "0.1 inf");
    assert_eq!(shown(DataValue::FloatVec3((1.0, 2.5, -3.0))), "1 2.5 -3");
    assert_eq!(shown(DataValue::Int32Vec3((1, -2, 3))), "1 -2 3");
    let four = DataValue::FloatVec4((1.0, 2.0, 3.0, f32::NAN));
    assert_eq!(shown(four), "1 2 3 NaN");
    let seven = (1.0, 2.0, 3.0, 4.0, 5.0, 6.0, -0.5);
    assert_eq!(shown(DataValue::FloatVec7(seven)), "1 2 3 4 5 6 -0.5");
    let placement = (1.0, 2.0, 3.0, 4.0, 5.0, 6.0, 7.0, 8.5);
    assert_eq!(shown(DataValue::FloatVec8(placement)), "1 2 3 4 5 6 7 8.5");
    assert_eq!(shown(DataValue::Int32(-1)), "-1");
    assert_eq!(shown(DataValue::UInt32(u32::MAX)), "4294967295");
    assert_eq!(shown(DataValue::UInt16(7)), "7");
    assert_eq!(shown(DataValue::Int64(i64::MIN)), "-9223372036854775808");
    assert_eq!(shown(DataValue::UInt64(1)), "1");
    assert_eq!(shown(DataValue::Bool(true)), "true");
    assert_eq!(shown(DataValue::Enum(5)), "5");
    assert_eq!(shown(DataValue::Id(Id::Nameless(0))), "_nameless.0");
}

#[test]
fn plain_numbers_and_strings() {
    assert_eq!(u16::try_from(DataValue::UInt16(7)), Ok(7));
    for value in [
        DataValue::UInt16(7),
        DataValue::UInt32(7),
        DataValue::Enum(7),
    ] {
        assert_eq!(u32::try_from(value.clone()), Ok(7));
        assert_eq!(u64::try_from(value.clone()), Ok(7));
        assert_eq!(i64::try_from(value), Ok(7));
    }
    assert_eq!(u32::try_from(DataValue::UInt32(u32::MAX)), Ok(u32::MAX));
    assert_eq!(u64::try_from(DataValue::UInt64(u64::MAX)), Ok(u64::MAX));
    assert_eq!(i32::try_from(DataValue::UInt16(7)), Ok(7));
    assert_eq!(i32::try_from(DataValue::Int32(-7)), Ok(-7));
    assert_eq!(i64::try_from(DataValue::Int32(-7)), Ok(-7));
    assert_eq!(i64::try_from(DataValue::Int64(i64::MIN)), Ok(i64::MIN));
    assert_eq!(f32::try_from(DataValue::Float(0.5)), Ok(0.5));
    assert_eq!(f64::try_from(DataValue::Float(0.5)), Ok(0.5));
    assert_eq!(bool::try_from(DataValue::Bool(true)), Ok(true));
    let text: Result<&str, _> = DataValue::String("a").try_into();
    assert_eq!(text, Ok("a"));
    assert_eq!(String::try_from(DataValue::String("a")), Ok("a".into()));
    let word = DataValue::EncodedString("a1".into());
    assert_eq!(String::try_from(word.clone()), Ok("a1".into()));

    // nothing is cut, and nothing is read as another kind
    let other = |wanted, found| Some(OtherKind { wanted, found });
    assert_eq!(
        u16::try_from(DataValue::UInt32(7)).err(),
        other("u16", "u32")
    );
    assert_eq!(
        u32::try_from(DataValue::UInt64(7)).err(),
        other("u32", "u64")
    );
    assert_eq!(
        u32::try_from(DataValue::Int32(7)).err(),
        other("u32", "i32")
    );
    assert_eq!(
        i32::try_from(DataValue::UInt32(7)).err(),
        other("i32", "u32")
    );
    assert_eq!(
        i64::try_from(DataValue::UInt64(7)).err(),
        other("i64", "u64")
    );
    assert_eq!(
        f32::try_from(DataValue::UInt16(7)).err(),
        other("f32", "u16")
    );
    assert_eq!(
        bool::try_from(DataValue::UInt16(1)).err(),
        other("bool", "u16")
    );
    let text: Result<&str, _> = word.try_into();
    assert_eq!(text.err(), other("&str", "word"));
    let id = String::try_from(DataValue::Id(Id::Nameless(0)));
    let shown = "the value is of kind id, which String does not hold";
    assert_eq!(id.as_ref().unwrap_err().to_string(), shown);
    assert_eq!(format!("{:?}", id.unwrap_err()), shown);
}

/// Every type of the raw calls has a name in this crate.
#[test]
fn the_raw_calls() {
    use sii_decode::library::{
        self, kind, Block, Checked, Element, Field, Length, Number, Prototype, Reading, Text,
    };
    let (bytes, mut table, mut out) = (worked_bytes(), [7; 3], [9; 74]);
    let reading: Reading = library::read(&bytes, &mut table);
    assert_eq!((reading.number, reading.next, table), (0, 82, [0; 3]));
    let prototype: Prototype = library::get_prototype(&bytes, &mut table, 7);
    assert_eq!((prototype.name_offset, prototype.fields), (21, 2));
    let block: Block = library::block_at(&bytes, &mut table, 0);
    assert_eq!((block.prototype_id, block.id_offset), (7, 52));
    let number: Number = library::blocks_by_prototype_name(&bytes, &mut table, b"trip", 1);
    assert_eq!(number.number, 13);
    let field: Field = library::field_of(&bytes, &mut table, 0, b"km");
    assert_eq!((field.type_id, field.part_offset), (0x27, 61));
    let element: Element = library::element_of(2, 0x27, &bytes[61..65], 0);
    assert_eq!((element.kind, element.value), (kind::U32, 300));
    let text: Text = library::to_siin(&bytes, &mut table, &mut out);
    assert_eq!((text.number, text.length, text.steps), (0, 73, 5));
    assert_eq!((&out[..73], out[73]), (WORKED.as_bytes(), 9));
    let foretold: library::Forecast = library::forecast(&bytes, &mut table);
    assert_eq!((foretold.number, foretold.text_len), (0, 73));

    let mut short = vec![9; 5];
    let text = library::to_siin_within(&bytes, &mut table, &mut short);
    assert_eq!((text.number, text.length, short.len()), (11, 73, 0));
    let mut long = Vec::with_capacity(100);
    let text = library::to_siin_within(&bytes, &mut table, &mut long);
    assert_eq!((text.number, text.length), (0, 73));
    assert_eq!(long, WORKED.as_bytes());

    let (mut index, record) = ([9; 13], [48, 0, 0, 29, 0, 0, 8, 0, 0, 2, 0, 0]);
    let written: Length = library::write_index(&bytes, &mut table, &mut index);
    assert_eq!((written.number, written.length), (0, 12));
    assert_eq!((&index[..12], index[12], table), (&record[..], 9, [0; 3]));
    let checked: Checked = library::check_index(&bytes, &mut table, &index);
    assert_eq!((checked.number, checked.offset), (14, 12));
    let checked = library::check_index(&bytes, &mut table, &record);
    assert_eq!((checked.number, checked.offset), (0, 0));
    let field: Field = library::field_by_index(&bytes, &record, 0, b"km");
    assert_eq!((field.type_id, field.part_offset), (0x27, 61));
    let once: Number = library::defines_once(&bytes, &mut table);
    assert_eq!((once.number, once.value), (0, 1));
    let mut within = vec![9; 5];
    let written = library::write_index_within(&bytes, &mut table, &mut within);
    assert_eq!(
        (written.number, written.length, within.len()),
        (11, 12, 0),
        "five bytes of room, as vec! reserves them"
    );
    let mut within = Vec::with_capacity(20);
    let written = library::write_index_within(&bytes, &mut table, &mut within);
    assert_eq!((written.number, written.length), (0, 12));
    assert_eq!(within, record);
}

#[test]
fn ids_are_shown_as_in_the_text() {
    let nameless = |number| Id::Nameless(number).to_string();
    assert_eq!(nameless(0), "_nameless.0");
    assert_eq!(nameless(0x10000), "_nameless.1.0000");
    assert_eq!(nameless(0x1_2b40_f8a0), "_nameless.1.2b40.f8a0");
    assert_eq!(nameless(u64::MAX), "_nameless.ffff.ffff.ffff.ffff");
    let named = |words: &[&str]| Id::Named(words.iter().map(|w| w.to_string()).collect());
    assert_eq!(named(&[]).to_string(), "null");
    assert_eq!(named(&["a1", "", "b"]).to_string(), "a1..b");
}

/// The walk over the elements gives what the element call gives for each index.
fn walk_is_the_call(field: DataField) {
    let walked: Vec<_> = field.elements().collect();
    for (index, value) in walked.iter().enumerate() {
        assert_eq!(value.kind_name(), field.kind_name());
        // a NaN is equal to nothing, so the shown forms are compared
        let called = field.element(index as u64).unwrap();
        assert_eq!(format!("{value:?}"), format!("{called:?}"));
    }
    let behind = field.element(walked.len() as u64);
    assert_eq!(behind, Err(refusal(13, 0)));
    assert!(field.is_array() || walked.len() == 1);
}

#[test]
fn elements_of_random_values() {
    let mut random = Random::new(1, 1);
    let (mut whole, mut longest) = (0, 0);
    for _ in 0..20_000 {
        let (version, type_id, bytes) = generate::element(&mut random);
        let field = DataField {
            version,
            type_id,
            part: &bytes,
        };
        match field.element(u64::MAX) {
            Err(Refusal { number: 13, .. }) => {
                whole += 1;
                longest = longest.max(field.elements().count());
                walk_is_the_call(field);
            }
            other => assert!(other.is_err()),
        }
    }
    assert!(whole > 5000 && longest > 2, "{whole} {longest}");
}

#[test]
fn every_type_of_the_sample() {
    let bytes = sample("garage.bsii");
    let file = BsiiFile::parse(&bytes).unwrap();
    let names = [
        "label",
        "remarks",
        "city",
        "tags",
        "rating",
        "prices",
        "gate",
        "camera",
        "sector",
        "sectors",
        "turns",
        "spot",
        "spots",
        "balance",
        "ledger",
        "slots",
        "loads",
        "level",
        "days",
        "edition",
        "profit",
        "history",
        "serial",
        "keys",
        "open",
        "lights",
        "state",
        "owner",
        "trucks",
        "depot",
        "drivers",
        "parent",
        "waypoints",
        "rotation",
    ];
    let mut types: Vec<_> = names
        .iter()
        .map(|name| {
            let field = file.field(0, name).unwrap();
            walk_is_the_call(field);
            assert_ne!(field.kind_name(), "unlisted");
            field.type_id
        })
        .collect();
    types.sort();
    assert_eq!(types, generate::LISTED);
}

#[test]
fn the_sample_of_version_1() {
    let bytes = sample("depot.bsii");
    let file = BsiiFile::parse(&bytes).unwrap();
    assert_eq!((file.version(), file.block_count()), (1, 1));
    for (name, type_id, count) in [("gate", 0x19, 1), ("bays", 0x1a, 2)] {
        let field = file.field(0, name).unwrap();
        let kind = (field.version, field.type_id, field.kind_name());
        assert_eq!(kind, (1, type_id, "seven-f32"));
        assert_eq!(field.elements().count(), count);
        walk_is_the_call(field);
    }
    let slots = file.field(0, "slots").unwrap().element(0);
    assert_eq!(slots, Ok(DataValue::UInt32(2)));
    assert_eq!(file.to_siin().unwrap(), sample("depot.sii"));
}
