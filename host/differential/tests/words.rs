//! Encoded words: the library, the model and the Rust show each word as document 01 spells it, digit by digit, or refuse it. Libraries that take two digits at a time by a table, and do something
//! wrong, are found out.
#![cfg(feature = "linked")]

use calls::{kind, Answer, Call, Element, Implementation, Lent, Text};
use differential::linked::Linked;
use generate::bytes::{array, named, one_value};
use generate::Random;
use model::Model;
use oracle::Fault;
use std::collections::HashSet;
use std::fmt::Write;
use texts::store;

mod texts;

const CHARACTERS: &[u8; 37] = b"0123456789abcdefghijklmnopqrstuvwxyz_";
const DROPPED: u64 = 1 << 63;
/// The words of one file.
const MANY: usize = 65_536;
/// Where the value of `one_value` stands.
const VALUE: usize = 40;

/// A text, or number, offset and lacking bytes of a refusal.
type Shown = Result<String, (u32, u64, u64)>;

/// The characters of a word, or None for a fault. In the words of 01: bit 63 dropped, digits to base 38
/// from the lowest up while the rest is above zero. Digit d from 1 to 37 is character d. Digit 0 is a
/// fault. Zero is the empty string.
fn spelled(word: u64) -> Option<String> {
    let mut rest = word % DROPPED;
    let mut text = String::new();
    while rest > 0 {
        let digit = (rest % 38) as usize;
        text.push(CHARACTERS[digit.checked_sub(1)?].into());
        rest /= 38;
    }
    Some(text)
}

/// The element call's answer to a word that is accepted or not.
fn element(word: u64, is_accepted: bool) -> Element {
    match is_accepted {
        true => Element {
            kind: kind::WORD,
            value: word % DROPPED,
            ..Element::default()
        },
        false => Element::refused(5, 0),
    }
}

/// The first of the words to which the element call answers otherwise.
fn other_element(side: &mut dyn Implementation, words: &[u64]) -> Option<u64> {
    let mut words = words.iter().copied();
    words.find(|word| {
        let call = Call::ElementOf {
            version: 2,
            type_id: 0x03,
            part: &word.to_le_bytes(),
            index: 0,
        };
        let found = side.answer(call, Lent::default()).known().element();
        found != element(*word, spelled(*word).is_some())
    })
}

/// An encoded word (0x03), an array of them (0x04), or an id that they name (0x39).
fn value(type_id: u32, words: &[u64]) -> Vec<u8> {
    let bytes: Vec<_> = words.iter().map(|word| word.to_le_bytes().into()).collect();
    match type_id {
        0x03 => bytes.concat(),
        0x04 => array(&bytes),
        _ => named(words),
    }
}

/// The text of a file of that value, if words are spelled so.
fn text(type_id: u32, words: &[u64], spelled: impl Fn(u64) -> Option<String>) -> Shown {
    let first = VALUE + value(type_id, &[]).len();
    let mut shown = Vec::new();
    for (place, word) in words.iter().enumerate() {
        let refusal = (5, (first + 8 * place) as u64, 0);
        shown.push(spelled(*word).ok_or(refusal)?);
    }
    let alone = |word: &str| if word.is_empty() { r#""""# } else { word }.to_string();
    let mut text = String::from("SiiNunit\n{\np : null {\n  f: ");
    text += &match type_id {
        0x03 => alone(&shown[0]),
        0x04 => words.len().to_string(),
        _ => shown.join("."),
    };
    if type_id == 0x04 {
        for (place, word) in shown.iter().enumerate() {
            write!(text, "\n  f[{place}]: {}", alone(word)).unwrap();
        }
    }
    Ok(text + "\n}\n}\n")
}

/// A file and what every side has to show.
struct Case {
    file: Vec<u8>,
    expected: Shown,
}

impl Case {
    fn new(type_id: u32, words: &[u64]) -> Case {
        Case {
            file: one_value(type_id, &value(type_id, words)),
            expected: text(type_id, words, spelled),
        }
    }

    fn by(&self, side: &mut dyn Implementation) -> Shown {
        let room = self.expected.as_ref().map_or(0, String::len);
        let (mut table, mut out) = ([7; 3], vec![7; room]);
        let lent = Lent {
            file: &self.file,
            table: &mut table,
            out: &mut out,
        };
        let answer = side.answer(Call::ToSiin, lent).known();
        match answer.fault() {
            (0, ..) => {
                out.truncate(answer.text().length as usize);
                Ok(String::from_utf8_lossy(&out).into_owned())
            }
            refusal => Err(refusal),
        }
    }

    /// The Rust gives no offset: it has the one that is expected.
    fn by_rust(&self) -> Shown {
        let text = oracle::parse(&self.file).and_then(|parsed| oracle::to_siin(&parsed));
        let (_, offset, lacking) = *self.expected.as_ref().err().unwrap_or(&(0, 0, 0));
        text.map_err(|fault| match fault {
            Fault::Number(number) => (number, offset, lacking),
            other => panic!("{other:?}"),
        })
    }

    /// The first line that is another one, or the refusals if there is no other line.
    fn difference(&self, found: Shown) -> Option<String> {
        if found == self.expected {
            return None;
        }
        let shown = [&found, &self.expected];
        let [found, expected] = shown.map(|shown| shown.as_deref().unwrap_or(""));
        let line = found.lines().zip(expected.lines()).find(|(a, b)| a != b);
        let refusals = shown.map(|shown| shown.as_ref().err());
        Some(format!("{line:?}, {refusals:?}"))
    }
}

fn sides() -> [(&'static str, Box<dyn Implementation>); 2] {
    [
        ("library", Box::new(Linked)),
        ("model", Box::<Model>::default()),
    ]
}

fn check_elements(words: &[u64]) {
    for (name, mut side) in sides() {
        assert_eq!(other_element(side.as_mut(), words), None, "{name}");
    }
}

fn check_text(type_id: u32, words: &[u64]) {
    let case = Case::new(type_id, words);
    let first = &words[..words.len().min(4)];
    let what = |name| format!("{name}, type {type_id:#x}, {first:?}");
    for (name, mut side) in sides() {
        let found = case.by(side.as_mut());
        assert_eq!(case.difference(found), None, "{}", what(name));
    }
    assert_eq!(case.difference(case.by_rust()), None, "{}", what("Rust"));
}

/// A word by all that shows it, alone and behind another one.
fn check_word(word: u64) {
    check_elements(&[word]);
    check_text(0x03, &[word]);
    check_text(0x04, &[39, word]);
    check_text(0x39, &[39, word]);
}

/// All words of up to so many digits, without bit 63 and with it.
fn words_of_up_to(digits: u32) -> Vec<u64> {
    let words = 0..38u64.pow(digits);
    words.flat_map(|word| [word, word | DROPPED]).collect()
}

/// Of the words of up to so many digits all that are accepted, in turns without bit 63 and with it.
fn accepted_of_up_to(digits: u32) -> Vec<u64> {
    let accepted = (0..38u64.pow(digits)).filter(|word| spelled(*word).is_some());
    let bit = [0, DROPPED].into_iter().cycle();
    accepted.zip(bit).map(|(word, bit)| word | bit).collect()
}

/// A word of so many digits, with a zero at that place, counted from the lowest.
fn drawn(random: &mut Random, digits: usize, zero: Option<usize>) -> u64 {
    let bit = random.number() & DROPPED;
    let digit = |place| match place {
        place if Some(place) == zero => 0,
        // With thirteen digits only such words are below 2^63.
        12 => 1,
        11 if digits == 13 => 0,
        10 if digits == 13 => 1 + random.below(24),
        _ => 1 + random.below(37),
    };
    let digits = (0..digits).rev().map(digit);
    digits.fold(0, |word, digit| 38 * word + digit as u64) | bit
}

#[test]
fn worked() {
    for (word, characters) in [
        (0, Some("")),
        (5, Some("4")),
        (37, Some("_")),
        (38, None),
        (76, None),
        (1444, None),
        (2888, None),
        (2889, None),
        (2927, Some("001")),
        (111_343, Some("2301")),
    ] {
        for word in [word, word | DROPPED] {
            assert_eq!(spelled(word).as_deref(), characters, "{word}");
            check_word(word);
        }
    }
}

/// Of powers of 38, and so of 1444, and of their multiples.
#[test]
fn neighbours() {
    let powers = (1..=12).map(|power| 38u64.pow(power));
    let multiples = powers.flat_map(|power| (1..=39).filter_map(move |n| power.checked_mul(n)));
    let words: HashSet<u64> = multiples
        .flat_map(|word| [word - 1, word, word + 1, word + 39])
        .collect();
    let accepted = words.iter().filter(|word| spelled(**word).is_some());
    let accepted = accepted.count();
    assert!(accepted > 400 && words.len() - accepted > 400);
    for word in words {
        check_word(word);
        check_word(word ^ DROPPED);
    }
}

#[test]
fn every_word_of_up_to_four_digits() {
    check_elements(&words_of_up_to(4));
    let accepted = accepted_of_up_to(4);
    assert_eq!(accepted.len(), (0..=4).map(|n| 37usize.pow(n)).sum());
    for words in accepted.chunks(MANY) {
        check_text(0x04, words);
    }
}

#[test]
fn accepted_words_of_every_length() {
    let mut random = Random::new(4, 0);
    let lengths = (0..=12).cycle().take(MANY);
    let words: Vec<u64> = lengths.map(|n| drawn(&mut random, n, None)).collect();
    check_elements(&words);
    check_text(0x04, &words);
    for id in words.chunks(7) {
        check_text(0x39, &id[..random.below(id.len()) + 1]);
    }
}

/// In each place below the highest digit, in words of every length.
#[test]
fn a_zero_digit() {
    const EACH: usize = 1500;
    let mut random = Random::new(4, 1);
    for digits in 2..=13 {
        for zero in (0..digits - 1).cycle().take(EACH * (digits - 1)) {
            let word = drawn(&mut random, digits, Some(zero));
            assert_eq!((word % DROPPED).ilog(38) as usize + 1, digits);
            assert!(spelled(word).is_none());
            check_elements(&[word]);
            let front = random.below(13);
            let front = drawn(&mut random, front, None);
            match random.below(3) {
                0 => check_text(0x03, &[word]),
                1 => check_text(0x04, &[front, word, front]),
                _ => check_text(0x39, &[front, word]),
            }
        }
    }
}

/// What a library with a table of two digits does wrong.
#[derive(Clone, Copy, Debug)]
enum Wrong {
    Nothing,
    /// A zero above the highest digit is a fault.
    LastZero,
    /// A zero between two digits is none.
    MiddleZero,
    /// The two characters change places.
    Order,
    /// This entry has another character for the upper digit.
    Upper(u64),
    /// This entry has a character for the lower digit, which is zero.
    Lower(u64),
    /// Bit 63 is not dropped.
    Bit63,
}

struct ByTable(Wrong);

impl ByTable {
    /// The characters of the lower and the upper digit, None for zero.
    fn entry(&self, number: u64) -> [Option<char>; 2] {
        let character = |digit: u64| Some(CHARACTERS[digit.checked_sub(1)? as usize].into());
        let [lower, upper] = [number % 38, number / 38].map(character);
        match self.0 {
            Wrong::Order if lower.and(upper).is_some() => [upper, lower],
            Wrong::Upper(wrong) if wrong == number => [lower, Some('a')],
            Wrong::Lower(wrong) if wrong == number => [Some('a'), upper],
            _ => [lower, upper],
        }
    }

    fn spelled(&self, word: u64) -> Option<String> {
        let mut rest = match self.0 {
            Wrong::Bit63 => word,
            _ => word % DROPPED,
        };
        let mut text = String::new();
        while rest > 0 {
            let [lower, upper] = self.entry(rest % 1444);
            rest /= 1444;
            text.push(lower?);
            let is_fault = match self.0 {
                Wrong::LastZero => true,
                Wrong::MiddleZero => false,
                _ => rest > 0,
            };
            match upper {
                Some(upper) => text.push(upper),
                None if is_fault => return None,
                None => {}
            }
        }
        Some(text)
    }

    /// The text of a file of an array of words.
    fn text(&self, file: &[u8], out: &mut [u8]) -> Text {
        let words = file[VALUE + 4..file.len() - 5].chunks_exact(8);
        let words: Vec<u64> = words
            .map(|word| u64::from_le_bytes(word.try_into().unwrap()))
            .collect();
        match text(0x04, &words, |word| self.spelled(word)) {
            // A prototype, a block, its value and the end.
            Ok(text) => store(text.as_bytes(), 4, out),
            Err((number, offset, _)) => Text::refused(number, offset),
        }
    }
}

impl Implementation for ByTable {
    fn answer(&mut self, call: Call<'_>, lent: Lent<'_>) -> Answer {
        match call {
            Call::ElementOf { part, .. } => {
                let word = u64::from_le_bytes(part.try_into().unwrap());
                Answer::Element(element(word, self.spelled(word).is_some()))
            }
            Call::ToSiin => Answer::Text(self.text(lent.file, lent.out)),
            other => panic!("{other:?} is not asked"),
        }
    }
}

/// By the elements of all words, or by the text of all accepted ones; three digits are enough.
#[test]
fn wrong_libraries_are_found() {
    let words = words_of_up_to(3);
    let case = Case::new(0x04, &accepted_of_up_to(3));
    for (wrong, by_elements, by_text) in [
        (Wrong::Nothing, false, false),
        (Wrong::LastZero, true, true),
        (Wrong::MiddleZero, true, false),
        (Wrong::Order, false, true),
        (Wrong::Upper(39), false, true),
        (Wrong::Upper(1443), false, true),
        (Wrong::Lower(38), true, false),
        (Wrong::Lower(1406), true, false),
        (Wrong::Bit63, true, true),
    ] {
        let mut library = ByTable(wrong);
        let found = other_element(&mut library, &words);
        assert_eq!(found.is_some(), by_elements, "{wrong:?}: {found:?}");
        let found = case.difference(case.by(&mut library));
        assert_eq!(found.is_some(), by_text, "{wrong:?}: {found:?}");
    }
}
