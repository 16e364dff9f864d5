//! The command line.

use crate::{show, Failure};
use std::ffi::{OsStr, OsString};
use std::os::unix::ffi::{OsStrExt, OsStringExt};
use std::path::PathBuf;

pub const VERSION: &str = concat!("sii-decode ", env!("CARGO_PKG_VERSION"), "\n");

pub const HELP: &str = "\
Usage: sii-decode [-o FILE] SAVE
       sii-decode [-o FILE] info SAVE
       sii-decode [-o FILE] forecast SAVE
       sii-decode [-o FILE] prototypes SAVE
       sii-decode [-o FILE] prototype ID SAVE
       sii-decode [-o FILE] blocks [NAME] SAVE
       sii-decode [-o FILE] block N SAVE
       sii-decode [-o FILE] fields N SAVE
       sii-decode [-o FILE] field N NAME SAVE [--index INDEX]
       sii-decode [-o FILE] index SAVE
       sii-decode check INDEX SAVE
       sii-decode --into DIR SAVE...

Writes a BSII save as SiiNunit text, or answers a question about it.
SAVE is a file of at most 16777216 bytes; - is standard input.

  info             how many prototypes, blocks and bytes the save has
  forecast         what converting it takes: table, text, index and steps
  prototypes       each prototype of a block: id, name and number of fields
  prototype ID     the prototype with this id: its name and number of fields
  blocks           each block: its number, its prototype's name and its id
  blocks NAME      the numbers of all blocks whose prototype has this name
  block N          block N, from 0: its prototype and its id
  fields N         each field of block N: its name and its type
  field N NAME     the field NAME of block N: its type, and each element
  index            the save's index, of 12 bytes for each block, for --index
  check INDEX      whether this is the save's index

  -o, --output FILE   write to FILE, whole or not at all
  --index INDEX       find the field by this index, which is checked first
  --into DIR          write the text of each SAVE, as NAME.bsii, to DIR/NAME.sii
  -h, --help          print this and exit
  -V, --version       print the version and exit
  --                  behind it nothing is an option or a command

Exit status: 0 if all went well, 1 if a save, an index or the question was
refused, 2 for wrong usage and for failed reading or writing.
";

const QUESTIONS: [&str; 10] = [
    "info",
    "forecast",
    "prototypes",
    "prototype",
    "blocks",
    "block",
    "fields",
    "field",
    "index",
    "check",
];

pub enum Question {
    Info,
    Forecast,
    Prototypes,
    Prototype(u32),
    Blocks,
    BlocksNamed(Vec<u8>),
    Block(u64),
    Fields(u64),
    Field(u64, Vec<u8>),
    Index,
    Check,
}

pub struct Asked {
    /// None for the text.
    pub question: Option<Question>,
    /// Of the save, for `check` and `field`.
    pub index: Option<OsString>,
    pub save: OsString,
    /// None for standard output.
    pub output: Option<PathBuf>,
}

pub enum Arguments {
    Help,
    Version,
    Ask(Asked),
    /// The text of each save, into the folder.
    Into(PathBuf, Vec<OsString>),
}

pub fn usage<T>(message: String) -> Result<T, Failure> {
    Err(Failure::Usage(message))
}

/// Options with a value: where it goes, and what is missing without one.
#[derive(Clone, Copy, PartialEq, Eq)]
enum Wants {
    Output,
    Index,
    Into,
}

impl Wants {
    fn name(self) -> &'static str {
        match self {
            Wants::Output => "-o",
            Wants::Index => "--index",
            Wants::Into => "--into",
        }
    }

    fn value(self) -> &'static str {
        match self {
            Wants::Output => "a FILE",
            Wants::Index => "an INDEX",
            Wants::Into => "a DIR",
        }
    }
}

/// The option, and its value if that is in the same word.
fn option_of(word: &[u8]) -> Option<(Wants, Option<&[u8]>)> {
    let long = [
        (Wants::Output, &b"--output"[..]),
        (Wants::Index, b"--index"),
        (Wants::Into, b"--into"),
    ];
    for (option, name) in long {
        match word.strip_prefix(name) {
            Some([]) => return Some((option, None)),
            Some([b'=', value @ ..]) => return Some((option, Some(value))),
            _ => {}
        }
    }
    match word.strip_prefix(b"-o")? {
        [] => Some((Wants::Output, None)),
        value => Some((Wants::Output, Some(value))),
    }
}

/// The words of a command line by what they are.
#[derive(Default)]
struct Words {
    output: Option<OsString>,
    index: Option<OsString>,
    into: Option<OsString>,
    plain: Vec<OsString>,
    /// How many plain words stood in front of `--`, if there is one.
    before: Option<usize>,
}

impl Words {
    /// An option with a value, which is in the same word or the next one.
    fn option(
        &mut self,
        word: &OsStr,
        next: impl FnOnce() -> Option<OsString>,
    ) -> Result<(), Failure> {
        let Some((option, value)) = option_of(word.as_bytes()) else {
            return usage(format!("what is {}?", show::path(word)));
        };
        let value = match value {
            Some(value) => Some(OsStr::from_bytes(value).to_owned()),
            None => next(),
        };
        let place = match option {
            Wants::Output => &mut self.output,
            Wants::Index => &mut self.index,
            Wants::Into => &mut self.into,
        };
        let (name, wanted) = (option.name(), option.value());
        match value {
            None => usage(format!("{} wants {wanted}", show::path(word))),
            Some(value) if value.is_empty() => {
                usage(format!("{name} wants {wanted}, and its name is empty"))
            }
            Some(value) => match place.replace(value) {
                Some(_) => usage(format!("{name} is given twice")),
                None => Ok(()),
            },
        }
    }
}

pub fn parse(words: Vec<OsString>) -> Result<Arguments, Failure> {
    let mut rest = words.into_iter();
    let mut words = Words::default();
    while let Some(word) = rest.next() {
        let bytes = word.as_bytes();
        if words.before.is_some() || bytes == b"-" || !bytes.starts_with(b"-") {
            words.plain.push(word);
            continue;
        }
        match bytes {
            b"-h" | b"--help" => return Ok(Arguments::Help),
            b"-V" | b"--version" => return Ok(Arguments::Version),
            b"--" => words.before = Some(words.plain.len()),
            _ => words.option(&word, || rest.next())?,
        }
    }
    match (words.into, words.output) {
        (Some(_), Some(_)) => usage("-o and --into exclude each other".into()),
        (Some(_), None) if words.index.is_some() => index_alone(),
        (Some(folder), None) => saves(folder.into(), words.plain),
        (None, output) => {
            let commands = words.before.is_none_or(|before| before > 0);
            let mut asked = question(words.plain, commands)?;
            match asked.question {
                Some(Question::Check) if output.is_some() => {
                    return usage("check writes nothing, so there is no use for -o".into());
                }
                Some(Question::Field(..)) => asked.index = words.index,
                _ if words.index.is_some() => return index_alone(),
                _ => {}
            }
            if asked.save == "-" && asked.index.as_deref() == Some(OsStr::new("-")) {
                return usage("standard input cannot be both the save and its index".into());
            }
            asked.output = output.filter(|file| file != "-").map(PathBuf::from);
            Ok(Arguments::Ask(asked))
        }
    }
}

fn index_alone<T>() -> Result<T, Failure> {
    usage("--index goes with the question field".into())
}

/// Every plain word is a save.
fn saves(folder: PathBuf, saves: Vec<OsString>) -> Result<Arguments, Failure> {
    if saves.is_empty() {
        return usage("no SAVE is given".into());
    }
    if saves.iter().any(|save| save.is_empty()) {
        return usage("the name of a SAVE is empty".into());
    }
    if saves.iter().any(|save| save == "-") {
        return usage("standard input has no name, which --into would need".into());
    }
    Ok(Arguments::Into(folder, saves))
}

/// What is asked, and the save, which is the last word.
fn question(mut plain: Vec<OsString>, commands: bool) -> Result<Asked, Failure> {
    let first = plain.first().map_or(&b""[..], |word| word.as_bytes());
    let wanted: &[&str] = match first {
        _ if !commands => &["SAVE"],
        b"info" => &["info", "SAVE"],
        b"forecast" => &["forecast", "SAVE"],
        b"prototypes" => &["prototypes", "SAVE"],
        b"prototype" => &["prototype", "ID", "SAVE"],
        b"blocks" if plain.len() < 3 => &["blocks", "SAVE"],
        b"blocks" => &["blocks", "NAME", "SAVE"],
        b"block" => &["block", "N", "SAVE"],
        b"fields" => &["fields", "N", "SAVE"],
        b"field" => &["field", "N", "NAME", "SAVE"],
        b"index" => &["index", "SAVE"],
        b"check" => &["check", "INDEX", "SAVE"],
        _ => &["SAVE"],
    };
    if let Some(missing) = wanted.get(plain.len()) {
        return usage(match wanted[0] {
            "SAVE" => "no SAVE is given".into(),
            command => format!("{command} wants {missing}"),
        });
    }
    if let Some(extra) = plain.get(wanted.len()) {
        return match wanted[0] {
            "SAVE" if commands => no_question(&plain[0]),
            _ => usage(format!("{} is one word too many", show::path(extra))),
        };
    }
    let save = plain.pop().unwrap_or_default();
    if save.is_empty() {
        return usage("the name of the SAVE is empty".into());
    }
    let mut rest = plain.into_iter().skip(1);
    let mut next = || rest.next().unwrap_or_default();
    let mut index = None;
    let question = match wanted[0] {
        "info" => Some(Question::Info),
        "forecast" => Some(Question::Forecast),
        "prototypes" => Some(Question::Prototypes),
        "prototype" => Some(Question::Prototype(number(&next())?)),
        "blocks" if wanted.len() < 3 => Some(Question::Blocks),
        "blocks" => Some(Question::BlocksNamed(next().into_vec())),
        "block" => Some(Question::Block(number(&next())?)),
        "fields" => Some(Question::Fields(number(&next())?)),
        "field" => Some(Question::Field(number(&next())?, next().into_vec())),
        "index" => Some(Question::Index),
        "check" => {
            index = Some(next());
            Some(Question::Check)
        }
        _ => None,
    };
    if index.as_ref().is_some_and(|index| index.is_empty()) {
        return usage("the name of the INDEX is empty".into());
    }
    Ok(Asked {
        question,
        index,
        save,
        output: None,
    })
}

/// More words than a save, and the first is no question.
fn no_question<T>(word: &OsStr) -> Result<T, Failure> {
    let shown = show::path(word);
    usage(match near(word.as_bytes()) {
        Some(question) => format!("{shown} is no question; {question} is one"),
        None => format!(
            "{shown} is no question (they are {}), and several saves want --into DIR",
            QUESTIONS.join(", ")
        ),
    })
}

/// The question that the fewest changes of a letter make of the word, if two are enough and leave a
/// letter.
fn near(word: &[u8]) -> Option<&'static str> {
    let apart = QUESTIONS.map(|question| (distance(word, question.as_bytes()), question));
    let nearest = apart.into_iter().min_by_key(|(apart, _)| *apart)?;
    (nearest.0 <= 2 && nearest.0 < word.len()).then_some(nearest.1)
}

/// How many letters are put in, left out, replaced, or exchanged with the next one, at least.
fn distance(a: &[u8], b: &[u8]) -> usize {
    // Rows of the table of distances between the beginnings of both: this one and the last two.
    let mut rows = [vec![], vec![], (0..=b.len()).collect::<Vec<_>>()];
    for (i, &x) in a.iter().enumerate() {
        let mut row = vec![i + 1];
        for (j, &y) in b.iter().enumerate() {
            let replaced = rows[2][j] + usize::from(x != y);
            let mut least = replaced.min(rows[2][j + 1] + 1).min(row[j] + 1);
            if i > 0 && j > 0 && x == b[j - 1] && a[i - 1] == y {
                least = least.min(rows[1][j - 1] + 1);
            }
            row.push(least);
        }
        rows.rotate_left(1);
        rows[2] = row;
    }
    rows[2][b.len()]
}

/// Decimal digits and nothing else.
fn number<N: std::str::FromStr>(word: &OsStr) -> Result<N, Failure> {
    let digits = word.to_str().filter(|text| !text.starts_with('+'));
    match digits.and_then(|text| text.parse().ok()) {
        Some(number) => Ok(number),
        None => usage(format!(
            "{} is no number from 0 up, or too large",
            show::path(word)
        )),
    }
}

#[cfg(test)]
mod tests {
    use super::*;

    #[test]
    fn distances() {
        let cases = [
            ("field", "field", 0),
            ("fields", "field", 1),
            ("filed", "field", 1),
            ("block", "blocks", 1),
            ("", "info", 4),
            ("inof", "info", 1),
            ("prototypes", "prototype", 1),
            ("ab", "ba", 1),
            ("abc", "ca", 3),
        ];
        for (a, b, wanted) in cases {
            assert_eq!(distance(a.as_bytes(), b.as_bytes()), wanted, "{a} {b}");
            assert_eq!(distance(b.as_bytes(), a.as_bytes()), wanted, "{b} {a}");
        }
    }

    #[test]
    fn near_questions() {
        assert_eq!(near(b"filed"), Some("field"));
        assert_eq!(near(b"feilds"), Some("fields"));
        assert_eq!(near(b"Info"), Some("info"));
        assert_eq!(near(b"protoypes"), Some("prototypes"));
        assert_eq!(near(b"protoype"), Some("prototype"));
        assert_eq!(near(b"indexes"), Some("index"));
        assert_eq!(near(b"forcast"), Some("forecast"));
        assert_eq!(near(b"blcok"), Some("block"));
        assert_eq!(near(b"bloks"), Some("blocks"));
        assert_eq!(near(b"game.sii"), None);
        assert_eq!(near(b"a"), None);
        assert_eq!(near(b""), None);
    }
}
