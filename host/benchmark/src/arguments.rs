//! The command line.

use crate::inputs;
use crate::one_call::{Asked, Call};
use std::ffi::OsString;
use std::path::PathBuf;
use std::str::FromStr;

pub const USAGE: &str = "\
Usage: benchmark [--rounds N] [--only INPUT]... [--markdown] [--plot FILE]
       benchmark --instructions [--only INPUT]... [--markdown]
       benchmark --memory SIDE INPUT
       benchmark --convert SIDE FILE
       benchmark --one-call SIDE CALL FILE WORDS ROOM BLOCK NAME
       benchmark --write INPUT

Times the library and the unchanged Rust on the same inputs, in one process and
in turns: reading with the Rust's parse, the text call with the Rust's parse and
to_siin. Then, but where the table is larger: the calls about an index beside
the reading and a look-up by one beside the field call; the forecast beside the
text call, with room and without; and each side converts each input in a process
of its own, for the peak of its memory. On the saves, whole processes are timed
too: the command, which has to stand beside this program (cargo build -p
command), a program over the crate, and one over the Rust. The report goes to
standard output.

With --instructions nothing is timed: the instructions of one call are counted,
each call in a process of its own under callgrind, for which valgrind has to be
installed; that takes no root. The calls are reading and text as above; field,
the field call for the first field of the block in the middle, and for the Rust
its parse and its look-up of the same; and without the Rust, which has none, the
calls about an index, the forecast, and measuring, the text call without room,
which ends behind its first walk. Without --only it takes some minutes, for
save-1, save-7 and the hostile files but enums.

  --instructions       count instructions
  --rounds N           so many rounds, from 1 up; without it 9
  --only INPUT         only this input; may be given again
  --markdown           the report as Markdown
  --plot FILE          write a plot of time against size as SVG
  --memory SIDE INPUT  print the peak in bytes of one side, rust or ours;
                       if INPUT is -, the file is read from standard input
  --convert SIDE FILE  convert FILE to standard output, as a process that is timed
  --one-call ...       do one call, as a process whose instructions are counted:
                       reading, text, field, write, check, once, look-up,
                       forecast or measuring, with a table of so many words,
                       room for so many bytes of text, and the block and the
                       field's name for the field call
  --write INPUT        write the input's bytes to standard output
  -h, --help           print this and exit

INPUT is save-1 to save-16, a save of so many megabytes, or a hostile file:
prototypes, falling, names, long-text, arrays, redefinition, redefinitions,
enums, enum-lists, a save with lists of 40 pairs, bare-string, a string of a
megabyte, words, a save of encoded words and named ids alone; or one of 16 MiB
that needs a table of more than 4,096 rows, and gets three words for each whole
17 bytes: rows-ORDER, prototypes alone, or blocks-ORDER, where the ORDER of the
ids is rising, falling, random, low-equal, high-equal or reversed. Only with
--write or --instructions: triple, triples, quadruple or quadruples, a save of
one vector type (0x09, 0x0a, 0x17, 0x18), two of which the Rust does not read;
placement or placements, one of placements (0x19, 0x1a), and placement-1 or
placements-1, the same in version 1, which the Rust does not read.

Exit status: 0 if all was measured, 1 if the two texts differ, valgrind is
missing or something else failed, 2 for bad usage.
";

#[derive(Clone, Copy, Debug, PartialEq, Eq)]
pub enum Side {
    Ours,
    Rust,
}

impl Side {
    pub fn name(self) -> &'static str {
        match self {
            Side::Ours => "ours",
            Side::Rust => "rust",
        }
    }
}

#[derive(Debug, PartialEq, Eq)]
pub struct Run {
    pub rounds: usize,
    /// All of the report if there are none.
    pub only: Vec<String>,
    pub markdown: bool,
    pub plot: Option<PathBuf>,
}

#[derive(Debug, PartialEq, Eq)]
pub enum Arguments {
    Help,
    Run(Run),
    Memory(Side, String),
    Convert(Side, PathBuf),
    OneCall(Side, Call, PathBuf, Asked),
    /// The inputs, the usual ones if there are none, and whether it is Markdown.
    Instructions(Vec<String>, bool),
    Write(String),
}

/// The words behind the program's name, or what is wrong with them.
pub fn parse(words: Vec<OsString>) -> Result<Arguments, String> {
    let mut run = Run {
        rounds: 9,
        only: Vec::new(),
        markdown: false,
        plot: None,
    };
    let mut only = Vec::new();
    let mut instructions = false;
    // One that times alone have.
    let mut of_times = None;
    let alone = words.len();
    let mut words = words.into_iter();
    while let Some(word) = words.next() {
        let name = word.to_string_lossy().into_owned();
        let mut next = |what: &str| words.next().ok_or(format!("{name} wants {what}"));
        match name.as_str() {
            "-h" | "--help" => return Ok(Arguments::Help),
            "--memory" | "--convert" | "--one-call" | "--write" => {
                let (found, words) = match name.as_str() {
                    "--memory" => {
                        let side = side(&next("SIDE and INPUT")?)?;
                        let name =
                            input(next("an INPUT")?, |name| name == "-" || is_measured(name))?;
                        (Arguments::Memory(side, name), 3)
                    }
                    "--convert" => {
                        let side = side(&next("SIDE and FILE")?)?;
                        (Arguments::Convert(side, next("a FILE")?.into()), 3)
                    }
                    "--one-call" => {
                        let side = side(&next("SIDE and more")?)?;
                        let call = call(&next("a CALL")?)?;
                        let path = next("a FILE")?.into();
                        let asked = Asked {
                            words: number(&next("WORDS")?)?,
                            room: number(&next("ROOM")?)?,
                            block: number(&next("a BLOCK")?)?,
                            name: text(next("a NAME")?)?,
                        };
                        (Arguments::OneCall(side, call, path, asked), 8)
                    }
                    _ => (Arguments::Write(input(next("an INPUT")?, is_written)?), 2),
                };
                if alone != words {
                    return Err(format!("{name} goes with nothing else"));
                }
                return Ok(found);
            }
            "--instructions" => instructions = true,
            "--markdown" => run.markdown = true,
            "--rounds" => run.rounds = rounds(&next("a number")?)?,
            "--only" => only.push(next("an INPUT")?),
            "--plot" => run.plot = Some(next("a FILE")?.into()),
            _ => return Err(format!("what is {name}?")),
        }
        if matches!(name.as_str(), "--rounds" | "--plot") {
            of_times = Some(name);
        }
    }
    let is_one = if instructions {
        is_written
    } else {
        is_measured
    };
    for word in only {
        run.only.push(input(word, is_one)?);
    }
    match (instructions, of_times) {
        (true, Some(name)) => Err(format!("{name} does not go with --instructions")),
        (true, None) => Ok(Arguments::Instructions(run.only, run.markdown)),
        (false, _) => Ok(Arguments::Run(run)),
    }
}

fn number<T: FromStr>(word: &OsString) -> Result<T, String> {
    let text = word.to_string_lossy();
    text.parse().map_err(|_| format!("{text} is no number"))
}

fn text(word: OsString) -> Result<String, String> {
    let text = word.into_string();
    text.map_err(|word| format!("{} is no text", word.to_string_lossy()))
}

fn call(word: &OsString) -> Result<Call, String> {
    let text = word.to_string_lossy();
    Call::by_name(&text).ok_or(format!("{text} is no call"))
}

fn rounds(word: &OsString) -> Result<usize, String> {
    let text = word.to_string_lossy();
    let number = text.parse().ok().filter(|number| *number > 0);
    number.ok_or(format!("{text} is no number of rounds"))
}

fn side(word: &OsString) -> Result<Side, String> {
    let text = word.to_string_lossy();
    let sides = [Side::Ours, Side::Rust];
    let found = sides.into_iter().find(|side| side.name() == text);
    found.ok_or(format!("{text} is no side: ours or rust"))
}

fn input(word: OsString, is_one: impl Fn(&str) -> bool) -> Result<String, String> {
    let name = word.to_string_lossy().into_owned();
    match is_one(&name) {
        true => Ok(name),
        false => Err(format!("{name} is no input")),
    }
}

fn is_measured(name: &str) -> bool {
    inputs::by_name(name).is_some()
}

fn is_written(name: &str) -> bool {
    inputs::to_write(name).is_some()
}

#[cfg(test)]
mod tests {
    use super::*;
    use crate::hostile::ALL;

    fn parsed(words: &[&str]) -> Result<Arguments, String> {
        parse(words.iter().map(OsString::from).collect())
    }

    fn run() -> Run {
        Run {
            rounds: 9,
            only: Vec::new(),
            markdown: false,
            plot: None,
        }
    }

    #[test]
    fn well_used() {
        assert_eq!(parsed(&[]), Ok(Arguments::Run(run())));
        assert_eq!(parsed(&["--markdown", "-h"]), Ok(Arguments::Help));
        let words = [
            "--rounds",
            "3",
            "--only",
            "save-7",
            "--only",
            "enums",
            "--markdown",
            "--plot",
            "a.svg",
        ];
        let all = Run {
            rounds: 3,
            only: vec!["save-7".into(), "enums".into()],
            markdown: true,
            plot: Some("a.svg".into()),
        };
        assert_eq!(parsed(&words), Ok(Arguments::Run(all)));
        let memory = |side, input: &str| Ok(Arguments::Memory(side, input.into()));
        assert_eq!(
            parsed(&["--memory", "ours", "names"]),
            memory(Side::Ours, "names")
        );
        assert_eq!(parsed(&["--memory", "rust", "-"]), memory(Side::Rust, "-"));
        assert_eq!(
            parsed(&["--convert", "ours", "a.bsii"]),
            Ok(Arguments::Convert(Side::Ours, "a.bsii".into()))
        );
        let asked = Asked {
            words: 12,
            room: 99,
            block: 3,
            name: "km".into(),
        };
        let words = [
            "--one-call",
            "rust",
            "field",
            "a.bsii",
            "12",
            "99",
            "3",
            "km",
        ];
        assert_eq!(
            parsed(&words),
            Ok(Arguments::OneCall(
                Side::Rust,
                Call::Field,
                "a.bsii".into(),
                asked
            ))
        );
        assert_eq!(
            parsed(&["--instructions"]),
            Ok(Arguments::Instructions(Vec::new(), false))
        );
        let words = ["--only", "triples", "--markdown", "--instructions"];
        assert_eq!(
            parsed(&words),
            Ok(Arguments::Instructions(vec!["triples".into()], true))
        );
        assert_eq!(
            parsed(&["--write", "save-1"]),
            Ok(Arguments::Write("save-1".into()))
        );
    }

    #[test]
    fn badly_used() {
        let bad: [&[&str]; 26] = [
            &["save-7"],
            &["--what"],
            &["--rounds"],
            &["--rounds", "0"],
            &["--rounds", "-1"],
            &["--rounds", "x"],
            &["--only", "save-17"],
            &["--only", "-"],
            &["--plot"],
            &["--memory", "ours"],
            &["--memory", "theirs", "save-1"],
            &["--memory", "ours", "save-1", "--markdown"],
            &["--convert", "ours"],
            &["--convert", "theirs", "a.bsii"],
            &["--convert", "ours", "a.bsii", "b.bsii"],
            &["--write", "-"],
            &["--only", "triples"],
            &["--instructions", "--only", "save-17"],
            &["--instructions", "--rounds", "3"],
            &["--plot", "a.svg", "--instructions"],
            &["--instructions", "--write", "save-1"],
            &["--one-call", "ours", "text", "a.bsii", "12", "99", "3"],
            &["--one-call", "ours", "read", "a.bsii", "12", "99", "3", ""],
            &["--one-call", "ours", "text", "a.bsii", "-1", "99", "3", ""],
            &[
                "--one-call",
                "ours",
                "text",
                "a.bsii",
                "12",
                "9",
                "3",
                "",
                "a",
            ],
            &["--markdown", "--write", "save-1"],
        ];
        for words in bad {
            assert!(parsed(words).is_err(), "{words:?}");
        }
    }

    #[test]
    fn the_usage_says_what_instructions_are_counted_on() {
        let hostile = ALL.into_iter().map(|(name, ..)| name);
        let counted: Vec<&str> = ["save-1", "save-7"]
            .into_iter()
            .chain(hostile.filter(|name| *name != "enums"))
            .collect();
        assert_eq!(inputs::COUNTED.to_vec(), counted);
    }

    #[test]
    fn the_usage_names_every_hostile_file() {
        let orders = generate::ids::ORDERS.map(|(name, ..)| name);
        for name in ALL.into_iter().map(|(name, ..)| name).chain(orders) {
            assert!(USAGE.contains(name), "{name}");
        }
    }
}
