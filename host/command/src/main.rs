//! The command `sii-decode`. `man/sii-decode.1` has all that it does.

#![deny(unsafe_code)]

mod arguments;
mod input;
mod list;
mod output;
mod progress;
mod refused;
mod several;
mod show;
#[allow(unsafe_code)]
mod system;
mod walk;

use arguments::{Arguments, Question, HELP, VERSION};
use input::Index;
use list::ById;
use sii_decode::{BsiiFile, Refusal};
use std::ffi::OsString;
use std::io::{self, Write};
use std::path::Path;
use std::process::ExitCode;

/// Why the command did not do what it was asked for.
pub enum Failure {
    /// The library refused the save or the question.
    Refused(Refusal),
    /// The command was not called as it wants to be.
    Usage(String),
    /// Reading or writing failed, of what is named.
    Io(String, io::Error),
}

impl From<Refusal> for Failure {
    fn from(refusal: Refusal) -> Self {
        Failure::Refused(refusal)
    }
}

impl Failure {
    fn status(&self) -> u8 {
        match self {
            Failure::Refused(_) => 1,
            Failure::Usage(_) | Failure::Io(..) => 2,
        }
    }

    /// Of a refusal there is none here, because that takes the save's bytes.
    fn message(&self) -> Vec<u8> {
        match self {
            Failure::Refused(_) => Vec::new(),
            Failure::Usage(what) => {
                format!("sii-decode: {what}\nTry 'sii-decode --help'.\n").into()
            }
            Failure::Io(what, error) => format!("sii-decode: {what}: {error}\n").into(),
        }
    }
}

fn main() -> ExitCode {
    system::ignore_file_size();
    let words: Vec<OsString> = std::env::args_os().skip(1).collect();
    let mut message = Vec::new();
    let status = run(words, &mut message).unwrap_or_else(|failure| {
        message.extend(failure.message());
        failure.status()
    });
    // If the message cannot be written, the exit status still says it.
    let _ = io::stderr().write_all(&message);
    ExitCode::from(status)
}

/// The exit status. A refusal is described in `message`.
fn run(words: Vec<OsString>, message: &mut Vec<u8>) -> Result<u8, Failure> {
    let asked = match arguments::parse(words)? {
        Arguments::Help => return said(HELP),
        Arguments::Version => return said(VERSION),
        Arguments::Into(folder, saves) => return several::convert(&folder, &saves),
        Arguments::Ask(asked) => asked,
    };
    let content = input::read(&asked.save)?;
    let index = match &asked.index {
        Some(path) => Some(input::read_index(path, &content)?),
        None => None,
    };
    let (question, output) = (asked.question.as_ref(), asked.output.as_deref());
    // Only the text may take the save's place.
    if let (Some(_), Some(output)) = (question, output) {
        output::not_what_was_read(output, &asked.save, "save")?;
    }
    if let (Some(index), Some(output)) = (&asked.index, output) {
        output::not_what_was_read(output, index, "index")?;
    }
    let done = match question {
        None => text(&content, output),
        Some(question) => answer(&content, index.as_ref(), question, output),
    };
    if let Err(Failure::Refused(refusal)) = &done {
        let name = input::name(&asked.save);
        *message = refused::message(&name, &content, index.as_ref(), question, refusal);
    }
    done.map(|()| 0)
}

fn said(text: &str) -> Result<u8, Failure> {
    output::write(None, |out| out.write_all(text.as_bytes())).map(|()| 0)
}

// What can be refused, or lacks memory, is asked before the output is opened.

fn text(content: &[u8], output: Option<&Path>) -> Result<(), Failure> {
    let text = sii_decode::to_siin(content)?;
    output::write(output, |out| out.write_all(&text))
}

fn answer(
    content: &[u8],
    index: Option<&Index>,
    question: &Question,
    output: Option<&Path>,
) -> Result<(), Failure> {
    let file = match (index, question) {
        (_, Question::Forecast) => return forecast(content, output),
        (Some(index), _) => BsiiFile::with_index(content, &index.bytes)?,
        // An index would cost more readings than it saves.
        (None, Question::Info | Question::Prototype(_) | Question::Field(..)) => {
            BsiiFile::without_index(content)?
        }
        (None, _) => BsiiFile::parse(content)?,
    };
    match question {
        Question::Info => output::write(output, |out| {
            writeln!(out, "prototypes {}", file.prototype_count())?;
            writeln!(out, "blocks {}", file.block_count())?;
            writeln!(out, "bytes {}", content.len())?;
            writeln!(out, "end {}", file.end())?;
            writeln!(out, "version {}", file.version())
        }),
        Question::Prototypes => {
            let mut by_id = by_id(&file)?;
            output::write(output, |out| list::prototypes(out, &file, &mut by_id))
        }
        Question::Prototype(id) => {
            let prototype = file.get_prototype(*id)?;
            output::write(output, |out| {
                writeln!(out, "prototype {}", prototype.id)?;
                writeln!(out, "name {}", show::Escaped(prototype.name.as_bytes()))?;
                writeln!(out, "fields {}", prototype.fields)
            })
        }
        Question::Blocks => {
            let mut by_id = by_id(&file)?;
            output::write(output, |out| list::blocks(out, &file, &mut by_id))
        }
        Question::BlocksNamed(name) => {
            let mut by_id = by_id(&file)?;
            file.nth_by_prototype_name(name, 0)?;
            output::write(output, |out| {
                list::blocks_named(out, &file, &mut by_id, name)
            })
        }
        Question::Block(number) => {
            let block = file.block(*number)?;
            let prototype = block.prototype(&file)?;
            output::write(output, |out| {
                writeln!(out, "block {}", block.number)?;
                writeln!(out, "prototype {}", block.prototype_id)?;
                writeln!(out, "name {}", show::Escaped(prototype.name.as_bytes()))?;
                writeln!(out, "id {}", block.id)
            })
        }
        Question::Fields(number) => {
            let mut fields = file.definitions(*number)?;
            output::write(output, |out| list::fields(out, &mut fields))
        }
        Question::Field(block, name) => {
            let field = file.field(*block, name)?;
            output::write(output, |out| show::field(out, field))
        }
        Question::Index => {
            let index = index_of(&file)?;
            output::write(output, |out| out.write_all(index))
        }
        // What is foretold was told above, and that the index fits was found out.
        Question::Forecast | Question::Check => Ok(()),
    }
}

/// The save is not opened for it.
fn forecast(content: &[u8], output: Option<&Path>) -> Result<(), Failure> {
    let foretold = sii_decode::forecast(content)?;
    output::write(output, |out| {
        writeln!(out, "table {}", foretold.table_words)?;
        writeln!(out, "text {}", foretold.text_len)?;
        writeln!(out, "index {}", foretold.index_len)?;
        writeln!(out, "largest {}", foretold.largest_block)?;
        writeln!(out, "steps {}", foretold.steps)
    })
}

fn index_of<'f>(file: &'f BsiiFile) -> Result<&'f [u8], Failure> {
    file.index().ok_or_else(|| no_memory("the index"))
}

/// Without an index the save would be read again for each line.
fn by_id<'a>(file: &BsiiFile<'a>) -> Result<ById<'a>, Failure> {
    index_of(file)?;
    ById::of(file).map_err(|_| no_memory("the list"))
}

fn no_memory(what: &str) -> Failure {
    Failure::Io(what.into(), io::ErrorKind::OutOfMemory.into())
}
