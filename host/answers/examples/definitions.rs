//! `--example definitions -- LIST [changed]`: prints the texts and refusals of LIST as equations over
//! the format's definitions, in the checker's language. `tests/definitions/run` has them checked.
//!
//! Of a refusal the number alone is compared: the Rust gives no offset. With `changed`, one byte of
//! a text and one number are wrong and one bad mark counts as a cut, and their equations are called
//! `changed-text`, `changed-number` and `changed-mark`.

use answers::Entry;
use std::io::Write;

const HEADER: &str = "\
-- The Rust's answers to small files: its texts, and the numbers of its refusals. 768 table words are more than any of these files needs.
use mathlib.Core.Path.{◌≡◌, refl}
use Prim.Native.Nat.{ℕ}
use mathlib.Core.List.{List, [], ◌∷◌}
use Rattle.bsii_format.specs.Replies.{number_of, Reply, gives, refuses}
use Rattle.bsii_format.specs.Calls.{text_of}
use Rattle.bsii_format.proofs.Worked.{computes}

unfoldable reply_number : Reply (List ℕ) → ℕ
reply_number (gives t) = 0
reply_number (refuses f) = number_of f.cause
";

fn main() -> std::io::Result<()> {
    let arguments: Vec<String> = std::env::args().skip(1).collect();
    let (list, changed) = match arguments.as_slice() {
        [list] => (list, false),
        [list, word] if word == "changed" => (list, true),
        _ => {
            eprintln!(
                "usage: cargo run --release --offline --example definitions -- LIST [changed]"
            );
            std::process::exit(2);
        }
    };
    let Some(mut entries) = answers::entries(&std::fs::read(list)?) else {
        eprintln!("{list} is no list of answers");
        std::process::exit(1);
    };
    let mut names: Vec<String> = (0..entries.len()).map(|i| format!("file-{i}")).collect();
    if changed {
        change(&mut entries, &mut names);
    }
    let mut out = std::io::stdout().lock();
    write!(out, "{HEADER}")?;
    for (entry, name) in entries.iter().zip(&names) {
        write!(out, "\n{}", equation(entry, name))?;
    }
    out.flush()
}

/// The definitions' number for the Rust's. Its InvalidInput, 3 in the list, is a cut or a bad mark;
/// the label says which, so that neither number passes for the other.
fn number(entry: &Entry) -> u32 {
    match entry.answer.reply {
        3 if entry.label.starts_with(MARK) => 15,
        reply => reply,
    }
}

/// How the labels of the files with a bad mark start.
const MARK: &str = "mark ";

/// The last text in its middle, the last refusal, and the last bad mark.
fn change(entries: &mut [Entry], names: &mut [String]) {
    let last = |is_asked: fn(&Entry) -> bool| {
        let found = entries.iter().rposition(is_asked);
        found.expect("texts, refusals and bad marks in the list")
    };
    let text = last(|entry| entry.answer.reply == 0);
    let number = last(|entry| entry.answer.reply != 0);
    let mark = last(|entry| entry.label.starts_with(MARK));
    let bytes = &mut entries[text].answer.text;
    let middle = bytes.len() / 2;
    bytes[middle] ^= 1;
    let reply = &mut entries[number].answer.reply;
    *reply = *reply % 9 + 1;
    names[text] = "changed-text".to_string();
    names[number] = "changed-number".to_string();
    entries[mark].label = "cut".to_string();
    names[mark] = "changed-mark".to_string();
}

fn equation(entry: &Entry, name: &str) -> String {
    let file = numerals(&entry.file);
    let (statement, unfolding) = match number(entry) {
        0 => {
            let text = numerals(&entry.answer.text);
            (format!("text_of 768 {file} ≡ gives {text}"), "computes")
        }
        number => {
            let statement = format!("reply_number (text_of 768 {file}) ≡ {number}");
            (statement, "computes reply_number")
        }
    };
    let label = &entry.label;
    format!("-- {label:?}\n{name} : {statement}\nunfolding {unfolding}\n{name} = refl\n")
}

fn numerals(bytes: &[u8]) -> String {
    let items: String = bytes.iter().map(|byte| format!("{byte} ∷ ")).collect();
    format!("({items}[])")
}
