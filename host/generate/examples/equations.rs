//! `--example equations -- LISTS [changed]`: prints the stored lists of insertions as equations over the
//! definitions of widening, in the checker's language: whether each is allowed. `tests/widening/lists`
//! has them checked.
//!
//! With `changed`, an allowed list is said to be refused and a refused one to be allowed; their
//! equations are called `changed-allowed` and `changed-refused`.

use generate::widening::{lists, Stored, Written};

const HEADER: &str = "\
-- Lists of insertions, and whether document 01 allows them. 768 table words are more than any of these saves needs.
use mathlib.Core.Path.{◌≡◌, refl}
use Prim.Native.Nat.{ℕ}
use mathlib.Core.Bool.{Bool, true, false}
use mathlib.Core.List.{List, [], ◌∷◌}
use Rattle.bsii_format.specs.File.{BsiiFile, parse}
use Rattle.bsii_widening.specs.Marks.{MarkedRecords, mark_records}
use Rattle.bsii_widening.specs.Written.{Written, field, prototype_at, block_at, made_all}
use Rattle.bsii_widening.specs.Example.{file_of}
use Rattle.bsii_widening.proofs.Computes.{computes_all}
use Rattle.bsii_widening.proofs.Decided.{allowed}

unfoldable on_records : ℕ → List Written → MarkedRecords → Bool
on_records version l M = allowed version (made_all version l M) M

unfoldable on_file : List Written → BsiiFile → Bool
on_file l f = on_records (f.header.value) l (mark_records (f.records))

unfoldable on : List Written → List ℕ → Bool
on l s = on_file l (file_of (parse 768 s))
";

fn main() {
    let arguments: Vec<String> = std::env::args().skip(1).collect();
    let (path, changed) = match arguments.as_slice() {
        [path] => (path, false),
        [path, word] if word == "changed" => (path, true),
        _ => stop("usage: cargo run --release --offline --example equations -- LISTS [changed]"),
    };
    let text = std::fs::read_to_string(path).unwrap_or_else(|error| stop(&error.to_string()));
    let Some(mut lists) = lists(&text) else {
        stop(&format!("{path} has no lists of insertions"));
    };
    let mut names: Vec<String> = (0..lists.len()).map(|i| format!("list-{i}")).collect();
    if changed {
        change(&mut lists, &mut names);
    }
    print!("{HEADER}");
    for (stored, name) in lists.iter().zip(&names) {
        print!("\n{}", equation(stored, name));
    }
}

fn stop(message: &str) -> ! {
    eprintln!("{message}");
    std::process::exit(2)
}

/// The last list of each kind.
fn change(lists: &mut [Stored], names: &mut [String]) {
    for (is_allowed, name) in [(true, "changed-allowed"), (false, "changed-refused")] {
        let last = lists.iter().rposition(|list| list.is_allowed == is_allowed);
        names[last.expect("lists of both kinds")] = name.to_string();
    }
    for (list, name) in lists.iter_mut().zip(names) {
        list.is_allowed ^= name.starts_with("changed");
    }
}

fn equation(stored: &Stored, name: &str) -> String {
    let items: String = stored
        .list
        .iter()
        .map(|item| written(item) + " ∷ ")
        .collect();
    let save = numerals(&stored.save);
    let (label, is_allowed) = (&stored.label, stored.is_allowed);
    format!(
        "-- {label}\n{name} : on ({items}[]) {save} ≡ {is_allowed}\nunfolding computes_all on on_file on_records\n{name} = refl\n"
    )
}

fn written(item: &Written) -> String {
    match item {
        Written::Field {
            id,
            position,
            definition,
            values,
        } => {
            let values: String = values.iter().map(|value| numerals(value) + " ∷ ").collect();
            let definition = numerals(definition);
            format!("field {id} {position} {definition} ({values}[])")
        }
        Written::Prototype { record, bytes } => format!("prototype_at {record} {}", numerals(bytes)),
        Written::Block { record, bytes } => format!("block_at {record} {}", numerals(bytes)),
    }
}

fn numerals(bytes: &[u8]) -> String {
    let items: String = bytes.iter().map(|byte| format!("{byte} ∷ ")).collect();
    format!("({items}[])")
}
